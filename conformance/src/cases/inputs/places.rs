//! The octets of tables, laid out by hand (document 01, "The table memory"; document 02, W-208).

/// The header of a table that holds so many routes.
pub fn header(afi: u16, count: usize) -> [u8; 8] {
    let [high, low] = (count as u16).to_be_bytes();
    [b'M', b'V', b'T', 0, 1, afi as u8, high, low]
}

/// A place that holds these, where they fit; the sizes are theirs.
pub fn laid_out(nlri: &[u8], attribute: &[u8], mark: u8) -> Vec<u8> {
    let mut place = [&[nlri.len() as u8, attribute.len() as u8], nlri, attribute].concat();
    place.resize(128, 0);
    place[127] |= mark;
    place
}
