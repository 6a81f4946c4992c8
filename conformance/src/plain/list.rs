//! Lists that are lent, in plain Rust.

/// The count of a list; 0 where it is shorter than two octets.
#[inline(always)]
pub fn count(list: &[u8]) -> usize {
    match list {
        [high, low, ..] => usize::from(u16::from_be_bytes([*high, *low])),
        _ => 0,
    }
}

/// The field at the front, which is taken off.
#[inline(always)]
pub fn field<'a>(rest: &mut &'a [u8]) -> Option<&'a [u8]> {
    let (size, after) = rest.split_first_chunk()?;
    let (field, after) = after.split_at_checked(usize::from(u16::from_be_bytes(*size)))?;
    *rest = after;
    Some(field)
}
