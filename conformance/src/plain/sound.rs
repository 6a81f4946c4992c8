//! What makes lent memory a sound table (document 01, "The table memory"; document 02, W-208).

use super::{attribute::installable, shape::is_s_pmsi};

pub const HEADER: usize = 8;
pub const PLACE: usize = 128;
pub const MOST_PLACES: usize = 500;

/// The octet of a taken place that says whether its route is marked stale: the last one, 0 or 1.
pub const MARK: usize = PLACE - 1;

/// A part of a place: large enough that the loop over them costs little beside reading them.
const BLOCK: usize = 64;

/// NLRI size, attribute size, NLRI, attribute, zeros, mark.
pub type Place = [u8; PLACE];

/// A sound table: its AFI, and its routes in the order of their NLRIs.
pub struct Sound<'a> {
    pub afi: u16,
    pub taken: &'a [Place],
}

/// The header and the places of memory that has a table's size.
#[inline(always)]
pub fn divided(table: &[u8]) -> Option<(&[u8; HEADER], &[Place])> {
    let (header, rest) = table.split_first_chunk()?;
    match rest.as_chunks() {
        (places, []) if places.len() <= MOST_PLACES => Some((header, places)),
        _ => None,
    }
}

#[inline(always)]
pub fn sound(table: &[u8]) -> Option<Sound<'_>> {
    let (&[b'M', b'V', b'T', 0, 1, afi, high, low], places) = divided(table)? else { return None };
    let (taken, free) = places.split_at_checked(usize::from(u16::from_be_bytes([high, low])))?;
    let routes = match afi {
        1 => are_routes::<4>(taken),
        2 => are_routes::<16>(taken),
        _ => false,
    };
    (routes && are_free(free)).then_some(Sound { afi: u16::from(afi), taken })
}

/// Whether every octet is 0. All of them are looked at, in blocks, so that the compiler can take many together.
#[inline(always)]
fn are_free(places: &[Place]) -> bool {
    let (blocks, _) = places.as_flattened().as_chunks::<BLOCK>();
    let mut seen = [0; BLOCK];
    for block in blocks {
        seen.iter_mut().zip(block).for_each(|(seen, octet)| *seen |= octet);
    }
    seen == [0; BLOCK]
}

/// Whether each place holds a route that install would accept, the NLRIs strictly increasing.
fn are_routes<const FAMILY: usize>(taken: &[Place]) -> bool {
    let mut last = None;
    for place in taken {
        let Some(nlri) = good_nlri::<FAMILY>(place) else { return false };
        if last.is_some_and(|last| last >= nlri) {
            return false;
        }
        last = Some(nlri);
    }
    true
}

/// The NLRI of a place that is good by itself: it holds a route that install would accept, zeros, and a mark of 0 or 1.
#[inline(always)]
pub fn good_nlri<const FAMILY: usize>(place: &Place) -> Option<&[u8]> {
    let (nlri, attribute, rest) = parts(place)?;
    let accepted = place[MARK] <= 1 && is_s_pmsi(FAMILY, nlri) && installable(attribute).is_ok();
    (accepted && is_zero(rest)).then_some(nlri)
}

/// The NLRI, the attribute and the octets between them and the mark, as the place's two sizes divide it.
#[inline(always)]
fn parts(place: &Place) -> Option<(&[u8], &[u8], &[u8])> {
    let [nlri_size, attribute_size, octets @ .., _] = place;
    let (nlri, rest) = octets.split_at_checked(usize::from(*nlri_size))?;
    let (attribute, rest) = rest.split_at_checked(usize::from(*attribute_size))?;
    Some((nlri, attribute, rest))
}

/// By words from the end; a word at the front takes what they leave.
#[inline(always)]
fn is_zero(octets: &[u8]) -> bool {
    let Some(front) = octets.first_chunk() else { return octets.iter().all(|octet| *octet == 0) };
    let (_, words) = octets.as_rchunks();
    words.iter().fold(u128::from_ne_bytes(*front), |seen, word| seen | u128::from_ne_bytes(*word)) == 0
}

/// The NLRI of a taken place.
#[inline(always)]
pub fn nlri_of(place: &Place) -> &[u8] {
    &place[2..][..usize::from(place[0])]
}
