//! Lists that are lent (`mvpn.h`): a count, then so many items of a fixed number of fields; a field is its size and that
//! many octets. Octets after the last item are not looked at.

use super::{fault::Fault, Second};

/// A list taken apart.
#[derive(Clone, Debug, PartialEq, Eq)]
pub struct List<'a, const FIELDS: usize> {
    /// What the list says; 0 where it is shorter than its count.
    pub count: usize,
    /// The items that stand whole in it, at most `count`.
    pub items: Vec<[&'a [u8]; FIELDS]>,
    /// Whether it holds its count and all its items.
    pub whole: bool,
}

impl Second {
    pub fn list<'a, const FIELDS: usize>(&self, octets: &'a [u8]) -> List<'a, FIELDS> {
        let Some((count, rest)) = self.counted(octets) else {
            return List { count: 0, items: Vec::new(), whole: false };
        };
        let found: Vec<&[u8]> = fields(rest).take(count * FIELDS).collect();
        let ends = rest.len() == found.iter().map(|field| 2 + field.len()).sum();
        let whole = found.len() == count * FIELDS && (ends || !self.has(Fault::LIST_ENDS_WITH_ITEMS));
        List { count, items: found.as_chunks().0.to_vec(), whole }
    }

    /// The count and what stands behind it, where a list has two octets for it.
    fn counted<'a>(&self, octets: &'a [u8]) -> Option<(usize, &'a [u8])> {
        match octets {
            [high, low, rest @ ..] => {
                let high = if self.has(Fault::LIST_COUNT_LOW_OCTET) { 0 } else { *high };
                Some((number([high, *low]), rest))
            }
            [octet] if self.has(Fault::LIST_OCTET_COUNTED) => Some((number([0, *octet]), &[])),
            [octet] if self.has(Fault::LIST_OCTET_COUNTED_HIGH) => Some((number([*octet, 0]), &[])),
            [] if self.has(Fault::LIST_OF_NO_OCTETS) => Some((0, &[])),
            _ => None,
        }
    }
}

/// The fields that stand one after the other, up to the first that is not whole.
fn fields(octets: &[u8]) -> impl Iterator<Item = &[u8]> {
    let mut rest = octets;
    std::iter::from_fn(move || {
        let (size, after) = rest.split_first_chunk()?;
        let (field, after) = after.split_at_checked(number(*size))?;
        rest = after;
        Some(field)
    })
}

fn number(octets: [u8; 2]) -> usize {
    u16::from_be_bytes(octets).into()
}
