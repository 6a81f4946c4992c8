//! An mLDP FEC element in an NLRI, with those inside it, in plain Rust.

use super::{DEEP, IDENT, LENGTH};

/// The most elements, one inside the other.
const DEEPEST: usize = 4;

/// The octets of the FEC at the front of what is left of a body; `family` is the size of the AFI's addresses.
#[inline(always)]
pub fn in_body(family: usize, rest: &[u8]) -> Result<usize, u32> {
    let (start, end) = opaque_value(family, rest)?;
    held(&rest[start..end])?;
    Ok(end)
}

/// Whether the octets are exactly one FEC: IDENT, DEEP.
#[inline(always)]
pub fn alone(family: usize, octets: &[u8]) -> Result<(), u32> {
    match opaque_value(family, octets) {
        Ok((start, end)) if end == octets.len() => held(&octets[start..]),
        _ => Err(IDENT),
    }
}

/// Where the opaque value of the outermost element starts and ends.
#[inline(always)]
fn opaque_value(family: usize, rest: &[u8]) -> Result<(usize, usize), u32> {
    let number = if family == 4 { 1 } else { 2 };
    match rest {
        [6..=8, 0, afi, size, behind @ ..] if *afi == number && usize::from(*size) == family => {
            let Some([high, low, opaque @ ..]) = behind.get(family..) else { return Err(LENGTH) };
            let length = usize::from(u16::from_be_bytes([*high, *low]));
            let start = 6 + family;
            if length <= opaque.len() {
                Ok((start, start + length))
            } else {
                Err(LENGTH)
            }
        }
        [] | [6..=8] | [6..=8, _] => Err(LENGTH),
        [6..=8, 0, afi] if *afi == number => Err(LENGTH),
        _ => Err(IDENT),
    }
}

/// What an opaque value holds, element after element: IDENT, DEEP.
#[inline(always)]
fn held(opaque: &[u8]) -> Result<(), u32> {
    let mut opaque = opaque;
    for _ in 1..DEEPEST {
        let [7 | 8, ..] = opaque else { return Ok(()) };
        opaque = inner(opaque).ok_or(IDENT)?;
    }
    match opaque {
        [7 | 8, ..] => Err(DEEP),
        _ => Ok(()),
    }
}

/// The opaque value of the element that this one holds.
#[inline(always)]
fn inner(opaque: &[u8]) -> Option<&[u8]> {
    let [opaque_type, high, low, held @ ..] = opaque else { return None };
    if usize::from(u16::from_be_bytes([*high, *low])) != held.len() {
        return None;
    }
    let element = if *opaque_type == 8 { held.get(8..)? } else { held };
    let behind = match element {
        [6..=8, 0, 1, 4, behind @ ..] => behind.get(4..)?,
        [6..=8, 0, 2, 16, behind @ ..] => behind.get(16..)?,
        _ => return None,
    };
    let [high, low, opaque @ ..] = behind else { return None };
    (usize::from(u16::from_be_bytes([*high, *low])) == opaque.len()).then_some(opaque)
}
