//! `mvpn_attribute_read` and `mvpn_attribute_write` in plain Rust.

use super::{lent, IDENT, LABEL, LONG, SHORT, SPACE, TUNNEL};
use crate::ffi::{AttributeReading, Fec, Span, Written};

const LONGEST: usize = 64;

/// # Safety
/// As `mvpn.h` says: the pointer is valid for the length beside it.
#[inline(never)]
pub unsafe extern "C" fn attribute_read(attribute: *const u8, attribute_len: usize) -> AttributeReading {
    let refusal = |number| AttributeReading { number, ..Default::default() };
    if attribute_len > LONGEST {
        return refusal(LONG);
    }
    let [flags, tunnel_type, high, middle, low, identifier @ ..] = lent(attribute, attribute_len) else {
        return refusal(SHORT);
    };
    let fec = match identified(*tunnel_type, identifier) {
        Ok(fec) => fec,
        Err(number) => return refusal(number),
    };
    let label_field = u32::from_be_bytes([0, *high, *middle, *low]);
    AttributeReading {
        number: 0,
        flags: u32::from(*flags),
        tunnel_type: u32::from(*tunnel_type),
        label_field,
        label: label_field >> 4,
        leaf_information_required: u32::from(flags & 1),
        identifier: Span { start: 5, size: identifier.len() },
        fec,
    }
}

/// Attribute reading, then LABEL: what install asks of an attribute.
#[inline(always)]
pub fn installable(attribute: &[u8]) -> Result<(), u32> {
    readable(attribute)?;
    match attribute {
        [_, 11, 0, 0, 0..=15, ..] => Err(LABEL),
        _ => Ok(()),
    }
}

/// Attribute reading: what is asked of a Leaf's.
#[inline(always)]
pub fn readable(attribute: &[u8]) -> Result<(), u32> {
    if attribute.len() > LONGEST {
        return Err(LONG);
    }
    let [_, tunnel_type, _, _, _, identifier @ ..] = attribute else {
        return Err(SHORT);
    };
    identified(*tunnel_type, identifier).map(drop)
}

/// TUNNEL, IDENT, or the FEC's shape.
#[inline(always)]
fn identified(tunnel_type: u8, identifier: &[u8]) -> Result<Fec, u32> {
    match (tunnel_type, identifier.len()) {
        (0, 0) | (1, 12) | (3..=5, 8 | 32) | (6, 4 | 16) | (11, 7 | 19) => Ok(Fec::default()),
        (2 | 7, _) => element(tunnel_type, identifier).ok_or(IDENT),
        (0..=7 | 11, _) => Err(IDENT),
        _ => Err(TUNNEL),
    }
}

#[inline(always)]
fn element(tunnel_type: u8, identifier: &[u8]) -> Option<Fec> {
    let (root, address_family) = match identifier {
        [_, 0, 1, 4, ..] => (4, 1),
        [_, 0, 2, 16, ..] => (16, 2),
        _ => return None,
    };
    let fec_type = identifier[0];
    if !matches!((tunnel_type, fec_type), (2, 6) | (7, 7 | 8)) {
        return None;
    }
    let &[high, low, ref opaque @ ..] = identifier.get(4 + root..)? else {
        return None;
    };
    (usize::from(u16::from_be_bytes([high, low])) == opaque.len()).then_some(Fec {
        fec_type: u32::from(fec_type),
        address_family,
        root: Span { start: 9, size: root },
        opaque: Span { start: 11 + root, size: opaque.len() },
    })
}

/// # Safety
/// As `mvpn.h` says: each pointer is valid for the length beside it, and the output overlaps nothing.
#[inline(never)]
pub unsafe extern "C" fn attribute_write(
    flags: u8,
    tunnel_type: u8,
    label_field: u32,
    identifier: *const u8,
    identifier_len: usize,
    output: *mut u8,
    output_len: usize,
) -> Written {
    let identifier = lent(identifier, identifier_len);
    let refusal = |number| Written { number, size: 0 };
    if identifier.len() > LONGEST - 5 {
        return refusal(LONG);
    }
    if let Err(number) = identified(tunnel_type, identifier) {
        return refusal(number);
    }
    if label_field >> 24 != 0 {
        return refusal(LABEL);
    }
    let size = identifier.len() + 5;
    let Some(output) = std::slice::from_raw_parts_mut(output, output_len).get_mut(..size) else {
        return refusal(SPACE);
    };
    let [_, high, middle, low] = label_field.to_be_bytes();
    output[..5].copy_from_slice(&[flags, tunnel_type, high, middle, low]);
    output[5..].copy_from_slice(identifier);
    Written { number: 0, size }
}
