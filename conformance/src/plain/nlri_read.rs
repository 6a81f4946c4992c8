//! `mvpn_nlri_read` in plain Rust.

use super::{
    family_size, lent,
    shape::{single, Shape},
    DONE, FAMILY,
};
use crate::ffi::{Address, Nlri, NlriReading, RouteDistinguisher, Span};

/// # Safety
/// As `mvpn.h` says: the pointer is valid for the length beside it.
#[inline(never)]
pub unsafe extern "C" fn nlri_read(afi: u16, nlri: *const u8, nlri_len: usize) -> NlriReading {
    let octets = lent(nlri, nlri_len);
    let family = family_size(afi);
    let refusal = |number| NlriReading { number, ..Default::default() };
    match single(family, octets) {
        _ if family == 0 => refusal(FAMILY),
        Err(number) => refusal(number),
        Ok(shape) => reading(&octets[2..], &shape),
    }
}

/// The fields of a body whose shape is known.
#[inline(always)]
fn reading(body: &[u8], shape: &Shape) -> NlriReading {
    let route_type = shape.route_type;
    let (distinguisher, start, key) = match route_type {
        4 | 0x44 => ([0; 8], shape.key, Span { start: 2, size: shape.key }),
        _ => (fixed(body), 8, Span::default()),
    };
    let rest = &body[start..];
    let (source_as, rest) = match route_type {
        2 | 6 | 7 | 0x47 => (u32::from_be_bytes(fixed(rest)), &rest[4..]),
        _ => (0, rest),
    };
    let (source, group, rest) = match route_type {
        3 | 5..=7 => {
            let (source, rest) = address(&rest[1..], shape.source);
            let (group, rest) = address(&rest[1..], shape.group);
            (source, group, rest)
        }
        _ => (Address::default(), Address::default(), rest),
    };
    let (fec, rest) = match route_type {
        0x43 | 0x47 => (Span { start: 2 + body.len() - rest.len(), size: shape.fec }, &rest[shape.fec..]),
        _ => (Span::default(), rest),
    };
    let (originator, _) = address(rest, shape.originator);
    let distinguisher = RouteDistinguisher { octets: distinguisher };
    let nlri = Nlri { distinguisher, source, group, originator, source_as, route_type };
    NlriReading { number: DONE, nlri, key, fec }
}

#[inline(always)]
fn fixed<const SIZE: usize>(octets: &[u8]) -> [u8; SIZE] {
    let mut fixed = [0; SIZE];
    fixed.copy_from_slice(&octets[..SIZE]);
    fixed
}

/// An address of 0, 4 or 16 octets and what follows it, held as one number so that no part of it is stored twice.
#[inline(always)]
fn address(octets: &[u8], size: usize) -> (Address, &[u8]) {
    let value = match size {
        4 => u128::from(u32::from_le_bytes(fixed(octets))),
        16 => u128::from_le_bytes(fixed(octets)),
        _ => 0,
    };
    (Address { octets: value.to_le_bytes(), size: size as u8 }, &octets[size..])
}
