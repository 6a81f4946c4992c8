//! `mvpn_nlri_write` in plain Rust.

use super::{family_size, fec::alone, group::is_ssm, lent, shape::shape, FAMILY, GROUP, KEY, LONG, SPACE, TYPE, WIDTH};
use crate::ffi::{Address, Nlri, Written};

/// # Safety
/// As `mvpn.h` says: each pointer is valid for the length beside it, and the output overlaps nothing.
#[inline(never)]
pub unsafe extern "C" fn nlri_write(
    afi: u16,
    nlri: Nlri,
    key: *const u8,
    key_len: usize,
    fec: *const u8,
    fec_len: usize,
    output: *mut u8,
    output_len: usize,
) -> Written {
    let output = std::slice::from_raw_parts_mut(output, output_len);
    match encode(family_size(afi), &nlri, lent(key, key_len), lent(fec, fec_len), output) {
        Ok(size) => Written { number: 0, size },
        Err(number) => Written { number, size: 0 },
    }
}

#[inline(always)]
fn encode(family: usize, nlri: &Nlri, key: &[u8], fec: &[u8], output: &mut [u8]) -> Result<usize, u32> {
    let length = body_length(family, nlri, key, fec)?;
    let Some(output) = output.get_mut(..length + 2) else { return Err(SPACE) };
    output[0] = nlri.route_type;
    output[1] = length as u8;
    let mut rest = &mut output[2..];
    if matches!(nlri.route_type, 4 | 0x44) {
        put(&mut rest, key);
    } else {
        put(&mut rest, &nlri.distinguisher.octets);
    }
    if matches!(nlri.route_type, 2 | 6 | 7 | 0x47) {
        put(&mut rest, &nlri.source_as.to_be_bytes());
    }
    if matches!(nlri.route_type, 3 | 5..=7) {
        put(&mut rest, &[nlri.source.size * 8]);
        put_address(&mut rest, &nlri.source);
        put(&mut rest, &[nlri.group.size * 8]);
        put_address(&mut rest, &nlri.group);
    }
    if matches!(nlri.route_type, 0x43 | 0x47) {
        put(&mut rest, fec);
    }
    if matches!(nlri.route_type, 1 | 3 | 4 | 0x43 | 0x44) {
        put_address(&mut rest, &nlri.originator);
    }
    Ok(length + 2)
}

/// The Length field, or FAMILY, TYPE, WIDTH, IDENT, DEEP, LONG, KEY, GROUP.
#[inline(always)]
fn body_length(family: usize, nlri: &Nlri, key: &[u8], fec: &[u8]) -> Result<usize, u32> {
    if family == 0 {
        return Err(FAMILY);
    }
    let customer = |address: &Address| usize::from(address.size) == family;
    let wild = |address: &Address| address.size == 0 || customer(address);
    let [source, group, originator] = [&nlri.source, &nlri.group, &nlri.originator].map(|it| usize::from(it.size));
    let originated = originator == 4 || originator == 16;
    match nlri.route_type {
        1 if originated => Ok(8 + originator),
        2 => Ok(12),
        3 if wild(&nlri.source) && wild(&nlri.group) && originated => Ok(10 + source + group + originator),
        4 if originated => match is_key(family, key) {
            true => Ok(key.len() + originator),
            false => Err(KEY),
        },
        5 if customer(&nlri.source) && customer(&nlri.group) => match is_ssm(family, &nlri.group.octets) {
            true => Err(GROUP),
            false => Ok(10 + 2 * family),
        },
        6 | 7 if customer(&nlri.source) && customer(&nlri.group) => Ok(14 + 2 * family),
        0x43 if originated => alone(family, fec).and_then(|()| short(8 + fec.len() + originator)),
        0x44 if originated => match short(key.len() + originator)? {
            length if is_mldp_key(family, key) => Ok(length),
            _ => Err(KEY),
        },
        0x47 => alone(family, fec).and_then(|()| short(12 + fec.len())),
        1..=7 | 0x43 | 0x44 => Err(WIDTH),
        _ => Err(TYPE),
    }
}

#[inline(always)]
fn is_key(family: usize, key: &[u8]) -> bool {
    matches!(key.first(), Some(1..=3)) && shape(family, key).is_ok_and(|shape| shape.length + 2 == key.len())
}

#[inline(always)]
fn is_mldp_key(family: usize, key: &[u8]) -> bool {
    key.first() == Some(&0x43) && shape(family, key).is_ok_and(|shape| shape.length + 2 == key.len())
}

/// LONG where a Length field cannot say so many octets.
#[inline(always)]
fn short(length: usize) -> Result<usize, u32> {
    if length > 255 {
        Err(LONG)
    } else {
        Ok(length)
    }
}

#[inline(always)]
fn put(rest: &mut &mut [u8], octets: &[u8]) {
    let (front, back) = std::mem::take(rest).split_at_mut(octets.len());
    front.copy_from_slice(octets);
    *rest = back;
}

/// Copies of a known size are single moves.
#[inline(always)]
fn put_address(rest: &mut &mut [u8], address: &Address) {
    match address.size {
        4 => put(rest, &address.octets[..4]),
        16 => put(rest, &address.octets),
        _ => {}
    }
}
