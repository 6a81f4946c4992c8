//! The sizes of an NLRI's fields, found without copying any.

use super::{fec, group::is_ssm, GROUP, KEY, LENGTH, SHORT, TYPE, WIDTH};

#[derive(Clone, Copy)]
pub struct Shape {
    pub route_type: u8,
    pub length: usize,
    pub source: usize,
    pub group: usize,
    pub originator: usize,
    pub key: usize,
    pub fec: usize,
}

/// Exactly one NLRI: LENGTH for octets after it comes before GROUP.
#[inline(always)]
pub fn single(family: usize, octets: &[u8]) -> Result<Shape, u32> {
    match shape(family, octets) {
        Ok(shape) if shape.length + 2 != octets.len() => Err(LENGTH),
        Err(GROUP) if usize::from(octets[1]) + 2 != octets.len() => Err(LENGTH),
        judged => judged,
    }
}

/// The NLRI at the front; `family` is the size of a customer address.
#[inline(always)]
pub fn shape(family: usize, octets: &[u8]) -> Result<Shape, u32> {
    let [route_type, length, rest @ ..] = octets else {
        return Err(SHORT);
    };
    let length = usize::from(*length);
    let Some(body) = rest.get(..length) else { return Err(SHORT) };
    let bare = Shape { route_type: *route_type, length, source: 0, group: 0, originator: 0, key: 0, fec: 0 };
    match route_type {
        4 => leaf(family, body, bare),
        5 => source_active(family, body, bare),
        6 | 7 => pair(family, body, 12, bare),
        0x43 => mldp_s_pmsi(family, body, bare),
        0x44 => mldp_leaf(family, body, bare),
        0x47 => mldp_join(family, body, bare),
        _ => keyed(family, body, bare),
    }
}

/// Whether the octets are one NLRI of type 3.
#[inline(always)]
pub fn is_s_pmsi(family: usize, octets: &[u8]) -> bool {
    let [3, length, body @ ..] = octets else { return false };
    let bare = Shape { route_type: 3, length: body.len(), source: 0, group: 0, originator: 0, key: 0, fec: 0 };
    usize::from(*length) == body.len() && s_pmsi(family, body, bare).is_ok()
}

/// Types 1, 2 and 3, which a Leaf may carry as its key.
#[inline(always)]
fn keyed(family: usize, body: &[u8], bare: Shape) -> Result<Shape, u32> {
    match (bare.route_type, body.len()) {
        (1, 12) => Ok(Shape { originator: 4, ..bare }),
        (1, 24) => Ok(Shape { originator: 16, ..bare }),
        (2, 12) => Ok(bare),
        (3, _) => s_pmsi(family, body, bare),
        (1 | 2, _) => Err(LENGTH),
        _ => Err(TYPE),
    }
}

#[inline(always)]
fn s_pmsi(family: usize, body: &[u8], bare: Shape) -> Result<Shape, u32> {
    let source = wildcard_or(family, body.get(8))?;
    let group = wildcard_or(family, body.get(9 + source))?;
    let fixed = 10 + source + group;
    if body.len() == fixed + 4 || body.len() == fixed + 16 {
        Ok(Shape { source, group, originator: body.len() - fixed, ..bare })
    } else {
        Err(LENGTH)
    }
}

#[inline(always)]
fn wildcard_or(family: usize, bits: Option<&u8>) -> Result<usize, u32> {
    match bits {
        None => Err(LENGTH),
        Some(0) => Ok(0),
        Some(bits) if usize::from(*bits) == family * 8 => Ok(family),
        Some(_) => Err(WIDTH),
    }
}

/// A source and a group at the body's end, `before` octets into it.
#[inline(always)]
fn pair(family: usize, body: &[u8], before: usize, bare: Shape) -> Result<Shape, u32> {
    for place in [before, before + 1 + family] {
        match body.get(place) {
            None => return Err(LENGTH),
            Some(bits) if usize::from(*bits) != family * 8 => return Err(WIDTH),
            Some(_) => {}
        }
    }
    if body.len() == before + 2 + 2 * family {
        Ok(Shape { source: family, group: family, ..bare })
    } else {
        Err(LENGTH)
    }
}

/// GROUP for an SSM group.
#[inline(always)]
fn source_active(family: usize, body: &[u8], bare: Shape) -> Result<Shape, u32> {
    let shape = pair(family, body, 8, bare)?;
    match is_ssm(family, &body[10 + family..]) {
        true => Err(GROUP),
        false => Ok(shape),
    }
}

#[inline(always)]
fn leaf(family: usize, body: &[u8], bare: Shape) -> Result<Shape, u32> {
    let Some((route_type, key, rest)) = divided(body) else { return Err(KEY) };
    if keyed(family, key, Shape { route_type, ..bare }).is_err() {
        return Err(KEY);
    }
    with_key(key, rest, bare)
}

/// The route type and the body of the key at the front of a Leaf's body, and what follows it.
#[inline(always)]
fn divided(body: &[u8]) -> Option<(u8, &[u8], &[u8])> {
    let [route_type, length, rest @ ..] = body else { return None };
    let (key, rest) = rest.split_at_checked(usize::from(*length))?;
    Some((*route_type, key, rest))
}

#[inline(always)]
fn with_key(key: &[u8], rest: &[u8], bare: Shape) -> Result<Shape, u32> {
    match rest.len() {
        originator @ (4 | 16) => Ok(Shape { originator, key: key.len() + 2, ..bare }),
        _ => Err(LENGTH),
    }
}

#[inline(always)]
fn mldp_s_pmsi(family: usize, body: &[u8], bare: Shape) -> Result<Shape, u32> {
    let Some(rest) = body.get(8..) else { return Err(LENGTH) };
    let fec = fec::in_body(family, rest)?;
    match rest.len() - fec {
        originator @ (4 | 16) => Ok(Shape { originator, fec, ..bare }),
        _ => Err(LENGTH),
    }
}

#[inline(always)]
fn mldp_leaf(family: usize, body: &[u8], bare: Shape) -> Result<Shape, u32> {
    match divided(body) {
        Some((0x43, key, rest)) if mldp_s_pmsi(family, key, bare).is_ok() => with_key(key, rest, bare),
        _ => Err(KEY),
    }
}

#[inline(always)]
fn mldp_join(family: usize, body: &[u8], bare: Shape) -> Result<Shape, u32> {
    let Some(rest) = body.get(12..) else { return Err(LENGTH) };
    match fec::in_body(family, rest)? {
        fec if fec == rest.len() => Ok(Shape { fec, ..bare }),
        _ => Err(LENGTH),
    }
}
