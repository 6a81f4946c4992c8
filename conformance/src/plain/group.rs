//! `mvpn_group_class` in plain Rust.

use super::{
    lent,
    list::{count, field},
    DONE, FAMILY, FLOW, RANGE, SHORT,
};
use crate::ffi::Group;

const ASM: u32 = 1;
pub const SSM: u32 = 2;

const MOST_PREFIXES: usize = 8;

/// # Safety
/// As `mvpn.h` says: each pointer is valid for the length beside it.
#[inline(never)]
pub unsafe extern "C" fn group_class(
    afi: u16,
    prefixes: *const u8,
    prefixes_len: usize,
    group: *const u8,
    group_len: usize,
) -> Group {
    let (number, group_class) = class(afi, lent(prefixes, prefixes_len), lent(group, group_len));
    Group { number, group_class }
}

/// The number, and the class where it is DONE.
#[inline(always)]
pub fn class(afi: u16, prefixes: &[u8], group: &[u8]) -> (u32, u32) {
    match prefixes {
        [0, 0, ..] => standard(afi, group),
        _ => among(afi, prefixes, group),
    }
}

/// The same by the standard range.
#[inline(always)]
fn standard(afi: u16, group: &[u8]) -> (u32, u32) {
    match (afi, group) {
        (1, [232, _, _, _]) => (DONE, SSM),
        (1, [224..=239, _, _, _]) => (DONE, ASM),
        (2, octets) if octets.len() != 16 => (FLOW, 0),
        (2, [0xFF, 0x30..=0x3F, 0, 0, ..]) => (DONE, SSM),
        (2, [0xFF, ..]) => (DONE, ASM),
        (1 | 2, _) => (FLOW, 0),
        _ => (FAMILY, 0),
    }
}

/// Whether an address of the family's size is a group of the standard range.
#[inline(always)]
pub fn is_ssm(family: usize, group: &[u8]) -> bool {
    match family {
        4 => group[0] == 232,
        _ => matches!(group, [0xFF, 0x30..=0x3F, 0, 0, ..]),
    }
}

/// The same by prefixes, where the list is not one of none.
#[inline(never)]
fn among(afi: u16, prefixes: &[u8], group: &[u8]) -> (u32, u32) {
    let held = match afi {
        1 => held_by::<u32>(prefixes, group),
        2 => held_by::<u128>(prefixes, group),
        _ => Err(FAMILY),
    };
    match (held, standard(afi, group)) {
        (Err(number), _) => (number, 0),
        (Ok(true), (DONE, _)) => (DONE, SSM),
        (Ok(false), (DONE, _)) => (DONE, ASM),
        (Ok(_), refused) => refused,
    }
}

/// Whether one of the prefixes holds the group; RANGE, SHORT. A group of another size is held by none.
#[inline(never)]
fn held_by<Number: Address>(prefixes: &[u8], group: &[u8]) -> Result<bool, u32> {
    let count = count(prefixes);
    if count > MOST_PREFIXES {
        return Err(RANGE);
    }
    let mut rest = prefixes.get(2..).ok_or(SHORT)?;
    let group = Number::of(group);
    let (mut good, mut held) = (true, false);
    for _ in 0..count {
        let [length, address @ ..] = field(&mut rest).ok_or(SHORT)? else {
            good = false;
            continue;
        };
        match (Number::of(address), Number::past(*length)) {
            (Some(address), Some(past)) => {
                good &= address & past == Number::default();
                held |= group.is_some_and(|group| group & !past == address);
            }
            _ => good = false,
        }
    }
    match good {
        true => Ok(held),
        false => Err(RANGE),
    }
}

/// An address as a number.
trait Address: Copy + Default + PartialEq + std::ops::BitAnd<Output = Self> + std::ops::Not<Output = Self> {
    /// None for an address of another size.
    fn of(octets: &[u8]) -> Option<Self>;

    /// The bits past a length; none where it is over the address.
    fn past(length: u8) -> Option<Self>;
}

impl Address for u32 {
    #[inline(always)]
    fn of(octets: &[u8]) -> Option<u32> {
        Some(u32::from_be_bytes(octets.try_into().ok()?))
    }

    #[inline(always)]
    fn past(length: u8) -> Option<u32> {
        (length <= 32).then(|| (u64::from(u32::MAX) >> length) as u32)
    }
}

impl Address for u128 {
    #[inline(always)]
    fn of(octets: &[u8]) -> Option<u128> {
        Some(u128::from_be_bytes(octets.try_into().ok()?))
    }

    #[inline(always)]
    fn past(length: u8) -> Option<u128> {
        match length {
            0..128 => Some(u128::MAX >> length),
            128 => Some(0),
            _ => None,
        }
    }
}
