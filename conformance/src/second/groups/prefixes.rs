//! Prefixes that say which groups are source-specific (document 02, W-209). A prefix is the addresses, as numbers, from its first to its
//! last; what can be wrong with a list of prefixes is rows, tried in turn.

use crate::second::{fault::Fault, lists::List, nlri::rows::Family, number::Number, Moved, Second};

/// The most prefixes of a list.
pub const MOST_PREFIXES: usize = 8;

/// The list that gives no prefixes.
pub const NO_PREFIXES: &[u8] = &[0, 0];

/// The first and the last address of a prefix, as numbers.
#[derive(Clone, Copy, Debug, PartialEq, Eq)]
pub struct Prefix {
    first: u128,
    last: u128,
}

/// A list of prefixes taken apart, and what they are judged by.
struct Given<'a> {
    /// The bits of an address.
    bits: u32,
    list: List<'a, 1>,
    /// The group asked about, which only faults look at.
    group: &'a [u8],
}

type Refusal = fn(&Second, &Given) -> Option<Number>;

/// What can be wrong, in the order in which it is told.
const REFUSALS: [Refusal; 3] = [Second::many_prefixes, Second::prefixes_end_early, Second::bad_prefix];

const MOVED: [Moved; 2] = [(Fault::PREFIXES_SHORT_FIRST, 0, 1), (Fault::PREFIXES_SHORT_LAST, 1, 2)];

impl Second {
    /// The prefixes of a list. RANGE for more than eight, SHORT for a list that ends before its items do, RANGE for a bad prefix.
    pub fn prefixes(&self, family: Family, prefixes: &[u8], group: &[u8]) -> Result<Vec<Prefix>, Number> {
        let octets = match group.len() {
            size @ (4 | 16) if self.has(Fault::PREFIXES_BY_GROUP_SIZE) => size,
            _ => family.octets(),
        };
        let given = Given { bits: 8 * octets as u32, list: self.prefix_list(prefixes), group };
        match self.ordered(REFUSALS, &MOVED).iter().find_map(|refusal| refusal(self, &given)) {
            Some(number) => Err(number),
            None => Ok(given.list.items.iter().filter_map(|[field]| self.prefix(given.bits, field)).collect()),
        }
    }

    fn prefix_list<'a>(&self, prefixes: &'a [u8]) -> List<'a, 1> {
        let mut list = self.list(prefixes);
        let octets = 2 + list.items.iter().map(|[field]| 2 + field.len()).sum::<usize>();
        list.whole |= self.has(Fault::PREFIXES_OF_NO_OCTETS) && prefixes.is_empty()
            || self.has(Fault::PREFIXES_OF_ONE_OCTET) && prefixes.len() == 1
            || self.has(Fault::PREFIXES_AS_FAR_AS_WHOLE);
        list.whole &= prefixes.len() <= octets || !self.has(Fault::PREFIXES_END_LIST);
        list
    }

    /// More than eight.
    fn many_prefixes(&self, given: &Given) -> Option<Number> {
        let List { count, items, .. } = &given.list;
        let count = match () {
            _ if self.has(Fault::PREFIXES_COUNT_LOW_OCTET) => count % 256,
            _ if self.has(Fault::PREFIXES_HELD_COUNTED) => items.len(),
            _ if self.has(Fault::PREFIXES_REPEATED_UNCOUNTED) => {
                count - items.iter().enumerate().filter(|(at, item)| items[..*at].contains(item)).count()
            }
            _ => *count,
        };
        let less = usize::from(self.has(Fault::PREFIXES_LIMIT_7));
        let more = usize::from(self.has(Fault::PREFIXES_LIMIT_9));
        let number = if self.has(Fault::PREFIXES_LONG) { Number::Long } else { Number::Range };
        (count > MOST_PREFIXES - less + more).then_some(number)
    }

    fn prefixes_end_early(&self, given: &Given) -> Option<Number> {
        let number = if self.has(Fault::PREFIXES_SHORT_AS_RANGE) { Number::Range } else { Number::Short };
        (!given.list.whole).then_some(number)
    }

    /// A prefix whose address is of another size, or whose length is over it, or that has a set bit past its length.
    fn bad_prefix(&self, given: &Given) -> Option<Number> {
        let fields: Vec<&[u8]> = given.list.items.iter().map(|[field]| *field).collect();
        let judged = match () {
            _ if self.has(Fault::PREFIXES_FIRST_JUDGED) => &fields[..fields.len().min(1)],
            _ if self.has(Fault::PREFIXES_LAST_JUDGED) => &fields[fields.len().saturating_sub(1)..],
            _ if self.has(Fault::PREFIXES_JUDGED_UNTIL_HELD) => {
                let holding = fields.iter().position(|field| self.is_holding(given, field));
                &fields[..holding.unwrap_or(fields.len())]
            }
            _ => &fields,
        };
        let bad = |field: &&[u8]| match self.prefix(given.bits, field) {
            None => !self.is_passed_over(given.bits, field),
            Some(prefix) => self.is_unwanted(given, &fields, &prefix),
        };
        judged.iter().any(bad).then_some(Number::Range)
    }

    fn is_holding(&self, given: &Given, field: &[u8]) -> bool {
        let prefix = self.prefix(given.bits, field).filter(|_| 8 * given.group.len() == given.bits as usize);
        prefix.is_some_and(|prefix| self.is_in(&prefix, self.address(given.group)))
    }

    /// Where a fault refuses a good prefix for what it holds, or for the others.
    fn is_unwanted(&self, given: &Given, fields: &[&[u8]], prefix: &Prefix) -> bool {
        let multicast = match given.bits {
            32 => Prefix { first: 0xE000_0000, last: 0xEFFF_FFFF },
            _ => Prefix { first: 0xFF << 120, last: u128::MAX },
        };
        let meets = |other: &Prefix| prefix.first <= other.last && other.first <= prefix.last;
        let prefixes = fields.iter().filter_map(|field| self.prefix(given.bits, field));
        self.has(Fault::PREFIXES_OUTSIDE_REFUSED) && !meets(&multicast)
            || self.has(Fault::PREFIXES_OVERLAPPING_REFUSED) && prefixes.clone().filter(meets).count() > 1
            || self.has(Fault::PREFIXES_EQUAL_REFUSED) && prefixes.filter(|other| other == prefix).count() > 1
    }

    /// Where a fault passes a prefix over instead of refusing it.
    fn is_passed_over(&self, bits: u32, field: &[u8]) -> bool {
        self.has(Fault::PREFIX_SIZE_PASSED_OVER) && field.len() * 8 != bits as usize + 8
            || self.has(Fault::PREFIX_EMPTY_PASSED_OVER) && field.is_empty()
            || self.has(Fault::PREFIX_BAD_PASSED_OVER)
    }

    /// The addresses of a prefix: a length, then the first of them, behind whose last set bit at least so many bits stand as the length
    /// leaves.
    fn prefix(&self, bits: u32, field: &[u8]) -> Option<Prefix> {
        let (length, address) = match field {
            [] if self.has(Fault::PREFIX_EMPTY_HOLDS_ALL) => (0, vec![0; bits as usize / 8]),
            [address @ .., length] if self.has(Fault::PREFIX_LENGTH_BEHIND) => (*length, address.to_vec()),
            [length, address @ ..] => (*length, address.to_vec()),
            [] => return None,
        };
        let address = self.sized(address, bits)?;
        let length = self.length(length.into(), bits)?;
        let (first, free) = (self.address(&address), bits - length);
        let whole_octets = free / 8 * 8;
        let clear = match () {
            _ if self.has(Fault::PREFIX_BITS_UNJUDGED) => true,
            _ if self.has(Fault::PREFIX_NEXT_BIT_JUDGED) => free == 0 || first >> (free - 1) & 1 == 0,
            _ if self.has(Fault::PREFIX_LAST_BIT_UNJUDGED) => (first >> 1 << 1).trailing_zeros() >= free,
            _ if self.has(Fault::PREFIX_LAST_OCTET_UNJUDGED) => first.trailing_zeros() >= whole_octets,
            _ if self.has(Fault::PREFIX_OCTETS_UNJUDGED) => {
                first.checked_shr(whole_octets).unwrap_or(0).trailing_zeros() >= free % 8
            }
            _ => first.trailing_zeros() >= free,
        };
        let free = match () {
            _ if self.has(Fault::PREFIX_OCTETS_HELD_MORE) => whole_octets,
            _ if self.has(Fault::PREFIX_OCTETS_HELD_FEWER) => free.div_ceil(8) * 8,
            _ if self.has(Fault::PREFIX_ONE_BIT_MORE) => free.saturating_sub(1),
            _ if self.has(Fault::PREFIX_ONE_BIT_FEWER) => bits.min(free + 1),
            _ if self.has(Fault::PREFIX_HOLDS_ITS_ADDRESS) => 0,
            _ => free,
        };
        let others = u128::MAX.checked_shr(128 - free).unwrap_or(0);
        clear.then_some(Prefix { first: first & !others, last: first | others })
    }

    /// The address, where it is of the family's size.
    fn sized(&self, mut address: Vec<u8>, bits: u32) -> Option<Vec<u8>> {
        let octets = bits as usize / 8;
        match address.len() {
            size if size == octets => {}
            0..4 if self.has(Fault::PREFIX_SIZE_SHORTER) => address.resize(octets, 0),
            4 | 16 if self.has(Fault::PREFIX_SIZE_OF_OTHER) => address.resize(octets, 0),
            _ if self.has(Fault::PREFIX_SIZE_UNJUDGED) => address.resize(octets, 0),
            _ => return None,
        }
        Some(address)
    }

    /// The length, where it is not over the address.
    fn length(&self, length: u32, bits: u32) -> Option<u32> {
        let length = if self.has(Fault::PREFIX_LENGTH_IN_OCTETS) { 8 * length } else { length };
        match length {
            _ if length == bits && self.has(Fault::PREFIX_WHOLE_REFUSED) => None,
            _ if length == bits + 1 && self.has(Fault::PREFIX_LENGTH_ONE_OVER) => Some(bits),
            33..=128 if self.has(Fault::PREFIX_LENGTH_OF_OTHER) => Some(length.min(bits)),
            _ if self.has(Fault::PREFIX_LENGTH_UNJUDGED) => Some(length.min(bits)),
            0 if self.has(Fault::PREFIX_LENGTH_0_REFUSED) => None,
            _ => (length <= bits).then_some(length),
        }
    }

    /// An address as a number.
    fn address(&self, address: &[u8]) -> u128 {
        let reversed = |octet: u8| if self.has(Fault::PREFIX_BITS_FROM_LOWEST) { octet.reverse_bits() } else { octet };
        address.iter().fold(0, |number, octet| number << 8 | u128::from(reversed(*octet)))
    }

    fn is_in(&self, prefix: &Prefix, address: u128) -> bool {
        let Prefix { first, last } = *prefix;
        let lost = self.has(Fault::PREFIX_LAST_ADDRESS_LOST) && address == last
            || self.has(Fault::PREFIX_LENGTH_0_HOLDS_NONE) && is_all(prefix);
        first <= address && address <= last && !lost
    }

    /// Whether a group is source-specific: one of the prefixes holds it, or, where none is given, the standard range does.
    pub(super) fn is_specific(&self, prefixes: &[Prefix], group: &[u8], standard: bool) -> bool {
        let group = self.address(group);
        let mut holds = prefixes.iter().map(|prefix| self.is_in(prefix, group));
        match prefixes {
            [] if self.has(Fault::PREFIXES_NONE_ALL_ASM) => false,
            [] => standard,
            _ if self.has(Fault::PREFIXES_IGNORED) => standard,
            _ if self.has(Fault::PREFIX_LENGTH_0_IS_NONE) && prefixes.iter().any(is_all) => standard,
            _ if self.has(Fault::PREFIXES_BESIDE_STANDARD) => standard || holds.any(|it| it),
            _ if self.has(Fault::PREFIXES_WITHIN_STANDARD) => standard && holds.any(|it| it),
            _ if self.has(Fault::PREFIXES_FIRST_HOLDS) => holds.next().unwrap_or(false),
            _ if self.has(Fault::PREFIXES_LAST_HOLDS) => holds.next_back().unwrap_or(false),
            _ if self.has(Fault::PREFIXES_ALL_HOLD) => holds.all(|it| it),
            _ if self.has(Fault::PREFIXES_ONE_HOLDS) => holds.filter(|it| *it).count() == 1,
            _ if self.has(Fault::PREFIXES_INVERTED) => !holds.any(|it| it),
            _ => holds.any(|it| it),
        }
    }
}

/// Whether these are all addresses of a family.
fn is_all(prefix: &Prefix) -> bool {
    prefix.first == 0 && matches!(prefix.last, 0xFFFF_FFFF | u128::MAX)
}
