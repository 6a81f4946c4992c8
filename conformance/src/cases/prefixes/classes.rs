//! Prefixes for source-specific groups (document 02, W-209), in the group class call: every length, size and count, bad prefixes at each
//! place, prefixes that overlap, lists that are cut or changed at every octet, and the order of refusals; then matches by them.

use super::{examples, matches};
use crate::{
    cases::inputs::{
        lists::{counting, list, prefix, prefix_of, set, Prefix, EMPTY},
        routes::{picked, Addresses},
        samples::{BAD_AFIS, GOOD_AFIS},
    },
    compare::{Checked, Harness, Input},
    random::Random,
    second::groups::prefixes::MOST_PREFIXES,
};
use std::slice::from_ref;

/// Random lists of each family: so many, and one more for so many random cases.
const ROUNDS: u64 = 4_000;
const CASES_A_ROUND: u64 = 40;

pub fn all(harness: &mut Harness, random: &mut Random, cases: u64) -> Checked {
    examples::all(harness)?;
    for afi in GOOD_AFIS {
        let addresses = Addresses::of_family(afi);
        let asked = Asked { afi, bits: 8 * addresses.groups[0].len(), addresses: &addresses };
        asked.lengths(harness, random)?;
        asked.edges(harness, random)?;
        asked.length_octets(harness)?;
        asked.sizes(harness)?;
        asked.counts(harness)?;
        asked.places(harness)?;
        asked.overlapping(harness, random)?;
        asked.cuts(harness)?;
        asked.changes(harness)?;
        asked.order(harness)?;
        matches::all(harness, random, &addresses)?;
        for _ in 0..ROUNDS + cases / CASES_A_ROUND {
            asked.any(harness, random)?;
            matches::any(harness, random, &addresses)?;
        }
    }
    Ok(())
}

struct Asked<'a> {
    afi: u16,
    /// Of an address.
    bits: usize,
    addresses: &'a Addresses,
}

impl Asked<'_> {
    fn class(&self, harness: &mut Harness, prefixes: &[u8], group: &[u8]) -> Checked {
        harness.group_class(self.afi, prefixes, group).map(drop)
    }

    /// A multicast group, else of any bits.
    fn group(&self, random: &mut Random) -> Vec<u8> {
        let mut group = random.octets(self.bits / 8);
        group[0] = if self.afi == 1 { 0xE0 | group[0] & 0x0F } else { 0xFF };
        group
    }

    /// Each length: groups that differ from one that the prefix holds in each bit, and the prefix with each bit another, so that with each
    /// bit past the length set.
    fn lengths(&self, harness: &mut Harness, random: &mut Random) -> Checked {
        for length in 0..=self.bits {
            for group in [self.addresses.groups[0].clone(), self.addresses.groups[2].clone(), self.group(random)] {
                let [field] = prefix_of(length as u8, &group);
                self.class(harness, &list(&[[field.clone()]]), &group)?;
                for bit in 0..self.bits {
                    self.class(harness, &list(&[[field.clone()]]), &with_other(&group, bit))?;
                    let other = [&field[..1], &with_other(&field[1..], bit)].concat();
                    self.class(harness, &list(&[[other.clone()]]), &group)?;
                    // Behind one that holds the group, and before it.
                    if bit % 5 == length % 5 {
                        self.class(harness, &list(&[[field.clone()], [other.clone()]]), &group)?;
                        self.class(harness, &list(&[[other], [field.clone()]]), &group)?;
                    }
                }
            }
        }
        Ok(())
    }

    /// Each length: the first and the last address of a prefix, and those before and after them.
    fn edges(&self, harness: &mut Harness, random: &mut Random) -> Checked {
        for length in 0..=self.bits {
            for group in [self.addresses.groups[3].clone(), self.group(random)] {
                let [field] = prefix_of(length as u8, &group);
                let first = field[1..].to_vec();
                let mut last = first.clone();
                (length..self.bits).for_each(|bit| set(&mut last, bit, true));
                for group in [before(&first), first, after(&last), last] {
                    self.class(harness, &list(&[[field.clone()]]), &group)?;
                }
            }
        }
        Ok(())
    }

    /// Every length octet, of addresses whose bits are all clear, all set, or those of a group.
    fn length_octets(&self, harness: &mut Harness) -> Checked {
        let octets = self.bits / 8;
        for address in [vec![0; octets], vec![0xFF; octets], self.addresses.groups[2].clone()] {
            for length in 0..=255 {
                for group in &self.addresses.groups {
                    self.class(harness, &list(&[prefix(length, &address)]), group)?;
                }
            }
        }
        Ok(())
    }

    /// Fields of every size up to 40 and of others, alone, behind a prefix that holds the group, and before it.
    fn sizes(&self, harness: &mut Harness) -> Checked {
        let group = &self.addresses.groups[2];
        let good = prefix_of(8, group);
        for size in (0..=40).chain([255, 256, 260, 261, 272, 273, 1_029, 65_535]) {
            for (length, octet) in [0, 8, 32, 128].into_iter().flat_map(|length| [(length, 0), (length, group[0])]) {
                let mut field = vec![octet; size];
                field.iter_mut().skip(2).for_each(|octet| *octet = 0);
                field.iter_mut().take(1).for_each(|first| *first = length);
                let field = [field];
                for items in [vec![field.clone()], vec![good.clone(), field.clone()], vec![field, good.clone()]] {
                    for group in &self.addresses.groups[..3] {
                        self.class(harness, &list(&items), group)?;
                    }
                }
            }
        }
        Ok(())
    }

    /// Counts about 0, 8, 256 and the most, with as many prefixes, one fewer and one more; good ones and bad ones.
    fn counts(&self, harness: &mut Harness) -> Checked {
        let group = &self.addresses.groups[2];
        let bad = prefix(8 * group.len() as u8 + 1, group);
        for item in [prefix_of(8, group), prefix_of(self.bits as u8, &self.addresses.groups[3]), bad, [Vec::new()]] {
            for count in (0..=20usize).chain([127, 128, 255, 256, 257, 263, 264, 265, 512, 2_048, 32_768, 65_535]) {
                for held in [0, count.saturating_sub(1), count, count + 1] {
                    let prefixes = counting(count, &vec![item.clone(); held.min(300)]);
                    for group in [group, &self.addresses.groups[4]] {
                        self.class(harness, &prefixes, group)?;
                    }
                }
            }
        }
        Ok(())
    }

    /// One to nine prefixes of which one alone holds the group, all but one hold it, or one is bad, at each place.
    fn places(&self, harness: &mut Harness) -> Checked {
        let groups = &self.addresses.groups;
        let (held, other) = (prefix_of(20, &groups[2]), prefix_of(20, &groups[3]));
        for (count, at) in (1..=MOST_PREFIXES + 1).flat_map(|count| (0..count).map(move |at| (count, at))) {
            for (one, others) in [(&held, &other), (&other, &held)] {
                let mut items = vec![others.clone(); count];
                items[at] = one.clone();
                for group in groups {
                    self.class(harness, &list(&items), group)?;
                }
                for bad in self.bad_prefixes() {
                    items[at] = bad;
                    for group in &groups[2..] {
                        self.class(harness, &list(&items), group)?;
                    }
                }
            }
        }
        Ok(())
    }

    /// A prefix that is bad in each way: its size, its length, a bit past its length.
    pub fn bad_prefixes(&self) -> Vec<Prefix> {
        let group = &self.addresses.groups[2];
        let [mut next, mut last] = [prefix_of(12, group), prefix_of(12, group)];
        set(&mut next[0][1..], 12, true);
        set(&mut last[0][1..], self.bits - 1, true);
        let other_family = if self.afi == 1 { vec![0; 16] } else { vec![0; 4] };
        vec![
            [Vec::new()],
            prefix(0, &[]),
            prefix(0, &group[1..]),
            prefix(0, &[&group[..], &[0]].concat()),
            prefix(0, &other_family),
            prefix(self.bits as u8 + 1, group),
            prefix(255, group),
            next,
            last,
        ]
    }

    /// Every two, and some threes, of prefixes of a few lengths of all groups, the same ones too.
    fn overlapping(&self, harness: &mut Harness, random: &mut Random) -> Checked {
        let groups = &self.addresses.groups;
        let lengths = [0, 1, 4, 8, 12, 13, 16, self.bits - 1, self.bits];
        let prefixes: Vec<Prefix> =
            groups.iter().flat_map(|group| lengths.map(|length| prefix_of(length as u8, group))).collect();
        for (first, second) in prefixes.iter().flat_map(|first| prefixes.iter().map(move |second| (first, second))) {
            let third = &prefixes[random.below(prefixes.len())];
            for items in [vec![first.clone(), second.clone()], vec![first.clone(), third.clone(), second.clone()]] {
                for group in &groups[..4] {
                    self.class(harness, &list(&items), group)?;
                }
            }
        }
        Ok(())
    }

    /// Lists cut at every octet, with the rest behind them; octets after the last prefix; any octet as the only one.
    fn cuts(&self, harness: &mut Harness) -> Checked {
        let groups = &self.addresses.groups;
        let good = prefix_of(8, &groups[2]);
        let mut lists = vec![EMPTY.to_vec()];
        for count in [1, 2, 3, MOST_PREFIXES, MOST_PREFIXES + 1] {
            lists.push(list(&vec![good.clone(); count]));
            let [first, last] = [0, count - 1].map(|at| {
                let mut items = vec![good.clone(); count];
                items[at] = prefix(8, &groups[2]);
                list(&items)
            });
            lists.extend([first, last]);
        }
        for prefixes in &lists {
            for group in [&groups[0], &groups[2], &groups[4]] {
                for cut in 0..=prefixes.len() {
                    harness.group_class(self.afi, Input::cut(prefixes, cut), group)?;
                }
                for extra in [1, 2, 3, 5, 20, 300, 65_536] {
                    for octet in [0, 1, 0xFF] {
                        self.class(harness, &[&prefixes[..], &vec![octet; extra]].concat(), group)?;
                    }
                }
            }
        }
        for octet in 0..=255 {
            harness.group_class(self.afi, Input { octets: &[octet], after: &[0, 0, 0] }, &groups[0])?;
        }
        Ok(())
    }

    /// Other values at each octet of lists of one, two and eight prefixes.
    fn changes(&self, harness: &mut Harness) -> Checked {
        let groups = &self.addresses.groups;
        for (count, group) in
            [1, 2, MOST_PREFIXES].into_iter().flat_map(|count| groups.iter().map(move |it| (count, it)))
        {
            let prefixes = list(&vec![prefix_of(12, &groups[2]); count]);
            for place in 0..prefixes.len() {
                for difference in [1, 2, 3, 4, 8, 12, 16, 0x40, 0x80, 0xFF] {
                    let mut changed = prefixes.clone();
                    changed[place] ^= difference;
                    self.class(harness, &changed, group)?;
                }
            }
        }
        Ok(())
    }

    /// Every AFI, list and group, good or bad: the order of refusals.
    fn order(&self, harness: &mut Harness) -> Checked {
        let groups = &self.addresses.groups;
        let other_size = if self.afi == 1 { [0xFF; 16].to_vec() } else { vec![0xEF; 4] };
        let groups = groups.iter().map(Vec::clone).chain([vec![], groups[2][1..].to_vec(), other_size]);
        let lists = lists_of_prefixes(self.addresses);
        for group in groups {
            for (afi, prefixes) in
                GOOD_AFIS.into_iter().chain(BAD_AFIS).flat_map(|afi| lists.iter().map(move |it| (afi, it)))
            {
                harness.group_class(afi, prefixes, &group)?;
            }
        }
        Ok(())
    }

    /// Any list and group, mostly good.
    fn any(&self, harness: &mut Harness, random: &mut Random) -> Checked {
        let prefixes = self.addresses.any_prefixes(random);
        let group = match random.below(20) {
            0 => random.octets(self.bits / 8),
            1 => self.group(random)[1..].to_vec(),
            2..=8 => self.group(random),
            _ => picked(random, &self.addresses.groups).to_vec(),
        };
        self.class(harness, &prefixes, &group)
    }
}

/// Lists of prefixes: good ones, and those that are RANGE, SHORT, or both, for one and for more reasons.
pub fn lists_of_prefixes(addresses: &Addresses) -> Vec<Vec<u8>> {
    let asked = Asked { afi: addresses.afi, bits: 8 * addresses.groups[0].len(), addresses };
    let good = prefix_of(8, &addresses.groups[2]);
    let mut lists = vec![EMPTY.to_vec(), vec![], vec![0], vec![9], vec![0, 9], vec![1, 0], vec![0, 1], vec![0, 8]];
    lists.extend(addresses.prefixes.iter().cloned());
    for bad in asked.bad_prefixes() {
        lists.extend([
            list(from_ref(&bad)),
            list(&[good.clone(), bad.clone()]),
            list(&[bad.clone(), good.clone()]),
            counting(2, from_ref(&bad)),
            counting(9, from_ref(&bad)),
            list(&vec![bad; 9]),
        ]);
    }
    lists.extend([8, 9, 10].map(|count| list(&vec![good.clone(); count])));
    lists.extend([2, 9].map(|count| counting(count, from_ref(&good))));
    lists
}

/// The address with a bit that is another.
fn with_other(address: &[u8], bit: usize) -> Vec<u8> {
    let mut address = address.to_vec();
    address[bit / 8] ^= 0x80 >> (bit % 8);
    address
}

/// The address before this one; the last where there is none.
fn before(address: &[u8]) -> Vec<u8> {
    let mut address = address.to_vec();
    for octet in address.iter_mut().rev() {
        *octet = octet.wrapping_sub(1);
        if *octet != 0xFF {
            break;
        }
    }
    address
}

/// The address after this one; the first where there is none.
fn after(address: &[u8]) -> Vec<u8> {
    let mut address = address.to_vec();
    for octet in address.iter_mut().rev() {
        *octet = octet.wrapping_add(1);
        if *octet != 0 {
            break;
        }
    }
    address
}
