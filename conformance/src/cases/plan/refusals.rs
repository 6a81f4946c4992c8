//! Plans that are refused: every choice of what is wrong with each of three flows, and with the rest; lists of flows cut, extended and with
//! other counts; every size of originator, distinguisher, source and group; every attribute that is not read, at each place.

use super::plans::{many_flows, wanted_attributes, Case, Wanted};
use crate::{
    cases::inputs::{
        lists::{counting, list, EMPTY},
        routes::{bad_attributes, picked, Addresses},
        samples::BAD_AFIS,
    },
    compare::{Checked, Harness},
    hexadecimal::octets,
    random::Random,
    second::{
        plan::wish::{Wish, LONGEST_PROPOSAL, MOST_FLOWS},
        table::memory::PLACE,
    },
};

pub fn all(harness: &mut Harness, random: &mut Random, addresses: &Addresses) -> Checked {
    let good = Good::of(addresses);
    good.every_flow(harness)?;
    good.everything(harness)?;
    good.attributes(harness, random)?;
    good.conflicts(harness)?;
    good.cuts(harness)?;
    good.octets_after(harness, random)?;
    good.counts(harness)?;
    good.sizes(harness)
}

/// What the cases change: a wish of three flows, and a proposal that is accepted for it.
struct Good<'a> {
    addresses: &'a Addresses,
    case: Case,
    proposal: Vec<u8>,
}

/// What an output holds beforehand.
const OUTPUT: [u8; LONGEST_PROPOSAL + PLACE] = [0x5A; LONGEST_PROPOSAL + PLACE];

impl<'a> Good<'a> {
    fn of(addresses: &'a Addresses) -> Self {
        let attributes = wanted_attributes();
        let flows = many_flows(addresses, 3).into_iter().zip([0, 1, 0]);
        let flows = flows.map(|([source, group], wanted)| [source, group, attributes[wanted].clone()]).collect();
        let case = Case::of(addresses, flows);
        let place = |[source, group, wanted]: &Wanted| case.place(source, group, wanted, 0);
        let proposal = case.flows.iter().flat_map(place).collect();
        Good { addresses, case, proposal }
    }

    /// Both calls with these flows.
    fn flows(&self, harness: &mut Harness, flows: &[Wanted]) -> Checked {
        self.listed(harness, &list(flows), PLACE * flows.len(), &[])
    }

    /// Both calls with this list, so much room, and `after` right behind each part of the wish.
    fn listed(&self, harness: &mut Harness, flows: &[u8], room: usize, after: &[u8]) -> Checked {
        harness.plan_before(&self.case.wish(flows), &OUTPUT[..room.min(OUTPUT.len())], after)?;
        harness.judge_before(&self.case.wish(flows), &self.proposal, after).map(drop)
    }

    /// A flow as it is, or with one thing wrong: its source's or its group's size, a group that is not multicast, an attribute that is not
    /// read, in four ways, BIER with label 0, tunnel type 0, another attribute for the first flow.
    fn spoilt(&self, at: usize, how: usize) -> Wanted {
        let [source, group, wanted] = self.case.flows[at].clone();
        let [first_source, first_group, _] = self.case.flows[0].clone();
        let with = |text: &str| [source.clone(), group.clone(), octets(text)];
        match how {
            0 => [source, group, wanted],
            1 => [source[1..].to_vec(), group, wanted],
            2 => [source, [&group[..], &[0]].concat(), wanted],
            3 => [source, self.addresses.groups[4].clone(), wanted],
            4 => with("00 0B 0000"),
            5 => with("00 08 000010"),
            6 => with("00 0B 000010 01 0002 0A0000"),
            7 => [source.clone(), group.clone(), vec![0; 65]],
            8 => with("00 0B 00000F 01 0002 0A000001"),
            9 => with("01 00 000010"),
            _ => [first_source, first_group, octets("80 06 FFFFF0 0A0000FF")],
        }
    }

    /// Every choice of what is wrong with each of three flows, with room for them and an octet less.
    fn every_flow(&self, harness: &mut Harness) -> Checked {
        for choice in 0..11usize.pow(3) {
            let flows = [0, 1, 2].map(|at| self.spoilt(at, choice / 11usize.pow(at as u32) % 11));
            let listed = list(&flows);
            harness.judge(&self.case.wish(&listed), &self.proposal)?;
            for room in [PLACE * 3, PLACE * 3 - 1] {
                harness.plan(&self.case.wish(&listed), &OUTPUT[..room])?;
            }
        }
        Ok(())
    }

    /// Good and bad arguments of each kind, all together: the order of refusals.
    fn everything(&self, harness: &mut Harness) -> Checked {
        let afis = [self.addresses.afi, BAD_AFIS[1], BAD_AFIS[3]];
        let short = &self.addresses.prefixes[0][..4];
        let past =
            if self.addresses.afi == 1 { octets("0001 0005 07 E9000000") } else { octets("0001 0005 08 EF000000") };
        let prefixes = [EMPTY, &octets("0009"), short, &past].map(<[u8]>::to_vec);
        let Case { originator, distinguisher, flows, .. } = &self.case;
        let few = [0, 3, 4, 8, 9, 10].map(|how| list(&[self.spoilt(0, 0), self.spoilt(1, how), self.spoilt(2, 0)]));
        let early = [0, 1, 4].map(|how| counting(4, &[self.spoilt(0, 0), self.spoilt(1, how), self.spoilt(2, 0)]));
        let many = [counting(65, flows), list(&vec![flows[0].clone(); 65]), counting(65, &[self.spoilt(0, 1)])];
        let lists: Vec<Vec<u8>> = few.into_iter().chain(early).chain(many).chain([EMPTY.to_vec(), vec![]]).collect();
        for (afi, prefixes) in afis.into_iter().flat_map(|afi| prefixes.iter().map(move |prefixes| (afi, prefixes))) {
            for (originator, distinguisher) in [
                (&originator[..], &distinguisher[..]),
                (&originator[..3], distinguisher),
                (originator, &distinguisher[..7]),
            ] {
                for flows in &lists {
                    let wish = Wish { afi, prefixes, originator, distinguisher, flows };
                    for room in [0, PLACE * 3, LONGEST_PROPOSAL, LONGEST_PROPOSAL + PLACE] {
                        harness.plan(&wish, &OUTPUT[..room])?;
                        harness.judge(&wish, &OUTPUT[..room])?;
                    }
                    harness.judge(&wish, &OUTPUT[..LONGEST_PROPOSAL + 1])?;
                    harness.judge(&wish, &self.proposal)?;
                }
            }
        }
        Ok(())
    }

    /// Every attribute that install refuses at the first, a middle and the last of three and of 64 flows; and every two of them.
    fn attributes(&self, harness: &mut Harness, random: &mut Random) -> Checked {
        let mut bad = bad_attributes();
        bad.push(octets("01 00 000010"));
        let wanted = picked(random, &wanted_attributes()).to_vec();
        let many = many_flows(self.addresses, MOST_FLOWS).into_iter();
        let many: Vec<Wanted> = many.map(|[source, group]| [source, group, wanted.clone()]).collect();
        for attribute in &bad {
            for (flows, at) in [
                (&self.case.flows, 0),
                (&self.case.flows, 1),
                (&self.case.flows, 2),
                (&many, 0),
                (&many, 31),
                (&many, 63),
            ] {
                let mut flows = flows.clone();
                flows[at][2] = attribute.clone();
                self.flows(harness, &flows)?;
            }
        }
        for (first, second) in bad.iter().flat_map(|first| bad.iter().map(move |second| (first, second))) {
            let mut flows = self.case.flows.clone();
            flows[0][2] = first.clone();
            flows[2][2] = second.clone();
            self.flows(harness, &flows)?;
        }
        Ok(())
    }

    /// A flow that is listed twice, at every two of several places, with the same attribute and with others; flows that share a source or a
    /// group.
    fn conflicts(&self, harness: &mut Harness) -> Checked {
        let attributes = wanted_attributes();
        let wanted = &attributes[0];
        let changed = |at: usize| [&wanted[..at], &[wanted[at] ^ 1], &wanted[at + 1..]].concat();
        let mut others: Vec<Vec<u8>> = (0..wanted.len()).map(changed).collect();
        others.extend([wanted.clone(), attributes[1].clone(), [&wanted[..], &[0]].concat()]);
        for count in [2, 3, 64] {
            let flows = many_flows(self.addresses, count).into_iter();
            let flows: Vec<Wanted> = flows.map(|[source, group]| [source, group, wanted.clone()]).collect();
            let places = [0, 1, count / 2, count - 2, count - 1];
            for (left, right) in places.into_iter().flat_map(|left| places.map(|right| (left, right))) {
                for other in others.iter().step_by(if count > 3 { 4 } else { 1 }) {
                    let mut flows = flows.clone();
                    flows[right] = [flows[left][0].clone(), flows[left][1].clone(), other.clone()];
                    self.flows(harness, &flows)?;
                    flows[right][0][0] ^= 1;
                    self.flows(harness, &flows)?;
                    flows[right][0][0] ^= 1;
                    let last = flows[right][1].len() - 1;
                    flows[right][1][last] ^= 0x40;
                    self.flows(harness, &flows)?;
                }
            }
        }
        Ok(())
    }

    /// The list cut at every octet, with the rest behind it; any octet as the only one.
    fn cuts(&self, harness: &mut Harness) -> Checked {
        let listed = list(&self.case.flows);
        for cut in 0..=listed.len() {
            let (kept, after) = listed.split_at(cut);
            self.listed(harness, kept, PLACE * 3, after)?;
        }
        for octet in 0..=255 {
            self.listed(harness, &[octet], PLACE * 3, &[0, 0, 0])?;
        }
        Ok(())
    }

    /// Octets after the last flow: they are not looked at.
    fn octets_after(&self, harness: &mut Harness, random: &mut Random) -> Checked {
        for extra in [1, 2, 3, 4, 5, 8, 64, 300, 65_536] {
            for items in 0..=3 {
                let flows = [list(&self.case.flows[..items]), random.octets(extra)].concat();
                self.listed(harness, &flows, PLACE * 3, &[])?;
            }
        }
        Ok(())
    }

    /// Counts about 0, 1, 64, 256 and the most, with as many flows, one fewer and one more.
    fn counts(&self, harness: &mut Harness) -> Checked {
        for count in [0usize, 1, 2, 3, 63, 64, 65, 66, 128, 255, 256, 257, 258, 320, 512, 513] {
            for held in [count.saturating_sub(1), count, count + 1] {
                let flows: Vec<Wanted> = self.case.flows.iter().cycle().take(held).cloned().collect();
                self.listed(harness, &counting(count, &flows), PLACE * count, &[])?;
                self.listed(harness, &counting(count, &flows), PLACE * count.saturating_sub(1), &[])?;
            }
        }
        for count in [32_768, 65_280, 65_535] {
            self.listed(harness, &counting(count, &vec![[vec![], vec![], vec![]]; count]), OUTPUT.len(), &[])?;
            self.listed(harness, &counting::<3>(count, &[]), OUTPUT.len(), &[])?;
        }
        Ok(())
    }

    /// An originator, a distinguisher, and a source or group of each flow, of every size up to 40 and of others.
    fn sizes(&self, harness: &mut Harness) -> Checked {
        let listed = list(&self.case.flows);
        for size in (0..=40).chain([256, 260, 264, 272, 65_544, 65_552]) {
            let whole = [&self.case.originator[..], &[0; 65_580]].concat();
            let (kept, after) = whole.split_at(size);
            for (originator, distinguisher) in [(kept, &self.case.distinguisher[..]), (&self.case.originator, kept)] {
                for flows in [&listed[..], EMPTY] {
                    let wish = Wish { originator, distinguisher, ..self.case.wish(flows) };
                    harness.plan_before(&wish, &OUTPUT[..PLACE * 3], &after[..16])?;
                    harness.judge_before(&wish, &self.proposal, &after[..16])?;
                }
            }
        }
        for (at, field) in (0..3).flat_map(|at| [(at, 0), (at, 1)]) {
            for size in (0..=40).chain([255, 256, 260, 272, 1_028, 65_535]) {
                let mut flows = self.case.flows.clone();
                flows[at][field].resize(size, 0xEF);
                self.flows(harness, &flows)?;
            }
        }
        Ok(())
    }
}
