//! Matching for shared trees: lists that are cut or count wrongly, addresses of wrong sizes, Source Active NLRIs of every
//! kind, and the order of refusals.

use super::matches::{matched, table_of_all, UPSTREAM};
use crate::{
    cases::{
        inputs::{
            lists::{counting, list, Item, EMPTY},
            routes::{bad_nlris, Addresses},
            samples::all_nlris,
        },
        table::memory::OUTPUT,
    },
    compare::{Checked, Harness},
    random::Random,
    second::{
        matches::{choice::LEAST_OUTPUT, shared::Reception},
        table::calls::TableCall,
    },
};

pub fn all(harness: &mut Harness, random: &mut Random, addresses: &Addresses) -> Checked {
    let memory = table_of_all(random, addresses);
    let routes: Vec<Item> = (0..3).map(|_| addresses.source_active(random)).collect();
    let states: Vec<Item> = (0..3).map(|_| addresses.state(random)).collect();
    let good = Good { memory, addresses, routes, states };
    good.cuts(harness)?;
    good.changes(harness)?;
    good.octets_after(harness, random)?;
    good.counts(harness)?;
    good.asked_sizes(harness)?;
    good.listed_sizes(harness)?;
    good.nlris(harness)?;
    good.pairs_of_nlris(harness)?;
    good.order(harness)
}

/// What the cases change: a table, and the items of two good lists.
struct Good<'a> {
    memory: Vec<u8>,
    addresses: &'a Addresses,
    routes: Vec<Item>,
    states: Vec<Item>,
}

impl Good<'_> {
    /// A reception of the first router and an ASM group, to which a route is eligible.
    fn reception<'a>(&'a self, source_actives: &'a [u8], states: &'a [u8]) -> Reception<'a> {
        let Addresses { routers, groups, .. } = self.addresses;
        let (prefixes, router, group) = (EMPTY, &routers[0], &groups[2]);
        Reception { prefixes, router, group, facts: UPSTREAM, source_actives, states }
    }

    /// A reception with these lists, each also with the other one empty, and `after` right behind each.
    fn lists(&self, harness: &mut Harness, source_actives: &[u8], states: &[u8], after: &[u8]) -> Checked {
        for (source_actives, states) in [(source_actives, states), (EMPTY, states), (source_actives, EMPTY)] {
            let call = TableCall::MatchShared { reception: self.reception(source_actives, states), output: &OUTPUT };
            harness.table_call_before(&self.memory, call, after)?;
        }
        Ok(())
    }

    /// Either list cut at every octet, with the rest behind it; the other whole, empty, or cut too.
    fn cuts(&self, harness: &mut Harness) -> Checked {
        let [routes, states] = [list(&self.routes), list(&self.states)];
        for cut in 0..=routes.len() {
            let (kept, after) = routes.split_at(cut);
            self.lists(harness, kept, &states, after)?;
            self.lists(harness, kept, &states[..states.len() / 2], after)?;
        }
        for cut in 0..=states.len() {
            let (kept, after) = states.split_at(cut);
            self.lists(harness, &routes, kept, after)?;
            self.lists(harness, &routes[..routes.len() / 2], kept, after)?;
        }
        // Any octet as the only one.
        for octet in 0..=255 {
            self.lists(harness, &[octet], &states, &[0, 0, 0])?;
            self.lists(harness, &routes, &[octet], &[0, 0, 0])?;
        }
        Ok(())
    }

    /// Other values at each octet of either list.
    fn changes(&self, harness: &mut Harness) -> Checked {
        let [routes, states] = [list(&self.routes), list(&self.states)];
        for difference in [1, 2, 3, 4, 12, 16, 0x80, 0xFF] {
            for place in 0..routes.len().max(states.len()) {
                let changed = [&routes, &states].map(|list| {
                    let mut list = list.clone();
                    list.iter_mut().skip(place).take(1).for_each(|octet| *octet ^= difference);
                    list
                });
                self.lists(harness, &changed[0], &states, &[])?;
                self.lists(harness, &routes, &changed[1], &[])?;
            }
        }
        Ok(())
    }

    /// Octets after the last item: they are not looked at.
    fn octets_after(&self, harness: &mut Harness, random: &mut Random) -> Checked {
        for extra in [1, 2, 3, 4, 5, 8, 64, 300, 65_536] {
            for items in 0..=3 {
                let [routes, states] = [&self.routes[..items], &self.states[..items]].map(list);
                let [more_routes, more_states] =
                    [&routes, &states].map(|octets| [octets.clone(), random.octets(extra)].concat());
                self.lists(harness, &more_routes, &states, &[])?;
                self.lists(harness, &routes, &more_states, &[])?;
            }
        }
        Ok(())
    }

    /// Counts about 0, 1, 256 and the most, with as many items, one fewer and one more; in both lists.
    fn counts(&self, harness: &mut Harness) -> Checked {
        let repeated = |items: &[Item], count: usize| items.iter().cycle().take(count).cloned().collect::<Vec<_>>();
        let mut lists = Vec::new();
        for count in [0usize, 1, 2, 3, 255, 256, 257, 258, 512, 513] {
            for held in [count.saturating_sub(1), count, count + 1] {
                lists.push([&self.routes, &self.states].map(|items| counting(count, &repeated(items, held))));
            }
        }
        // More than any list may have: all of them, and none.
        for count in [32_768, 65_280, 65_535] {
            let items = vec![[Vec::new(), Vec::new()]; count];
            lists.extend([&items[..], &[]].map(|items| [counting(count, items), counting(count, items)]));
        }
        for [routes, states] in &lists {
            self.lists(harness, routes, states, &[])?;
            for [other_routes, other_states] in lists.iter().step_by(7).take(5) {
                self.lists(harness, routes, other_states, &[])?;
                self.lists(harness, other_routes, states, &[])?;
            }
        }
        Ok(())
    }

    /// A PE and a group of every size up to 40, and of sizes that are 4 or 16 in their low bits.
    fn asked_sizes(&self, harness: &mut Harness) -> Checked {
        let [source_actives, states] = [list(&self.routes), list(&self.states)];
        let whole = |octets: &[u8]| [octets, &[0; 65_556]].concat();
        for router in &self.addresses.routers {
            let good = Reception { router, ..self.reception(&source_actives, &states) };
            let [routers, groups] = [good.router, good.group].map(whole);
            for size in (0..=40).chain([256, 260, 272, 65_540, 65_552]) {
                let ((router, past_router), (group, past_group)) = (routers.split_at(size), groups.split_at(size));
                for (reception, past) in
                    [(Reception { router, ..good }, past_router), (Reception { group, ..good }, past_group)]
                {
                    let call = TableCall::MatchShared { reception, output: &OUTPUT };
                    harness.table_call_before(&self.memory, call, &past[..past.len().min(16)])?;
                }
            }
        }
        Ok(())
    }

    /// An originator, and a state's source or group, of every size up to 40 and of others, in each of three items.
    fn listed_sizes(&self, harness: &mut Harness) -> Checked {
        let sizes = || (0..=40).chain([255, 256, 260, 272, 1_028, 65_535]);
        for (at, size) in (0..3).flat_map(|at| sizes().map(move |size| (at, size))) {
            let sized = |items: &[Item], field: usize| {
                let mut items = items.to_vec();
                items[at][field].resize(size, 0xEF);
                list(&items)
            };
            let [routes, states] = [list(&self.routes), list(&self.states)];
            self.lists(harness, &sized(&self.routes, 0), &states, &[])?;
            self.lists(harness, &routes, &sized(&self.states, 0), &[])?;
            self.lists(harness, &routes, &sized(&self.states, 1), &[])?;
        }
        Ok(())
    }

    /// The good routes with this NLRI in place of one, of the PE asked or of another.
    fn with_nlri(&self, harness: &mut Harness, nlri: &[u8]) -> Checked {
        for (at, router) in [0, 2].into_iter().flat_map(|at| [0, 1, 4].map(|router| (at, router))) {
            let mut routes = self.routes.clone();
            routes[at] = [self.addresses.routers[router].clone(), nlri.to_vec()];
            let source_actives = list(&routes);
            matched(harness, &self.memory, self.reception(&source_actives, EMPTY), &OUTPUT)?;
        }
        Ok(())
    }

    /// NLRIs of every route type and of both families, and a Source Active one cut, extended and changed at every octet.
    fn nlris(&self, harness: &mut Harness) -> Checked {
        for nlri in all_nlris().into_iter().map(|sample| sample.octets).chain(bad_nlris(self.addresses.afi)) {
            self.with_nlri(harness, &nlri)?;
        }
        let [_, nlri] = &self.routes[1];
        for cut in 0..nlri.len() {
            self.with_nlri(harness, &nlri[..cut])?;
        }
        for extra in [1, 2, 16, 256, 60_000] {
            self.with_nlri(harness, &[&nlri[..], &vec![0; extra]].concat())?;
        }
        for (place, difference) in (0..nlri.len()).flat_map(|place| [1, 2, 4, 0x80, 0xFF].map(|value| (place, value))) {
            let mut changed = nlri.clone();
            changed[place] ^= difference;
            self.with_nlri(harness, &changed)?;
        }
        Ok(())
    }

    /// Every two of the NLRIs that are refused: the first decides.
    fn pairs_of_nlris(&self, harness: &mut Harness) -> Checked {
        let bad = bad_nlris(self.addresses.afi);
        for (first, second) in bad.iter().flat_map(|first| bad.iter().map(move |second| (first, second))) {
            let mut routes = self.routes.clone();
            for (item, nlri) in routes.iter_mut().zip([first, second]) {
                item[1] = nlri.clone();
            }
            let source_actives = list(&routes);
            matched(harness, &self.memory, self.reception(&source_actives, EMPTY), &OUTPUT)?;
        }
        Ok(())
    }

    /// Good and bad arguments of each kind, all together: the order of refusals.
    fn order(&self, harness: &mut Harness) -> Checked {
        let mut unsound = self.memory.clone();
        unsound[7] += 1;
        let (routers, groups) = (&self.addresses.routers, &self.addresses.groups);
        let (source_actives, states) = (self.lists_of_routes(), self.lists_of_states());
        let asked = [
            (&routers[0][..], &groups[2][..]),
            (&routers[4], &groups[0]),
            (&routers[0][..3], &groups[2]),
            (&routers[0], &groups[4]),
            (&routers[0], &groups[2][1..]),
        ];
        for (memory, (router, group)) in
            [&self.memory, &unsound].into_iter().flat_map(|memory| asked.map(|asked| (memory, asked)))
        {
            for (source_actives, states) in
                source_actives.iter().flat_map(|routes| states.iter().map(move |states| (routes, states)))
            {
                let reception = Reception { router, group, ..self.reception(source_actives, states) };
                for room in [0, LEAST_OUTPUT - 1, LEAST_OUTPUT] {
                    matched(harness, memory, reception, &OUTPUT[..room])?;
                }
            }
        }
        Ok(())
    }

    /// Lists of Source Active routes: good, SHORT, LONG, both, FLOW, a reading number, KIND, and FLOW after these.
    fn lists_of_routes(&self) -> Vec<Vec<u8>> {
        let [good, mut flow, mut refused, mut kind, mut late] = std::array::from_fn(|_| self.routes.clone());
        flow[2][0].truncate(3);
        refused[0][1].pop();
        kind[1][1] = all_nlris().swap_remove(0).octets;
        late[0][1].clear();
        late[2][0].push(0);
        let mut lists = vec![vec![], vec![1], EMPTY.to_vec(), counting(4, &good), counting(257, &good)];
        lists.push(list(&vec![good[0].clone(); 257]));
        lists.push(list(&vec![refused[0].clone(); 257]));
        lists.extend([good, flow, refused, kind, late].map(|items| list(&items)));
        lists
    }

    /// Lists of states: good, SHORT, LONG, both, FLOW.
    fn lists_of_states(&self) -> Vec<Vec<u8>> {
        let [good, mut source, mut group] = std::array::from_fn(|_| self.states.clone());
        source[0][0].pop();
        group[2][1].push(0);
        let mut lists = vec![vec![], EMPTY.to_vec(), counting(4, &good), counting(257, &good)];
        lists.push(list(&vec![good[0].clone(); 257]));
        lists.extend([good, source, group].map(|items| list(&items)));
        lists
    }
}
