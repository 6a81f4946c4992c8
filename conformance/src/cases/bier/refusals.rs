//! Bit strings that are refused: routes and Leaves of every kind and form, lists that are cut or count wrongly, every octet changed, and
//! the order of refusals.

use super::strings::{any_output, bier, leaf, Asking, SUB_DOMAIN};
use crate::{
    cases::inputs::{
        lists::{counting, list, Item, EMPTY},
        routes::{bad_attributes, bad_nlris, good_attributes},
        samples::{all_nlris, attributes, discarded, mldp, nlris, BAD_AFIS},
    },
    compare::{Checked, Harness},
    random::Random,
    second::bier::{packet::Packet, string::STRING},
};

pub fn all(harness: &mut Harness, random: &mut Random, asking: &Asking) -> Checked {
    routes(harness, random, asking)?;
    cuts(harness, asking)?;
    changes(harness, random, asking)?;
    octets_after(harness, random, asking)?;
    leaves(harness, random, asking)?;
    pairs(harness, random, asking)?;
    order(harness, asking)
}

/// Three Leaves, of which one counts in set 1.
fn three(asking: &Asking) -> Vec<Item> {
    vec![asking.leaf(2), asking.leaf(258), asking.kinds().swap_remove(9)]
}

/// Routes with every NLRI and attribute that is accepted or refused, and with a Leaf of each as its key; every label about 0.
fn routes(harness: &mut Harness, random: &mut Random, asking: &Asking) -> Checked {
    let afi = asking.addresses.afi;
    let nlris: Vec<Vec<u8>> = all_nlris()
        .into_iter()
        .map(|sample| sample.octets)
        .chain(bad_nlris(afi))
        .chain([asking.nlri.clone()])
        .collect();
    let tunnels: Vec<Vec<u8>> =
        [attributes(), good_attributes(), bad_attributes(), vec![asking.attribute.clone()]].concat();
    for (at, nlri) in nlris.iter().enumerate() {
        let of_it = [leaf(nlri, &asking.addresses.routers[1]), bier(0, SUB_DOMAIN, 257, &[10, 0, 0, 1])];
        for items in [vec![], vec![of_it], three(asking)] {
            let leaves = list(&items);
            for attribute in [&asking.attribute, &tunnels[at % tunnels.len()]] {
                let packet = Packet { nlri, attribute, ..asking.packet(1, &leaves) };
                harness.bier_string(packet, &any_output(random))?;
            }
        }
    }
    let leaves = list(&three(asking));
    for (attribute, room) in tunnels.iter().flat_map(|attribute| [0, 31, 32, 40].map(|room| (attribute, room))) {
        let packet = Packet { attribute, ..asking.packet(1, &leaves) };
        harness.bier_string(packet, &random.octets(room))?;
    }
    for (tunnel, label) in
        [11, 6].into_iter().flat_map(|tunnel| (0..64).chain([255, 256, 65_536]).map(move |it| (tunnel, it)))
    {
        let [_, high, middle, low] = u32::to_be_bytes(label);
        let identifier = if tunnel == 11 { &asking.attribute[5..] } else { &[SUB_DOMAIN, 1, 2, 10][..] };
        let attribute = [&[0, tunnel, high, middle, low], identifier].concat();
        harness.bier_string(Packet { attribute: &attribute, ..asking.packet(1, &leaves) }, &any_output(random))?;
    }
    for afi in BAD_AFIS {
        harness.bier_string(Packet { afi, ..asking.packet(1, &leaves) }, &any_output(random))?;
        harness.bier_string(Packet { afi, nlri: &[], ..asking.packet(1, &[]) }, &[])?;
    }
    Ok(())
}

/// The route's NLRI, its attribute and the list cut at every octet, with the rest behind it; and any octet as the only one.
fn cuts(harness: &mut Harness, asking: &Asking) -> Checked {
    let output = [0x96; STRING];
    let leaves = list(&three(asking));
    for cut in 0..=asking.nlri.len() {
        let (nlri, after) = asking.nlri.split_at(cut);
        harness.bier_string_before(Packet { nlri, ..asking.packet(1, &leaves) }, &output, after)?;
    }
    for cut in 0..=asking.attribute.len() {
        let (attribute, after) = asking.attribute.split_at(cut);
        harness.bier_string_before(Packet { attribute, ..asking.packet(1, &leaves) }, &output, after)?;
    }
    for items in 0..=3 {
        let mut list = counting(3, &three(asking)[..items]);
        for count in [items, 3] {
            list[1] = count as u8;
            for cut in 0..=list.len() {
                let (kept, after) = list.split_at(cut);
                harness.bier_string_before(asking.packet(1, kept), &output, after)?;
            }
        }
    }
    for octet in 0..=255 {
        harness.bier_string_before(asking.packet(1, &[octet]), &output, &[0, 0, 0])?;
    }
    Ok(())
}

/// Every value of each octet of the route's NLRI and attribute, and of a list of one Leaf; several of each octet of three Leaves.
fn changes(harness: &mut Harness, random: &mut Random, asking: &Asking) -> Checked {
    let (one, leaves) = (list(&[asking.leaf(258)]), list(&three(asking)));
    let others = |octets: &[u8], values: &[u8]| -> Vec<Vec<u8>> {
        let changed = |at: usize| values.iter().map(move |value| (at, *value));
        let changed = (0..octets.len()).flat_map(changed);
        changed.map(|(at, value)| [&octets[..at], &[octets[at] ^ value], &octets[at + 1..]].concat()).collect()
    };
    let every: Vec<u8> = (1..=255).collect();
    for nlri in others(&asking.nlri, &every) {
        // The Leaf has the route as its key where that may be one.
        let leaves = list(&[[leaf(&nlri, &[10, 0, 0, 2]), bier(0, SUB_DOMAIN, 258, &[10, 0, 0, 1])]]);
        harness.bier_string(Packet { nlri: &nlri, ..asking.packet(1, &leaves) }, &any_output(random))?;
        harness.bier_string(Packet { nlri: &nlri, ..asking.packet(1, &one) }, &any_output(random))?;
    }
    for attribute in others(&asking.attribute, &every) {
        harness.bier_string(Packet { attribute: &attribute, ..asking.packet(1, &one) }, &any_output(random))?;
    }
    for changed in others(&one, &every) {
        harness.bier_string(asking.packet(1, &changed), &any_output(random))?;
    }
    for changed in others(&leaves, &[1, 2, 3, 4, 7, 0x10, 0x80, 0xFF]) {
        for set in [0, 1] {
            harness.bier_string(asking.packet(set, &changed), &any_output(random))?;
        }
    }
    Ok(())
}

/// Octets after the last Leaf: they are not looked at.
fn octets_after(harness: &mut Harness, random: &mut Random, asking: &Asking) -> Checked {
    for (extra, items) in
        [1, 2, 3, 4, 8, 64, 300, 65_536].into_iter().flat_map(|extra| (0..=3).map(move |it| (extra, it)))
    {
        let leaves = [list(&three(asking)[..items]), random.octets(extra)].concat();
        harness.bier_string(asking.packet(1, &leaves), &any_output(random))?;
    }
    Ok(())
}

/// Three Leaves with each NLRI in the place of one, and with each attribute; cut, extended; and fields of the longest size.
fn leaves(harness: &mut Harness, random: &mut Random, asking: &Asking) -> Checked {
    let afi = asking.addresses.afi;
    let nlris = all_nlris().into_iter().map(|sample| sample.octets).chain(bad_nlris(afi));
    let [good, good_attribute] = asking.leaf(258);
    let cut = (0..good.len()).map(|end| good[..end].to_vec());
    let extended = [1, 2, 16, 256, 60_000].map(|more| [&good[..], &vec![0; more]].concat());
    let nlris: Vec<Vec<u8>> = nlris.chain(cut).chain(extended).collect();
    let cut = (0..good_attribute.len()).map(|end| good_attribute[..end].to_vec());
    let extended = [1, 2, 12, 44, 53, 60_000].map(|more| [&good_attribute[..], &vec![0; more]].concat());
    let tunnels = [attributes(), good_attributes(), bad_attributes()].concat().into_iter();
    let tunnels: Vec<Vec<u8>> = tunnels.chain(cut).chain(extended).collect();
    let mut ask = |at: usize, field: usize, octets: &[u8]| {
        let mut items = three(asking);
        items[at][field] = octets.to_vec();
        let leaves = list(&items);
        harness.bier_string(asking.packet(1, &leaves), &any_output(random)).map(drop)
    };
    for at in 0..3 {
        nlris.iter().try_for_each(|nlri| ask(at, 0, nlri))?;
        tunnels.iter().try_for_each(|attribute| ask(at, 1, attribute))?;
    }
    Ok(())
}

/// Every two Leaves that are refused, or are not: of those that are, the first decides.
fn pairs(harness: &mut Harness, random: &mut Random, asking: &Asking) -> Checked {
    let afi = asking.addresses.afi;
    let [good, good_attribute] = asking.leaf(258);
    let of_nlris = bad_nlris(afi).into_iter().map(|nlri| [nlri, good_attribute.clone()]);
    let of_attributes = bad_attributes().into_iter().map(|attribute| [good.clone(), attribute]);
    let both =
        [[Vec::new(), Vec::new()], [discarded(afi).octets, Vec::new()], [asking.nlri.clone(), vec![0, 8, 0, 0, 0]]];
    let counts = [[good.clone(), good_attribute.clone()]];
    let items: Vec<Item> = of_nlris.chain(of_attributes).chain(both).chain(counts).collect();
    for (first, second) in items.iter().flat_map(|first| items.iter().map(move |second| (first, second))) {
        let leaves = list(&[first.clone(), second.clone()]);
        harness.bier_string(asking.packet(1, &leaves), &any_output(random))?;
    }
    Ok(())
}

/// Good and bad arguments of each kind, all together: the order of refusals.
fn order(harness: &mut Harness, asking: &Asking) -> Checked {
    let afi = asking.addresses.afi;
    let followed = [&asking.nlri[..], &[0]].concat();
    let sample = |route_type: u8| nlris(afi).into_iter().find(|sample| sample.nlri.route_type == route_type);
    let kinds = [1, 4, 5, 0x44].into_iter().filter_map(sample).chain(mldp(afi, 5)).map(|sample| sample.octets);
    let routes: Vec<Vec<u8>> =
        [asking.nlri.clone(), vec![], vec![9, 0], followed, discarded(afi).octets].into_iter().chain(kinds).collect();
    let tunnels: Vec<Vec<u8>> = [asking.attribute.clone(), vec![0; 5]]
        .into_iter()
        .chain(bad_attributes())
        .chain([vec![0, 6, 0, 0, 16, 10, 0, 0, 1], vec![0, 6, 0, 0, 0, 10, 0, 0, 1]])
        .collect();
    for (afi, room) in [afi, 0, 3 - afi, 256 + afi].into_iter().flat_map(|afi| [0, 31, 32, 33].map(|room| (afi, room)))
    {
        let output = vec![0x69; room];
        for (nlri, attribute) in routes.iter().flat_map(|nlri| tunnels.iter().map(move |attribute| (nlri, attribute))) {
            for leaves in &lists(asking) {
                harness.bier_string(Packet { afi, nlri, attribute, set: 1, leaves }, &output)?;
            }
        }
    }
    Ok(())
}

/// Lists: good, SHORT, LONG, both, and Leaves that are refused.
fn lists(asking: &Asking) -> Vec<Vec<u8>> {
    let good = three(asking);
    let [mut unread, mut kind, mut tunnel, mut both] = std::array::from_fn(|_| good.clone());
    unread[2][0].pop();
    kind[1][0] = asking.nlri.clone();
    tunnel[0][1] = vec![0, 8, 0, 0, 0];
    both[0][1].clear();
    both[1][0] = vec![9, 0];
    let mut lists =
        vec![vec![], vec![4], EMPTY.to_vec(), counting(4, &good), counting(4, &tunnel), counting(1_025, &good)];
    lists.extend([good, unread, kind, tunnel, both].map(|items| list(&items)));
    lists
}
