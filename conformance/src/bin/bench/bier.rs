//! Rows of bit strings: of no Leaves, of 64 and of the most, each of which counts. Their BFR-ids are 1 and those behind it, so that the
//! most have four sets, of which the first is asked.

use crate::report::Report;
use conformance::{
    cases::{
        bier::strings::{bier, leaf},
        inputs::{
            lists::{list, Item},
            routes::{s_pmsi, Addresses},
            samples::GOOD_AFIS,
        },
    },
    ffi::{raw, Egress},
    plain,
    second::bier::{packet::MOST_LEAVES, string::STRING},
};
use std::hint::black_box;

pub fn rows(report: &mut Report) {
    for (afi, leaves) in GOOD_AFIS.into_iter().flat_map(|afi| [0, 64, MOST_LEAVES].map(|leaves| (afi, leaves))) {
        row(report, afi, leaves);
    }
}

/// A row of strings of so many Leaves, in instructions where there are none. The originators and BFR-prefixes are of the family's size.
fn row(report: &mut Report, afi: u16, leaves: usize) {
    let name = format!("bier_string, afi {afi}, leaves {leaves}");
    let Addresses { distinguishers, sources, groups, routers, .. } = Addresses::of_family(afi);
    let [ingress, egress] = if afi == 1 { [&routers[0], &routers[1]] } else { [&routers[4], &routers[3]] };
    let nlri = s_pmsi(&distinguishers[1], &sources[0], &groups[0], ingress);
    let attribute = bier(0x10, 1, 9, ingress);
    let items: Vec<Item> = (1..=leaves as u16).map(|id| [leaf(&nlri, egress), bier(0, 1, id, egress)]).collect();
    let lent = list(&items);
    let mut buffer = [0u8; STRING];
    let output = buffer.as_mut_ptr();
    let calls = black_box([raw::mvpn_bier_string as raw::BierString, plain::bier_string]).map(|call| {
        let (nlri, attribute, lent) = (&nlri, &attribute, &lent);
        move || unsafe {
            let (octets, tunnel, list) = (nlri.as_ptr(), attribute.as_ptr(), lent.as_ptr());
            let (size, tunnel_size) = (nlri.len(), attribute.len());
            call(afi, octets, size, tunnel, tunnel_size, 0, list, black_box(lent.len()), output, STRING)
        }
    });
    let routers = leaves.min(256);
    let string: Vec<u8> = (0..STRING).map(|at| if 8 * (STRING - 1 - at) < routers { 0xFF } else { 0 }).collect();
    report.check_output(&calls, output, STRING, &string, &name);
    report.check(&name, &calls.each_ref().map(|call| call()), &Egress { number: 0, routers: routers as u32 });
    match leaves {
        0 => report.counted(&name, calls),
        _ => report.timed(&name, calls),
    }
}
