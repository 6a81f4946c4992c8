//! `mvpn_bier_string`.

use super::{disagree, Checked, Disagreement, Harness, Input};
use crate::{
    coverage::{Call, Seen},
    ffi,
    hexadecimal::encode,
    second::bier::{
        leaves::Standing,
        packet::{BitString, Packet},
        string::STRING,
    },
};

impl Harness {
    /// A bit string; `output` is what the output holds beforehand.
    pub fn bier_string(&mut self, packet: Packet, output: &[u8]) -> Result<BitString, Disagreement> {
        self.bier_string_before(packet, output, &[])
    }

    /// A bit string with these octets right behind the NLRI, the attribute, the list and the output.
    pub fn bier_string_before(
        &mut self,
        packet: Packet,
        output: &[u8],
        after: &[u8],
    ) -> Result<BitString, Disagreement> {
        self.inputs += 1;
        let Packet { afi, nlri, attribute, set, leaves } = packet;
        let pattern = (self.calls % 229) as u8;
        self.lend(Input { octets: nlri, after });
        self.attribute.place(attribute, after, pattern.wrapping_add(3));
        self.leaves.place(leaves, after, pattern.wrapping_mul(3));
        self.output.place(output, after, pattern);
        let second = self.second.answer_bier_string(packet, output);
        self.output.expect_front(&second.output);
        let route = [&mut self.input, &mut self.attribute];
        let archive = ffi::bier_string(afi, route, set, &mut self.leaves, &mut self.output);
        let shown = || {
            let [nlri, attribute, leaves] = [nlri, attribute, leaves].map(encode);
            let asked = format!("afi {afi}, {nlri}, {attribute}, set {set}, {leaves}");
            format!("mvpn_bier_string({asked}) with an output of {}", output.len())
        };
        self.agree(shown, &archive, &second.answer)?;
        self.coverage.count(Call::BierString, Seen::Number(archive.number));
        match self.second.bier_refusal(packet, output.len()) {
            Some((blamed, number)) => {
                self.coverage.count(Call::BierString, Seen::Blamed(blamed, number.value()));
            }
            None => {
                self.count_leaves(packet, &second);
                self.agree_on_ones(packet, &second)?;
            }
        }
        Ok(second)
    }

    /// How many egress routers are told is how many ones the string has.
    fn agree_on_ones(&self, Packet { afi, set, .. }: Packet, BitString { answer, output }: &BitString) -> Checked {
        let ones: u32 = output.iter().take(STRING).map(|octet| octet.count_ones()).sum();
        match answer.routers == ones {
            true => Ok(()),
            false => {
                let asked = format!("the ones of a bit string (afi {afi}, set {set})");
                disagree(asked, format!("{answer:?}"), format!("{ones} in {}", encode(output)))
            }
        }
    }

    /// What each Leaf of a string is to it, and what the string has.
    fn count_leaves(&mut self, packet: Packet, BitString { answer, .. }: &BitString) {
        let Packet { afi, set, attribute, .. } = packet;
        let standings = self.second.standings(packet);
        let mut seen = vec![Seen::Leaves(afi, standings.len()), Seen::Routers(afi, answer.routers)];
        if answer.routers > 0 {
            seen.push(Seen::OfSet(afi, set));
        }
        for (at, (standing, id, prefix)) in standings.iter().enumerate() {
            seen.push(Seen::Counting(afi, *standing));
            let of_set = *id > 0 && (id - 1) / 256 == u32::from(set);
            if *standing == Standing::Counts {
                let again = standings[..at].iter().take(8).any(|other| other == &standings[at]);
                seen.push(Seen::Egress(afi, of_set, again));
                seen.push(Seen::Prefixes(attribute.len().saturating_sub(8), *prefix));
            }
        }
        seen.into_iter().for_each(|seen| self.coverage.count(Call::BierString, seen));
    }
}
