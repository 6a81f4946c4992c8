//! `mvpn_nlri_read` and `mvpn_nlri_write`.

use super::{Checked, Disagreement, Harness, Input};
use crate::{
    coverage::{Call, Seen},
    ffi::{self, Nlri, NlriReading},
    hexadecimal::encode,
    second::nlri::{
        fec::Outermost,
        rows::{Family, LEAF, MLDP_LEAF},
    },
};

impl Harness {
    pub fn nlri_read<'a>(&mut self, afi: u16, input: impl Into<Input<'a>>) -> Checked {
        self.nlri_reading(afi, input).map(|_| ())
    }

    /// Compares a reading and hands the archive's answer on.
    pub fn nlri_reading<'a>(&mut self, afi: u16, input: impl Into<Input<'a>>) -> Result<NlriReading, Disagreement> {
        let input = input.into();
        self.lend(input);
        let archive = ffi::nlri_read(afi, &mut self.input);
        let second = self.second.answer_nlri_read(afi, input.octets);
        self.agree(|| format!("mvpn_nlri_read(afi {afi}, nlri {})", encode(input.octets)), &archive, &second)?;
        self.count_reading(afi, &archive, input.octets);
        Ok(archive)
    }

    fn count_reading(&mut self, afi: u16, reading: &NlriReading, octets: &[u8]) {
        self.coverage.count(Call::NlriRead, Seen::Number(reading.number));
        if reading.number != 0 {
            return;
        }
        let nlri = &reading.nlri;
        let originator = usize::from(nlri.originator.size);
        self.coverage.count(Call::NlriRead, Seen::Route(nlri.route_type.into(), afi));
        if nlri.route_type == 3 {
            let (source, group) = (nlri.source.size == 0, nlri.group.size == 0);
            self.coverage.count(Call::NlriRead, Seen::SPmsi(afi, source, group, originator));
        }
        if matches!(nlri.route_type, LEAF | MLDP_LEAF) {
            self.coverage.count(Call::NlriRead, Seen::Leaf(afi, octets[2], originator));
        }
        if let Some(fec) = octets.get(reading.fec.start..).filter(|_| reading.fec.size > 0) {
            let family = if afi == 1 { Family::Ipv4 } else { Family::Ipv6 };
            let depth = self.second.nest(family, Outermost::InBody, fec).map_or(0, |nest| nest.depth);
            self.coverage.count(Call::NlriRead, Seen::Nest(afi, depth));
        }
    }

    pub fn nlri_write<'a>(
        &mut self,
        afi: u16,
        nlri: Nlri,
        key: impl Into<Input<'a>>,
        fec: impl Into<Input<'a>>,
        room: usize,
    ) -> Checked {
        let (key, fec) = (key.into(), fec.into());
        self.lend(key);
        self.fec.place(fec.octets, fec.after, (self.calls % 227) as u8);
        self.lend_output(room);
        let archive = ffi::nlri_write(afi, nlri, &mut self.input, &mut self.fec, &mut self.output);
        let encoding = self.second.nlri_write(afi, &nlri, key.octets, fec.octets, room);
        let shown = || {
            let [key, fec] = [key, fec].map(|input| encode(input.octets));
            format!("mvpn_nlri_write(afi {afi}, {nlri:?}, key {key}, fec {fec}, output of {room})")
        };
        self.agree_on_writing(Call::NlriWrite, shown, &archive, &encoding)?;
        if archive.number == 0 {
            self.coverage.count(Call::NlriWrite, Seen::Route(nlri.route_type.into(), afi));
        }
        Ok(())
    }

    /// What the archive reads, the archive writes back to the same octets. Gives whether it was read.
    pub fn nlri_round_trip(&mut self, afi: u16, octets: &[u8]) -> Result<bool, Disagreement> {
        let reading = self.nlri_reading(afi, octets)?;
        if reading.number != 0 {
            return Ok(false);
        }
        let [key, fec] = [reading.key, reading.fec].map(|span| &octets[span.start..][..span.size]);
        self.nlri_write(afi, reading.nlri, key, fec, octets.len())?;
        self.agree_on_writing_back(format_args!("afi {afi}, nlri"), octets)?;
        Ok(true)
    }
}
