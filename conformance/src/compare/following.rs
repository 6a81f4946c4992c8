//! `mvpn_next` and `mvpn_table_info`.

use super::{Disagreement, Harness, Input};
use crate::{
    coverage::{Call, Seen},
    ffi::{self, Following, TableInfo},
    hexadecimal::encode,
};

impl Harness {
    /// The route after any octets, and the output afterwards; `output` is what it holds beforehand.
    pub fn next<'a>(
        &mut self,
        memory: impl Into<Input<'a>>,
        nlri: impl Into<Input<'a>>,
        output: &[u8],
    ) -> Result<(Following, Vec<u8>), Disagreement> {
        let (memory, nlri) = (memory.into(), nlri.into());
        self.inputs += 1;
        self.lend_table(memory);
        self.lend(nlri);
        self.output.place(output, &[], (self.calls % 223) as u8);
        let (second, after) = self.second.answer_next(memory.octets, nlri.octets, output);
        self.output.expect_front(&after);
        let archive = ffi::next(&mut self.table, &mut self.input, &mut self.output);
        let shown = || {
            let [nlri, memory] = [nlri, memory].map(|input| encode(input.octets));
            format!("mvpn_next(nlri {nlri}, output of {}) on {memory}", output.len())
        };
        self.agree(shown, &archive, &second)?;
        self.coverage.count(Call::Next, Seen::Number(archive.number));
        if archive.number == 0 {
            let afi = memory.octets[5].into();
            self.coverage.count(Call::Next, Seen::Follows(afi, archive.nlri_size > 0));
            if archive.nlri_size > 0 {
                self.coverage.count(Call::Next, Seen::Stale(afi, archive.stale));
            }
        }
        Ok((archive, after))
    }

    pub fn table_info<'a>(&mut self, memory: impl Into<Input<'a>>) -> Result<TableInfo, Disagreement> {
        let memory = memory.into();
        self.inputs += 1;
        self.lend_table(memory);
        let archive = ffi::table_info(&mut self.table);
        let second = self.second.answer_table_info(memory.octets);
        self.agree(|| format!("mvpn_table_info on {}", encode(memory.octets)), &archive, &second)?;
        self.coverage.count(Call::TableInfo, Seen::Number(archive.number));
        if archive.number == 0 {
            self.coverage.count(Call::TableInfo, Seen::Family(archive.afi as u16));
        }
        Ok(archive)
    }
}
