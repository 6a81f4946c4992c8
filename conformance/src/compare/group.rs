//! `mvpn_group_class`.

use super::{Disagreement, Harness, Input};
use crate::{
    coverage::{Call, Seen},
    ffi::{self, Group},
    hexadecimal::encode,
};

impl Harness {
    pub fn group_class<'a>(
        &mut self,
        afi: u16,
        prefixes: impl Into<Input<'a>>,
        group: impl Into<Input<'a>>,
    ) -> Result<Group, Disagreement> {
        let (prefixes, group) = (prefixes.into(), group.into());
        self.inputs += 1;
        self.lend(group);
        self.prefixes.place(prefixes.octets, prefixes.after, (self.calls % 229) as u8);
        let archive = ffi::group_class(afi, &mut self.prefixes, &mut self.input);
        let second = self.second.answer_group_class(afi, prefixes.octets, group.octets);
        let shown = || {
            let [prefixes, group] = [prefixes.octets, group.octets].map(encode);
            format!("mvpn_group_class(afi {afi}, prefixes {prefixes}, group {group})")
        };
        self.agree(shown, &archive, &second)?;
        self.coverage.count(Call::GroupClass, Seen::Number(archive.number));
        if archive.number == 0 {
            // A list that is accepted has at most eight prefixes.
            let given = prefixes.octets.get(1).map_or(0, |count| usize::from(*count));
            self.coverage.count(Call::GroupClass, Seen::Class(afi, given, archive.group_class));
        }
        Ok(archive)
    }
}
