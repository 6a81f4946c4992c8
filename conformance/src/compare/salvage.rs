//! `mvpn_salvage`.

use super::{disagree, Checked, Disagreement, Harness, Input};
use crate::{
    coverage::{Call, Seen},
    ffi::{self, Salvaged, TableInfo},
    hexadecimal::encode,
    second::{
        table::{
            memory::PLACE,
            salvage::{count, is_zero, places_of, Fate, Salvage, DROPPED_PLACE, REPEATED},
        },
        Second,
    },
};
use std::collections::BTreeMap;

impl Harness {
    /// A salvage of any memory; `table` and `dropped` are what the second buffer and the list buffer hold beforehand. What it makes is a
    /// table, and comes back from another salvage as it is.
    pub fn salvage<'a>(
        &mut self,
        afi: u16,
        damaged: impl Into<Input<'a>>,
        table: impl Into<Input<'a>>,
        dropped: impl Into<Input<'a>>,
    ) -> Result<Salvage, Disagreement> {
        let damaged = damaged.into();
        let salvage = self.salvaged(afi, damaged, table.into(), dropped.into())?;
        if salvage.answer.number == 0 {
            self.count_fates(afi, damaged.octets, &salvage);
            self.agree_on_laws(afi, damaged.octets, &salvage)?;
        }
        Ok(salvage)
    }

    fn salvaged(&mut self, afi: u16, damaged: Input, table: Input, dropped: Input) -> Result<Salvage, Disagreement> {
        self.inputs += 1;
        let pattern = (self.calls % 227) as u8;
        self.lend(damaged);
        self.lend_table(table);
        self.output.place(dropped.octets, dropped.after, pattern);
        let second = self.second.answer_salvage(afi, damaged.octets, table.octets, dropped.octets);
        self.table.expect_front(&second.table);
        self.output.expect_front(&second.dropped);
        let archive = ffi::salvage(afi, &mut self.input, &mut self.table, &mut self.output);
        let shown = || {
            let room = dropped.octets.len();
            let buffers = format!("a second buffer of {}, a list buffer of {room}", table.octets.len());
            format!("mvpn_salvage(afi {afi}) of {}, with {buffers}", encode(damaged.octets))
        };
        self.agree(shown, &archive, &second.answer)?;
        self.coverage.count(Call::Salvage, Seen::Number(archive.number));
        Ok(second)
    }

    /// What is asked of every salvage that is done: a sound table of the AFI, the places and the routes told, which is the memory itself
    /// where that was one; and from a salvage of it the same table, and nothing dropped.
    fn agree_on_laws(&mut self, afi: u16, damaged: &[u8], Salvage { answer, table, .. }: &Salvage) -> Checked {
        let shown = |law: &str| format!("mvpn_salvage(afi {afi}) of {}: {law}", encode(damaged));
        let [places, routes] = [(damaged.len() / PLACE) as u32, answer.kept];
        let (info, asked) = (self.table_info(table)?, TableInfo { number: 0, afi: afi.into(), places, routes });
        if info != asked {
            return disagree(shown("mvpn_table_info of its table"), format!("{info:?}"), format!("{asked:?}"));
        }
        if Second::sound().table(damaged).is_ok_and(|sound| sound.afi == afi) {
            self.coverage.count(Call::Salvage, Seen::Unchanged(afi));
            if (answer.dropped, &table[..]) != (0, damaged) {
                return disagree(shown("a sound table"), format!("{answer:?}, {}", encode(table)), "unchanged".into());
            }
        }
        let list = vec![0xC3; DROPPED_PLACE * places as usize];
        let again = self.salvaged(afi, table.into(), Input::from(&vec![0x3C; table.len()]), Input::from(&list))?;
        let asked = Salvage {
            answer: Salvaged { number: 0, kept: answer.kept, dropped: 0 },
            table: table.clone(),
            dropped: list,
        };
        match again == asked {
            true => Ok(()),
            false => disagree(shown("a salvage of its table"), format!("{again:?}"), format!("{asked:?}")),
        }
    }

    /// What became of each place, by the list, and of the table.
    fn count_fates(&mut self, afi: u16, damaged: &[u8], Salvage { answer, table, dropped }: &Salvage) {
        let rows = dropped.chunks_exact(DROPPED_PLACE).take(answer.dropped as usize);
        let reasons: BTreeMap<usize, u8> =
            rows.map(|row| (usize::from(u16::from_be_bytes([row[0], row[1]])), row[2])).collect();
        let places = places_of(damaged);
        let mut kept = Vec::new();
        for (number, place) in &places {
            let fate = match reasons.get(number) {
                Some(&REPEATED) => Fate::Repeated,
                Some(_) => Fate::Bad,
                None if is_zero(place) => Fate::Zero,
                None => Fate::Kept,
            };
            self.coverage.count(Call::Salvage, Seen::Fate(afi, fate));
            if fate == Fate::Kept {
                self.coverage.count(Call::Salvage, Seen::KeptMark(afi, place[PLACE - 1]));
                self.coverage.count(Call::Salvage, Seen::PastCount(afi, *number >= count(damaged)));
                kept.push(*place);
            }
        }
        if places_of(table).values().zip(&kept).any(|(after, before)| after != before) {
            self.coverage.count(Call::Salvage, Seen::Reordered(afi));
        }
        self.coverage.count(Call::Salvage, Seen::Salvaged(afi, places.len()));
        self.coverage.count(Call::Salvage, Seen::Dropped(afi, answer.dropped.min(3)));
    }
}
