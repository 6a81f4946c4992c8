//! Each call of the archive beside the second decoder: all fields of the answer, and every lent octet afterwards.

pub mod attribute;
pub mod bier;
pub mod following;
pub mod group;
pub mod nlri;
pub mod pieces;
pub mod plan;
pub mod run;
pub mod salvage;
pub mod table;

use crate::{
    coverage::{Call, Coverage, Seen},
    ffi::Written,
    hexadecimal::encode,
    lent::Lent,
    second::{answers, number::Number, Second},
};
use std::fmt::{self, Debug, Display};

/// A call on which the archive does not answer as it should.
#[derive(Debug)]
pub struct Disagreement {
    pub call: String,
    pub archive: String,
    pub second: String,
}

impl Display for Disagreement {
    fn fmt(&self, formatter: &mut fmt::Formatter) -> fmt::Result {
        write!(formatter, "call    {}\narchive {}\nsecond  {}", self.call, self.archive, self.second)
    }
}

pub type Checked = Result<(), Disagreement>;

/// Octets for a call, and what stands right behind them in memory, which the call must not look at.
#[derive(Clone, Copy)]
pub struct Input<'a> {
    pub octets: &'a [u8],
    pub after: &'a [u8],
}

impl<'a> Input<'a> {
    /// The first `size` octets, with the rest standing behind them.
    pub fn cut(whole: &'a [u8], size: usize) -> Self {
        let (octets, after) = whole.split_at(size);
        Input { octets, after }
    }
}

impl<'a> From<&'a [u8]> for Input<'a> {
    fn from(octets: &'a [u8]) -> Self {
        Input { octets, after: &[] }
    }
}

impl<'a> From<&'a Vec<u8>> for Input<'a> {
    fn from(octets: &'a Vec<u8>) -> Self {
        Input { octets, after: &[] }
    }
}

impl<'a, const SIZE: usize> From<&'a [u8; SIZE]> for Input<'a> {
    fn from(octets: &'a [u8; SIZE]) -> Self {
        Input { octets, after: &[] }
    }
}

/// The comparison's state: the second decoder, the lent buffers and what has been met.
#[derive(Default)]
pub struct Harness {
    pub second: Second,
    pub coverage: Coverage,
    /// Calls compared.
    pub calls: u64,
    /// Inputs made, each given to one call or more.
    pub inputs: u64,
    /// Calls compared in sequences on one table.
    pub sequence_calls: u64,
    /// The NLRI of a table call or of a BIER route, the memory that is salvaged, the places proposed, and the only input of the calls without a
    /// table.
    input: Lent,
    /// The list of dropped places too.
    output: Lent,
    table: Lent,
    attribute: Lent,
    fec: Lent,
    prefixes: Lent,
    /// Router, source and group; of a plan originator and distinguisher.
    flow: [Lent; 3],
    /// Source Active routes and states; the flows of a plan.
    lists: [Lent; 2],
    /// Leaf routes.
    leaves: Lent,
    /// What a reader of pieces is lent.
    unfinished: Lent,
}

impl Harness {
    pub fn new(second: Second) -> Self {
        Harness { second, ..Default::default() }
    }

    /// Lends the octets with a guard pattern that changes from call to call.
    fn lend(&mut self, input: Input) {
        self.input.place(input.octets, input.after, (self.calls % 251) as u8);
    }

    fn lend_output(&mut self, size: usize) {
        self.output.place_output(size, (self.calls % 239) as u8);
    }

    /// Checks one answer, and that every lent buffer holds what it should; those of earlier calls still do.
    fn agree<Answer: PartialEq + Debug>(
        &mut self,
        call: impl Fn() -> String,
        archive: &Answer,
        second: &Answer,
    ) -> Checked {
        self.calls += 1;
        if archive != second {
            return disagree(call(), format!("{archive:?}"), format!("{second:?}"));
        }
        for (name, lent) in self.buffers() {
            if let Some(place) = lent.disturbed() {
                let archive = format!("{archive:?}, octet {place} of the {name} is wrong: {}", encode(lent.octets()));
                return disagree(call(), archive, format!("{second:?}, {name}: {}", encode(lent.expected())));
            }
        }
        Ok(())
    }

    /// Checks what a writing call answered and left in the output, and counts its number.
    fn agree_on_writing(
        &mut self,
        call: Call,
        shown: impl Fn() -> String,
        archive: &Written,
        encoding: &Result<Vec<u8>, Number>,
    ) -> Checked {
        self.output.expect_front(encoding.as_deref().unwrap_or(&[]));
        self.agree(shown, archive, &answers::written(encoding))?;
        self.coverage.count(call, Seen::Number(archive.number));
        Ok(())
    }

    /// Checks that the octets which were read have been written back.
    fn agree_on_writing_back(&self, read: fmt::Arguments, octets: &[u8]) -> Checked {
        let written = self.output.octets();
        match written == octets {
            true => Ok(()),
            false => {
                disagree(format!("read and write back ({read} {})", encode(octets)), encode(written), encode(octets))
            }
        }
    }

    fn buffers(&self) -> [(&'static str, &Lent); 13] {
        let [router, source, group] = &self.flow;
        let [source_actives, states] = &self.lists;
        [
            ("input", &self.input),
            ("output", &self.output),
            ("table", &self.table),
            ("attribute", &self.attribute),
            ("FEC", &self.fec),
            ("list of prefixes", &self.prefixes),
            ("router", router),
            ("source", source),
            ("group", group),
            ("list of Source Active routes", source_actives),
            ("list of states", states),
            ("list of Leaves", &self.leaves),
            ("unfinished NLRI", &self.unfinished),
        ]
    }
}

/// A disagreement as an error.
pub fn disagree(call: String, archive: String, second: String) -> Checked {
    Err(Disagreement { call, archive, second })
}
