//! A run that arrives in pieces (document 02, W-203, W-206 and W-210): a reader that keeps every octet it took, and walks them all
//! each time.

use super::run::{Walk, OLD};
use crate::{
    ffi::Walked,
    second::{
        fault::Fault,
        nlri::{reading::Reading, rows::SOURCE_ACTIVE},
        number::Number,
        Second,
    },
};
use std::ops::RangeInclusive;

/// The most octets of a run.
const LONGEST: usize = 4_096;

#[derive(Clone, Debug)]
pub struct Pieces {
    afi: u16,
    mode: u32,
    /// Every octet taken.
    run: Vec<u8>,
    /// NLRIs given.
    given: usize,
    /// Whether more octets were handed over than a run may have.
    long: bool,
    /// What finish answered; with a bad AFI from the start.
    answer: Option<Walked>,
}

impl Pieces {
    /// The answer of a reader that is finished.
    pub fn answer(&self) -> Option<Walked> {
        self.answer
    }

    /// Every octet taken.
    pub fn run(&self) -> &[u8] {
        &self.run
    }
}

/// What a feed gives.
#[derive(Clone, Debug, PartialEq, Eq)]
pub struct Fed {
    /// The NLRI that is now whole; no octets where there is none.
    pub nlri: Vec<u8>,
    /// Octets taken of the piece. The program has a choice where an NLRI is refused and where the run is too long; of some
    /// octets it takes one or more.
    pub taken: RangeInclusive<usize>,
    /// The answer that a finished reader repeats.
    pub repeated: Option<Walked>,
}

impl Second {
    /// FAMILY at once: such a reader is finished.
    pub fn pieces_start(&self, afi: u16, mode: u32) -> Pieces {
        let refused = self.family(afi).is_err() && !self.has(Fault::BAD_AFI_COUNTED);
        let mode = match self.has(Fault::PIECES_OLD) {
            true => OLD,
            false => mode,
        };
        let answer = refused.then(|| match self.has(Fault::BAD_AFI_FINISHED) {
            true => Walked::default(),
            false => self.answer_walk(afi, mode, &[]),
        });
        Pieces { afi, mode, run: Vec::new(), given: 0, long: false, answer }
    }

    /// What the reader gives for a piece: the next NLRI of the run that ends with this piece.
    pub fn pieces_feed(&self, reader: &Pieces, piece: &[u8]) -> Fed {
        let (before, size) = (reader.run.len(), piece.len());
        let takes = |taken, nlri: &[u8]| Fed { nlri: nlri.to_vec(), taken, repeated: reader.answer };
        if reader.answer.is_some() && !self.has(Fault::FED_AFTER_FINISH) {
            let taken = if self.has(Fault::FINISHED_TAKES_NONE) { 0 } else { size };
            return takes(taken..=taken, &[]);
        }
        let counted = if self.has(Fault::LONG_WHEN_TAKEN) { 0 } else { size };
        if reader.long || self.passes(reader, counted) {
            return takes(size.min(1)..=size, &[]);
        }
        let mut whole = [&reader.run, piece].concat();
        whole.truncate(LONGEST);
        let walk = self.in_pieces().walk(reader.afi, reader.mode, &whole);
        let next = self.read_on(reader, &whole, &walk).get(reader.given).copied();
        if let Some((start, end)) = self.skipped_next(&walk, before, next.map(|(start, _)| start)) {
            let given = self.has(Fault::SKIP_GIVEN) || self.has(Fault::DISCARD_GIVEN) && whole[start] == SOURCE_ACTIVE;
            let nlri = if given { &whole[start..end] } else { &[] };
            return takes(end - before..=end - before, nlri);
        }
        if let Some((start, end)) = next {
            let taken = if self.has(Fault::PIECES_TAKE_ALL) { size } else { end.saturating_sub(before) };
            let header = 2 * usize::from(self.has(Fault::PIECES_WITHOUT_HEADER));
            let nlri = if self.has(Fault::PIECES_GIVE_NONE) { &[] } else { &whole[start + header..end] };
            return takes(taken..=taken, nlri);
        }
        match refused_end(&whole, &walk) {
            // Up to the end of the refused NLRI at least.
            Some(end) if end > before => takes(end - before..=size, &[]),
            _ => takes(size..=size, &[]),
        }
    }

    /// The reader after a feed that took so many octets of the piece.
    pub fn pieces_fed(&self, reader: &mut Pieces, piece: &[u8], nlri: &[u8], taken: usize) {
        if reader.answer.is_some() {
            return;
        }
        let counted = if self.has(Fault::LONG_WHEN_TAKEN) { taken } else { piece.len() };
        reader.long |= self.passes(reader, counted);
        let before = reader.run.len();
        reader.run.extend(&piece[..taken]);
        reader.given += usize::from(!nlri.is_empty());
        if nlri.len() > taken && self.has(Fault::PIECES_GIVE_TWICE) {
            reader.given -= 1;
        }
        self.misplace(reader, before);
    }

    /// The wrong keeping of some faults; `before` octets had been taken before this piece.
    fn misplace(&self, reader: &mut Pieces, before: usize) {
        if self.fault.is_none() {
            return;
        }
        let walk = self.walk(reader.afi, reader.mode, &reader.run);
        let (offset, end) = (walk.offset(), refused_end(&reader.run, &walk));
        let cut = walk.number == Number::Short;
        let empty = reader.run.len() == before;
        if cut && self.has(Fault::PIECES_FORGET) {
            reader.run.truncate(offset);
        }
        if self.has(Fault::STOP_UNCOUNTED) {
            reader.run.truncate(end.unwrap_or(usize::MAX));
        }
        if cut && self.has(Fault::SHORT_AT_ONCE) || empty && self.has(Fault::EMPTY_PIECE_ENDS) {
            reader.answer = Some(self.answer_walk(reader.afi, reader.mode, &reader.run));
        }
    }

    /// The walk's answer over all that was taken; LONG where too much was handed over.
    pub fn pieces_finish(&self, reader: &mut Pieces) -> Walked {
        let answer = match reader.answer {
            Some(_) if self.has(Fault::FINISH_ANEW) => Walked::default(),
            Some(answer) => answer,
            None => self.finished(reader),
        };
        reader.answer = Some(answer);
        answer
    }

    fn finished(&self, reader: &Pieces) -> Walked {
        let run = &reader.run[..reader.run.len().min(LONGEST)];
        let walked = self.in_pieces().answer_walk(reader.afi, reader.mode, run);
        let long = Walked { number: Number::Long.value(), ..Default::default() };
        match reader.long {
            true if self.has(Fault::LONG_KEEPS_SKIPPED) => Walked { skipped: walked.skipped, ..long },
            true if self.has(Fault::LONG_KEEPS_COUNT) => Walked { number: long.number, ..walked },
            true if self.has(Fault::LONG_KEEPS_STOP) && walked.number > Number::Short.value() => walked,
            true => long,
            false if self.has(Fault::SHORT_UNTOLD) && walked.number == Number::Short.value() => {
                Walked { number: Number::Done.value(), ..walked }
            }
            false => walked,
        }
    }

    /// Whether so many octets more are too many.
    fn passes(&self, reader: &Pieces, more: usize) -> bool {
        let before = if self.has(Fault::PIECES_LIMIT_EACH) { 0 } else { reader.run.len() };
        let less = usize::from(self.has(Fault::PIECES_LIMIT_4095));
        let added = usize::from(self.has(Fault::PIECES_LIMIT_4097));
        before + more > LONGEST - less + added
    }

    /// The offsets between which the NLRIs stand that a walk read, which are given.
    fn read_on(&self, reader: &Pieces, run: &[u8], walk: &Walk) -> Vec<(usize, usize)> {
        let ends = |(offset, reading): (usize, &Reading)| (offset, offset + 2 + usize::from(reading.length));
        let mut read: Vec<_> = walk.read().map(ends).collect();
        if let (Some(end), true) = (refused_end(run, walk), self.has(Fault::STOP_READS_ON)) {
            let behind = self.walk(reader.afi, reader.mode, &run[end..]);
            read.extend(behind.read().map(ends).map(|(start, stop)| (end + start, end + stop)));
        }
        read
    }

    /// The offsets between which an NLRI stands that this piece makes whole, before the next one that is given, and that is
    /// skipped. A feed takes it to its end, and gives nothing.
    fn skipped_next(&self, walk: &Walk, before: usize, next: Option<usize>) -> Option<(usize, usize)> {
        let skipped = walk.places().filter(|(_, stretch)| stretch.reading.is_none());
        let (start, end) = skipped.map(|(offset, stretch)| (offset, offset + stretch.size)).find(|it| it.1 > before)?;
        next.is_none_or(|next| start < next).then_some((start, end))
    }
}

/// The offset past the NLRI that a walk refused, which is whole; none where it refused none.
fn refused_end(run: &[u8], walk: &Walk) -> Option<usize> {
    let offset = walk.offset();
    match (walk.number, run.get(offset..)?) {
        (Number::Done | Number::Short | Number::Family, _) => None,
        (_, [_, length, ..]) => Some(offset + 2 + usize::from(*length)),
        _ => None,
    }
}
