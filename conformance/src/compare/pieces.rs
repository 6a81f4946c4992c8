//! `mvpn_pieces_start`, `mvpn_pieces_feed` and `mvpn_pieces_finish`.

use super::{disagree, Checked, Disagreement, Harness, Input};
use crate::{
    coverage::{Call, Seen},
    ffi::{self, Fed, Pieces, Walked, UNFINISHED},
    hexadecimal::encode,
    second::runs::pieces,
};
use std::fmt::{self, Debug, Formatter};

/// A reader of the archive beside one of the second decoder.
#[derive(Clone)]
pub struct Reader {
    afi: u16,
    archive: Pieces,
    second: pieces::Pieces,
    /// The octets lent to the archive's, wherever they lie.
    unfinished: Vec<u8>,
    /// The NLRIs given.
    pub given: Vec<Vec<u8>>,
    /// Feeds since the last of them.
    feeds: usize,
}

/// What is compared of a feed.
#[derive(PartialEq)]
struct Answer {
    taken: usize,
    nlri: Vec<u8>,
    repeated: Option<Walked>,
}

impl Debug for Answer {
    fn fmt(&self, formatter: &mut Formatter) -> fmt::Result {
        let Answer { taken, nlri, repeated } = self;
        write!(formatter, "taken {taken}, nlri {}, {repeated:?}", encode(nlri))
    }
}

impl Harness {
    /// A reader just started, whose lent octets hold these at first.
    pub fn pieces_start(&mut self, afi: u16, mode: u32, unfinished: [u8; UNFINISHED]) -> Result<Reader, Disagreement> {
        let (archive, second) = (ffi::pieces_start(afi, mode), self.second.pieces_start(afi, mode));
        let unfinished = unfinished.to_vec();
        let answer = second.answer();
        let archive_answer = answer.map(|_| archive.walked);
        self.agree(|| format!("mvpn_pieces_start(afi {afi}, mode {mode})"), &archive_answer, &answer)?;
        self.coverage.count(Call::PiecesStart, Seen::Number(answer.map_or(0, |walked| walked.number)));
        Ok(Reader { afi, archive, second, unfinished, given: Vec::new(), feeds: 0 })
    }

    /// Hands a piece over; gives the octets taken.
    pub fn pieces_feed<'a>(&mut self, reader: &mut Reader, piece: impl Into<Input<'a>>) -> Result<usize, Disagreement> {
        let piece = piece.into();
        self.lend(piece);
        self.lend_unfinished(&reader.unfinished);
        let Fed { pieces, taken, size } = ffi::pieces_feed(reader.archive, &mut self.unfinished, &mut self.input);
        let fed = self.second.pieces_feed(&reader.second, piece.octets);
        if fed.repeated.is_none() {
            self.unfinished.expect_any();
        }
        let nlri = self.unfinished.octets()[..size.min(UNFINISHED)].to_vec();
        let archive = Answer { taken, nlri, repeated: fed.repeated.map(|_| pieces.walked) };
        let in_range = if fed.taken.contains(&taken) { taken } else { *fed.taken.end() };
        let second = Answer { taken: in_range, nlri: fed.nlri, repeated: fed.repeated };
        let shown = || format!("mvpn_pieces_feed({:?}, piece {})", reader.archive, encode(piece.octets));
        self.agree(shown, &archive, &second)?;
        self.second.pieces_fed(&mut reader.second, piece.octets, &second.nlri, taken);
        reader.archive = pieces;
        reader.unfinished = self.unfinished.octets().to_vec();
        self.count_feed(reader, piece.octets, second);
        Ok(taken)
    }

    /// The caller's loop: what a feed leaves of the piece is handed over next.
    pub fn pieces_hand_over<'a>(&mut self, reader: &mut Reader, piece: impl Into<Input<'a>>) -> Checked {
        let Input { mut octets, after } = piece.into();
        loop {
            let taken = self.pieces_feed(reader, Input { octets, after })?;
            octets = &octets[taken..];
            if octets.is_empty() {
                return Ok(());
            }
        }
    }

    pub fn pieces_finish(&mut self, reader: &mut Reader) -> Result<Walked, Disagreement> {
        let archive = ffi::pieces_finish(reader.archive);
        let second = self.second.pieces_finish(&mut reader.second);
        self.agree(|| format!("mvpn_pieces_finish({:?})", reader.archive), &archive.walked, &second)?;
        reader.archive = archive;
        self.coverage.count(Call::PiecesFinish, Seen::Number(second.number));
        self.coverage.count(Call::PiecesFinish, Seen::Skipped(second.skipped.min(3)));
        self.count_discarded(Call::PiecesFinish, reader.afi, reader.second.run(), &second);
        Ok(second)
    }

    /// A feed and a finish of a state that no call made: of its answer is asked only that no octet is taken or written that
    /// is not lent.
    pub fn pieces_forged(&mut self, pieces: Pieces, unfinished: [u8; UNFINISHED], piece: &[u8]) -> Checked {
        self.lend(piece.into());
        self.lend_unfinished(&unfinished);
        let fed = ffi::pieces_feed(pieces, &mut self.unfinished, &mut self.input);
        self.unfinished.expect_any();
        let shown = || format!("mvpn_pieces_feed(forged {pieces:?}, piece {})", encode(piece));
        self.agree(shown, &(), &())?;
        if fed.taken > piece.len() {
            return disagree(shown(), format!("{fed:?}"), format!("at most {} octets taken", piece.len()));
        }
        ffi::pieces_finish(pieces);
        ffi::pieces_finish(fed.pieces);
        self.coverage.count(Call::PiecesFeed, Seen::Forged);
        Ok(())
    }

    /// Lends the octets at another place each time: the reader knows them by what they hold.
    fn lend_unfinished(&mut self, octets: &[u8]) {
        self.unfinished.place(octets, &[], (self.calls % 229) as u8);
    }

    fn count_feed(&mut self, reader: &mut Reader, piece: &[u8], Answer { nlri, repeated, .. }: Answer) {
        let mut count = |seen| self.coverage.count(Call::PiecesFeed, seen);
        if piece.is_empty() {
            count(Seen::NoOctets);
        }
        if repeated.is_some() {
            count(Seen::Finished);
        }
        reader.feeds += 1;
        if !nlri.is_empty() {
            count(Seen::Route(nlri[0].into(), reader.afi));
            count(Seen::Feeds(reader.feeds.min(3)));
            reader.given.push(nlri);
            reader.feeds = 0;
        }
    }
}
