//! The reader of pieces on document 02's words, W-203, W-206 and W-210.

use crate::{
    cases::{
        discards::examples::RUNS,
        document::RD,
        runs::{pieces::EXAMPLES, skips},
    },
    ffi::Walked,
    hexadecimal::octets,
    second::{
        runs::run::{OLD, SKIP},
        Second,
    },
};

/// What is given and answered when these pieces are handed over, each as far as it may be taken at most.
fn read(afi: u16, mode: u32, pieces: &[Vec<u8>]) -> (Vec<Vec<u8>>, Walked) {
    let second = Second::sound();
    let mut reader = second.pieces_start(afi, mode);
    let mut given = Vec::new();
    for piece in pieces {
        let mut rest = &piece[..];
        loop {
            let fed = second.pieces_feed(&reader, rest);
            let taken = *fed.taken.end();
            second.pieces_fed(&mut reader, rest, &fed.nlri, taken);
            given.extend(Some(fed.nlri).filter(|nlri| !nlri.is_empty()));
            rest = &rest[taken..];
            if rest.is_empty() {
                break;
            }
        }
    }
    (given, second.pieces_finish(&mut reader))
}

#[test]
fn written_examples() {
    let decoded = |text: &str| octets(&text.replace("RD", RD));
    let of_old_mode = EXAMPLES.iter().map(|(shows, afi, text, given, [number, count, offset])| {
        (*shows, *afi, OLD, *text, *given, [*number, *count, *offset, 0])
    });
    let examples = of_old_mode.chain(skips::EXAMPLES).chain(RUNS);
    for (shows, afi, mode, text, given, [number, count, offset, skipped]) in examples {
        let pieces: Vec<Vec<u8>> = text.split('|').map(decoded).collect();
        let given: Vec<Vec<u8>> = given.iter().map(|text| decoded(text)).collect();
        assert_eq!(read(afi, mode, &pieces), (given, Walked { number, count, offset, skipped }), "{shows}");
    }
}

/// LONG when the total passes 4,096, stop or no stop: that piece gives no NLRI, and the answer stays.
#[test]
fn long_runs() {
    let nlri = octets(&"020C RD 0000FDE8".replace("RD", RD));
    let long = Walked { number: 8, ..Default::default() };
    let stop = Walked { number: 2, ..Default::default() };
    let skipped = Walked { skipped: 2_048, offset: 4_096, ..Default::default() };
    assert_eq!(read(1, OLD, &[vec![0; 4_096]]), (vec![], stop));
    assert_eq!(read(1, SKIP, &[vec![0; 4_096]]), (vec![], skipped));
    for mode in [SKIP, OLD] {
        let read = |pieces: &[Vec<u8>]| read(1, mode, pieces);
        assert_eq!(read(&[vec![0; 4_096], vec![0]]), (vec![], long));
        assert_eq!(read(&[nlri.clone(), vec![0; 4_083]]), (vec![nlri.clone()], long));
        assert_eq!(read(&[[&nlri[..], &[0; 4_083]].concat()]), (vec![], long));
        assert_eq!(read(&[[&nlri[..], &[0; 4_083]].concat(), nlri.clone()]), (vec![], long));
    }
}

/// After finish every call repeats the answer, and a feed takes its whole piece.
#[test]
fn after_finish() {
    let second = Second::sound();
    for (afi, number) in [(1, 1), (3, 10)] {
        let mut reader = second.pieces_start(afi, OLD);
        let fed = second.pieces_feed(&reader, &[3]);
        second.pieces_fed(&mut reader, &[3], &fed.nlri, 1);
        let answer = Walked { number, ..Default::default() };
        assert_eq!(second.pieces_finish(&mut reader), answer);
        for piece in [&[][..], &[0x0E; 20], &[0; 5_000]] {
            let fed = second.pieces_feed(&reader, piece);
            assert_eq!((fed.nlri.len(), fed.taken, fed.repeated), (0, piece.len()..=piece.len(), Some(answer)));
            second.pieces_fed(&mut reader, piece, &[], piece.len());
        }
        assert_eq!(second.pieces_finish(&mut reader), answer);
    }
}
