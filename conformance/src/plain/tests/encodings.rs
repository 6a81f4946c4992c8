//! The plain calls do the same work as the archive only if they refuse the same inputs.

use crate::{
    cases::{
        discards::examples::{nlri, NLRIS},
        encodings::nlri_writing::{fields, lent},
        inputs::{
            lists::EMPTY,
            near,
            routes::{picked, Addresses},
        },
        prefixes::examples::CLASSES,
    },
    compare::run::MODES,
    ffi::{Group, UNFINISHED},
    hexadecimal::octets,
    plain,
    random::Random,
    second::{answers::written, Second},
};

const CASES: usize = 60_000;

#[test]
fn reading_as_the_second_decoder() {
    for (shows, afi, text, number) in NLRIS {
        let octets = nlri(text);
        assert_eq!(unsafe { plain::nlri_read(afi, octets.as_ptr(), octets.len()) }.number, number, "{shows}");
    }
    let (second, mut random) = (Second::sound(), Random::new(1));
    for _ in 0..CASES {
        let afi = near::afi(&mut random);
        let mut octets = near::nlri(&mut random, afi);
        near::disturb_nlri(&mut random, &mut octets);
        let (pointer, size) = (octets.as_ptr(), octets.len());
        assert_eq!(unsafe { plain::nlri_read(afi, pointer, size) }, second.answer_nlri_read(afi, &octets));
        let mode = random.pick(&MODES);
        assert_eq!(unsafe { plain::walk(afi, mode, pointer, size) }, second.answer_walk(afi, mode, &octets));
        let cursor = random.below(3);
        assert_eq!(unsafe { plain::step(afi, pointer, size, cursor) }, second.answer_step(afi, &octets, cursor));
        assert_eq!(class(afi, EMPTY, &octets), second.answer_group_class(afi, EMPTY, &octets));
        let mut octets = near::attribute(&mut random);
        near::disturb(&mut random, &mut octets);
        let reading = unsafe { plain::attribute_read(octets.as_ptr(), octets.len()) };
        assert_eq!(reading, second.answer_attribute_read(&octets));
    }
}

fn class(afi: u16, prefixes: &[u8], group: &[u8]) -> Group {
    unsafe { plain::group_class(afi, prefixes.as_ptr(), prefixes.len(), group.as_ptr(), group.len()) }
}

/// Any prefixes, mostly good, and groups that they hold or not.
#[test]
fn prefixes_as_the_second_decoder() {
    for (shows, afi, prefixes, group, number, group_class) in CLASSES {
        assert_eq!(class(afi, &octets(prefixes), &octets(group)), Group { number, group_class }, "{shows}");
    }
    let (second, mut random) = (Second::sound(), Random::new(6));
    let families = [1, 2].map(Addresses::of_family);
    for _ in 0..CASES {
        let addresses = &families[random.below(2)];
        let (afi, prefixes) = (near::afi(&mut random), addresses.any_prefixes(&mut random));
        let mut group = picked(&mut random, &addresses.groups).to_vec();
        near::disturb(&mut random, &mut group);
        assert_eq!(class(afi, &prefixes, &group), second.answer_group_class(afi, &prefixes, &group));
    }
}

#[test]
fn writing_as_the_second_decoder() {
    let (second, mut random) = (Second::sound(), Random::new(2));
    for _ in 0..CASES {
        let afi = near::afi(&mut random);
        let nlri = fields(&mut random);
        let (mut key, mut fec) = lent(&mut random, afi, nlri.route_type);
        near::disturb_nlri(&mut random, &mut key);
        near::disturb(&mut random, &mut fec);
        let mut output = vec![0; random.below(200)];
        let encoding = second.nlri_write(afi, &nlri, &key, &fec, output.len());
        let (pointer, room) = (output.as_mut_ptr(), output.len());
        let (element, size) = (fec.as_ptr(), fec.len());
        let answer = unsafe { plain::nlri_write(afi, nlri, key.as_ptr(), key.len(), element, size, pointer, room) };
        assert_eq!(answer, written(&encoding));
        assert_eq!(output[..answer.size], encoding.unwrap_or_default());
        let tunnel_type = near::tunnel_type(&mut random);
        let identifier = near::identifier(&mut random, tunnel_type);
        let label_field = random.number() as u32 >> random.below(16);
        let encoding = second.attribute_write(7, tunnel_type, label_field, &identifier, room);
        let (octets, size) = (identifier.as_ptr(), identifier.len());
        let answer = unsafe { plain::attribute_write(7, tunnel_type, label_field, octets, size, pointer, room) };
        assert_eq!(answer, written(&encoding));
        assert_eq!(output[..answer.size], encoding.unwrap_or_default());
    }
}

/// Any run in any pieces: the same NLRIs and the same answer, and every call after finish repeats it.
#[test]
fn pieces_as_the_second_decoder() {
    let (second, mut random) = (Second::sound(), Random::new(3));
    for round in 0..6_000 {
        let afi = near::afi(&mut random);
        let size = if round % 30 == 0 { 4_000 + random.below(200) } else { random.below(300) };
        let (mode, mut run) = (random.pick(&MODES), Vec::new());
        while run.len() < size {
            run.extend(near::item(&mut random, afi));
        }
        run.truncate(size);
        assert_eq!(unsafe { plain::walk(afi, mode, run.as_ptr(), size) }, second.answer_walk(afi, mode, &run));
        near::disturb(&mut random, &mut run);
        let most = 1 + random.below(120);
        let mut unfinished: [u8; UNFINISHED] = random.array();
        let (mut plain, mut reader) = (plain::pieces_start(afi, mode), second.pieces_start(afi, mode));
        let mut rest = &run[..];
        while !rest.is_empty() {
            let piece = &rest[..rest.len().min(random.below(most + 1))];
            let fed = unsafe { plain::pieces_feed(plain, unfinished.as_mut_ptr(), piece.as_ptr(), piece.len()) };
            let expected = second.pieces_feed(&reader, piece);
            assert!(expected.taken.contains(&fed.taken), "{fed:?} {expected:?}");
            assert_eq!(unfinished[..fed.size], expected.nlri);
            second.pieces_fed(&mut reader, piece, &expected.nlri, fed.taken);
            (plain, rest) = (fed.pieces, &rest[fed.taken..]);
        }
        for _ in 0..2 {
            plain = plain::pieces_finish(plain);
            assert_eq!(plain.walked, second.pieces_finish(&mut reader));
            plain = unsafe { plain::pieces_feed(plain, unfinished.as_mut_ptr(), run.as_ptr(), run.len()) }.pieces;
        }
    }
}
