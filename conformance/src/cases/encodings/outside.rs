//! Runs and attributes decoded by another program, in `outside/vectors.txt`: the archive and the second decoder must
//! both give what stands there.
//!
//! A block is `run <afi> <octets>`, then for each NLRI `nlri <offset> <type> <length>` with its fields as `name=value`,
//! then `end <offset> <number>`; or `attribute <octets>`, then `fields` with `name=value`. `#` starts a comment. An NLRI that the
//! other program decodes and document 02, W-210, discards is `discarded` in the place of `nlri`: it is refused with GROUP, and the
//! second decoder lays it out as the other program does.

use crate::{
    compare::{disagree, Checked, Disagreement, Harness},
    ffi::{Address, NlriReading, Walked},
    hexadecimal::{decode, encode},
    second::{
        fault::Fault,
        number::Number,
        runs::run::{OLD, SKIP},
        Second,
    },
};
use std::{collections::BTreeMap, fs, path::Path};

/// A line's word, its plain values and its named values.
struct Line<'a> {
    text: &'a str,
    word: &'a str,
    plain: Vec<&'a str>,
    named: BTreeMap<&'a str, &'a str>,
}

/// The run that the following lines speak of.
struct Run {
    afi: u16,
    octets: Vec<u8>,
    count: u32,
    cursor: usize,
    discarded: u32,
    /// What a walk in the old mode answers at the first that is discarded.
    stop: Option<Walked>,
}

/// Compares the file where it exists; with `required` it must exist.
pub fn all(harness: &mut Harness, required: bool) -> Checked {
    let path = Path::new(env!("CARGO_MANIFEST_DIR")).join("outside/vectors.txt");
    match fs::read_to_string(&path) {
        Ok(text) => compare_text(harness, &text),
        Err(_) if !required => Ok(()),
        Err(error) => disagree("outside vectors".into(), error.to_string(), path.display().to_string()),
    }
}

/// Compares every block of the text.
fn compare_text(harness: &mut Harness, text: &str) -> Checked {
    let lines = text.lines().map(|line| line.split('#').next().unwrap_or("").trim()).filter(|line| !line.is_empty());
    let mut run: Option<Run> = None;
    let mut attribute: Option<Vec<u8>> = None;
    for line in lines.map(parse) {
        match (line.word, run.as_mut(), attribute.take()) {
            ("run", None, None) => run = Some(opened(&line)?),
            ("nlri", Some(open), None) => nlri(harness, open, &line)?,
            ("discarded", Some(open), None) => discarded(harness, open, &line)?,
            ("end", Some(open), None) => {
                end(harness, open, &line)?;
                run = None;
            }
            ("attribute", None, None) => attribute = Some(octets(&line, line.plain.first().copied())?),
            ("fields", None, Some(octets)) => fields(harness, &octets, &line)?,
            _ => return misplaced(&line),
        }
    }
    match run.is_none() && attribute.is_none() {
        true => Ok(()),
        false => disagree("outside vectors".into(), "the last block is not closed".into(), String::new()),
    }
}

fn parse(text: &str) -> Line<'_> {
    let mut words = text.split_whitespace();
    let word = words.next().unwrap_or("");
    let (named, plain): (Vec<&str>, Vec<&str>) = words.partition(|value| value.contains('='));
    let named = named.into_iter().filter_map(|value| value.split_once('=')).collect();
    Line { text, word, plain, named }
}

fn misplaced<T>(line: &Line) -> Result<T, Disagreement> {
    let call = format!("outside vectors, line: {}", line.text);
    Err(Disagreement { call, archive: "the line is not as it should be".into(), second: String::new() })
}

fn number(line: &Line, text: Option<&str>) -> Result<u64, Disagreement> {
    text.and_then(|text| text.parse().ok()).map_or_else(|| misplaced(line), Ok)
}

fn octets(line: &Line, text: Option<&str>) -> Result<Vec<u8>, Disagreement> {
    decode(text.unwrap_or("")).map_or_else(|| misplaced(line), Ok)
}

fn opened(line: &Line) -> Result<Run, Disagreement> {
    let afi = number(line, line.plain.first().copied())? as u16;
    let octets = octets(line, line.plain.get(1).copied())?;
    Ok(Run { afi, octets, count: 0, cursor: 0, discarded: 0, stop: None })
}

/// Both decoders beside a value of the file.
fn same<Value: PartialEq + std::fmt::Debug>(line: &Line, archive: Value, file: Value) -> Checked {
    match archive == file {
        true => Ok(()),
        false => disagree(
            format!("outside vectors, line: {}", line.text),
            format!("{archive:?} (the second decoder too)"),
            format!("{file:?} in the file"),
        ),
    }
}

/// Steps to the NLRI of the line and reads it alone. The harness holds the second decoder to the same answers.
fn nlri(harness: &mut Harness, run: &mut Run, line: &Line) -> Checked {
    let values = line.plain.iter().map(|text| number(line, Some(text))).collect::<Result<Vec<_>, _>>()?;
    let stepped = harness.step(run.afi, &run.octets, run.cursor)?;
    let place = [run.cursor, stepped.layout.route_type, stepped.layout.length].map(|value| value as u64);
    same(line, place.to_vec(), values)?;
    let single = run.octets[run.cursor..stepped.cursor].to_vec();
    let reading = harness.nlri_reading(run.afi, &single)?;
    same(line, named_fields(&reading, &single), file_fields(line)?)?;
    run.cursor = stepped.cursor;
    run.count += 1;
    Ok(())
}

/// Refused with GROUP at its place in the run and alone; laid out, it has the fields of the line.
fn discarded(harness: &mut Harness, run: &mut Run, line: &Line) -> Checked {
    let values = line.plain.iter().map(|text| number(line, Some(text))).collect::<Result<Vec<_>, _>>()?;
    let (start, group) = (run.cursor, Number::Group.value());
    let stepped = harness.step(run.afi, &run.octets, start)?;
    same(line, (stepped.number, stepped.cursor), (group, start))?;
    let Some([route_type, length, ..]) = run.octets.get(start..) else { return misplaced(line) };
    let place = [start, usize::from(*route_type), usize::from(*length)].map(|value| value as u64);
    same(line, place.to_vec(), values)?;
    let single = run.octets[start..start + 2 + usize::from(*length)].to_vec();
    same(line, harness.nlri_reading(run.afi, &single)?.number, group)?;
    let laid_out = Second::with_fault(Fault::DISCARD_NEVER).answer_nlri_read(run.afi, &single);
    same(line, named_fields(&laid_out, &single), file_fields(line)?)?;
    run.stop = run.stop.or(Some(Walked { number: group, count: run.count, offset: start as u32, skipped: 0 }));
    run.cursor += single.len();
    run.discarded += 1;
    Ok(())
}

/// The walk's answer. The file knows no modes: a run without discarded NLRIs is walked in the old one, where an unknown type ends it.
fn end(harness: &mut Harness, run: &Run, line: &Line) -> Checked {
    let offset = number(line, line.plain.first().copied())? as u32;
    let number = number(line, line.plain.get(1).copied())? as u32;
    let whole = Walked { number, count: run.count, offset, skipped: run.discarded };
    let old = harness.walk(run.afi, OLD, &run.octets)?;
    same(line, old, run.stop.unwrap_or(whole))?;
    if run.discarded > 0 {
        same(line, harness.walk(run.afi, SKIP, &run.octets)?, whole)?;
    }
    harness.walk_by_steps(run.afi, &run.octets)
}

fn fields(harness: &mut Harness, attribute: &[u8], line: &Line) -> Checked {
    let reading = harness.attribute_read(attribute)?;
    same(line, reading.number, 0)?;
    let values = ["flags", "type", "label"]
        .iter()
        .map(|name| number(line, line.named.get(name).copied()))
        .collect::<Result<Vec<_>, _>>()?;
    same(line, [reading.flags, reading.tunnel_type, reading.label].map(u64::from).to_vec(), values)?;
    let identifier = &attribute[reading.identifier.start..][..reading.identifier.size];
    same(line, identifier.to_vec(), octets(line, line.named.get("identifier").copied())?)
}

/// The named values of a line, hexadecimal in small letters.
fn file_fields(line: &Line) -> Result<BTreeMap<String, String>, Disagreement> {
    let known = ["rd", "as", "source", "group", "originator", "key"];
    match line.named.keys().all(|name| known.contains(name)) {
        true => Ok(line.named.iter().map(|(name, value)| (name.to_string(), value.to_lowercase())).collect()),
        false => misplaced(line),
    }
}

/// The fields of a reading under the file's names; those that the type lacks are left out.
fn named_fields(reading: &NlriReading, octets: &[u8]) -> BTreeMap<String, String> {
    let nlri = &reading.nlri;
    let shown = |address: &Address| match address.size {
        0 => "*".to_string(),
        size => encode(&address.octets[..usize::from(size)]),
    };
    let all = [
        ("rd", &[1, 2, 3, 5, 6, 7][..], encode(&nlri.distinguisher.octets)),
        ("as", &[2, 6, 7], nlri.source_as.to_string()),
        ("source", &[3, 5, 6, 7], shown(&nlri.source)),
        ("group", &[3, 5, 6, 7], shown(&nlri.group)),
        ("originator", &[1, 3, 4], shown(&nlri.originator)),
        ("key", &[4], encode(&octets[reading.key.start..][..reading.key.size])),
    ];
    let has = |types: &[u8]| types.contains(&nlri.route_type);
    all.into_iter().filter(|(_, types, _)| has(types)).map(|(name, _, value)| (name.to_string(), value)).collect()
}

#[cfg(test)]
mod tests {
    use super::*;
    use crate::second::Second;

    const BLOCKS: &str = "\
        # four blocks\n\
        run 1 030e000000640000000700000a0000010900\n\
        nlri 0 3 14 rd=0000006400000007 source=* group=* originator=0A000001\n\
        end 16 2\n\
        run 2 0412020c00000064000000070000fde80a000002\n\
        nlri 0 4 18 key=020c00000064000000070000fde8 originator=0a000002\n\
        end 20 0\n\
        run 1 0512000000640000000720c000020120e8010101\n\
        discarded 0 5 18 rd=0000006400000007 source=c0000201 group=e8010101\n\
        end 20 0\n\
        attribute 0106000641c0000201\n\
        fields flags=1 type=6 label=100 identifier=c0000201\n";

    #[test]
    fn blocks_are_compared() {
        assert!(compare_text(&mut Harness::new(Second::sound()), BLOCKS).is_ok());
    }

    #[test]
    fn every_wrong_value_is_seen() {
        let changes = [
            ("nlri 0 3 14", "nlri 0 3 13"),
            ("nlri 0 3", "nlri 0 4"),
            ("group=*", "group=e8010101"),
            ("originator=0A000001", ""),
            ("rd=00", "rd=01"),
            ("end 16 2", "end 16 3"),
            ("end 20 0", "end 18 0"),
            ("key=020c", "key=020d"),
            ("label=100", "label=101"),
            ("identifier=c0", "identifier=c1"),
            ("nlri 0 4 18", "# nlri 0 4 18"),
            ("discarded 0 5", "nlri 0 5"),
            ("discarded 0 5 18", "discarded 0 5 19"),
            ("discarded 0 5", "# discarded 0 5"),
            ("nlri 0 3", "discarded 0 3"),
            ("source=c0000201", "source=c0000202"),
            ("group=e8010101", "group=e8010102"),
        ];
        for (from, to) in changes {
            let text = BLOCKS.replacen(from, to, 1);
            assert_ne!(text, BLOCKS);
            assert!(compare_text(&mut Harness::new(Second::sound()), &text).is_err(), "{from} as {to}");
        }
    }
}
