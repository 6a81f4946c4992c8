//! Every single-octet change, truncation and extension of the samples, and their round trips.

use crate::{
    cases::inputs::samples::{all_nlris, attributes, Sample, BAD_AFIS, GOOD_AFIS},
    compare::{disagree, Checked, Harness, Input},
    ffi::NlriReading,
    hexadecimal::encode,
};

pub fn all(harness: &mut Harness) -> Checked {
    for sample in all_nlris() {
        sample_itself(harness, &sample)?;
        lengths(&sample.octets, |input| harness.read_all_ways(sample.afi, input))?;
        changes(&sample.octets, |octets| harness.read_all_ways(sample.afi, octets))?;
    }
    for attribute in attributes() {
        if !harness.attribute_round_trip(&attribute)? {
            return refused(&attribute);
        }
        lengths(&attribute, |input| harness.attribute_read(input).map(|_| ()))?;
        changes(&attribute, |octets| harness.attribute_read(octets).map(|_| ()))?;
    }
    Ok(())
}

/// The sample under every AFI, its fields, and written back.
fn sample_itself(harness: &mut Harness, sample: &Sample) -> Checked {
    for afi in GOOD_AFIS.into_iter().chain(BAD_AFIS) {
        harness.read_all_ways(afi, &sample.octets)?;
    }
    if !harness.nlri_round_trip(sample.afi, &sample.octets)? {
        return refused(&sample.octets);
    }
    let NlriReading { nlri, key, fec, .. } = harness.nlri_reading(sample.afi, &sample.octets)?;
    let [key_read, fec_read] = [key, fec].map(|span| &sample.octets[span.start..][..span.size]);
    match nlri == sample.nlri && key_read == sample.key && fec_read == sample.fec {
        true => Ok(()),
        false => disagree(
            format!("fields of a sample (afi {}, nlri {})", sample.afi, encode(&sample.octets)),
            format!("{nlri:?} {key:?} {fec:?}"),
            format!("{:?}", sample.nlri),
        ),
    }
}

fn refused(octets: &[u8]) -> Checked {
    disagree(format!("well-formed sample {}", encode(octets)), "refused".into(), "read".into())
}

/// Every truncation, with the rest standing behind it, and extensions by up to three octets.
pub fn lengths(octets: &[u8], mut compare: impl FnMut(Input) -> Checked) -> Checked {
    for size in 0..=octets.len() {
        compare(Input::cut(octets, size))?;
    }
    for extra in [&[0][..], &[0xFF], &[0, 0], &[2, 0, 0]] {
        compare(Input::from(&[octets, extra].concat()))?;
    }
    Ok(())
}

/// Every other value at every place.
pub fn changes(octets: &[u8], compare: impl FnMut(&[u8]) -> Checked) -> Checked {
    changes_by(octets, 1..=255, compare)
}

/// Values at every place that differ by these.
pub fn changes_by(
    octets: &[u8],
    differences: impl IntoIterator<Item = u8> + Clone,
    mut compare: impl FnMut(&[u8]) -> Checked,
) -> Checked {
    let mut changed = octets.to_vec();
    for place in 0..octets.len() {
        for difference in differences.clone() {
            changed[place] = octets[place] ^ difference;
            compare(&changed)?;
        }
        changed[place] = octets[place];
    }
    Ok(())
}
