//! Writing attributes: every output size, label fields about 2^24, identifiers of 0 to 70 octets.

use crate::{
    cases::inputs::{near, samples::identifiers},
    compare::{attribute::AttributeFields, Checked, Harness, Input},
    random::Random,
};

const LABELS: [u32; 10] = [0, 1, 15, 16, 0x12_3456, 0xFF_FFFE, 0xFF_FFFF, 0x100_0000, 0x100_0001, u32::MAX];

pub fn all(harness: &mut Harness, random: &mut Random) -> Checked {
    for (tunnel_type, identifier) in identifiers() {
        outputs(harness, random, tunnel_type, &identifier)?;
        changes(harness, tunnel_type, &identifier)?;
    }
    for tunnel_type in 0..=255 {
        sizes(harness, random, tunnel_type)?;
    }
    Ok(())
}

/// Every output size with each label field.
fn outputs(harness: &mut Harness, random: &mut Random, tunnel_type: u8, identifier: &[u8]) -> Checked {
    for label_field in LABELS {
        for room in (0..=5 + identifier.len() + 2).chain([64, 100, 4_096]) {
            let fields = AttributeFields { flags: random.octet(), tunnel_type, label_field };
            harness.inputs += 1;
            harness.attribute_write(fields, identifier, room)?;
        }
    }
    Ok(())
}

/// Identifiers of 0 to 70 octets and far longer, for any tunnel type, with good and bad label fields.
fn sizes(harness: &mut Harness, random: &mut Random, tunnel_type: u8) -> Checked {
    let octets = random.octets(600);
    for size in (0..=70).chain([256, 263, 300, 512 + 12]) {
        for label_field in [0xFF_FFFF, 0x100_0000] {
            let fields = AttributeFields { flags: random.octet(), tunnel_type, label_field };
            let room = random.pick(&[0, 5 + size, 5 + size, 600]);
            harness.inputs += 1;
            harness.attribute_write(fields, Input::cut(&octets, size), room)?;
        }
    }
    Ok(())
}

/// Single-octet changes and truncations of a good identifier.
fn changes(harness: &mut Harness, tunnel_type: u8, identifier: &[u8]) -> Checked {
    let fields = AttributeFields { flags: 0, tunnel_type, label_field: 0x10 };
    for size in 0..identifier.len() {
        harness.attribute_write(fields, Input::cut(identifier, size), 64)?;
    }
    // Only a FEC's first octets are judged; the rest of an identifier is kept as it came.
    for place in 0..identifier.len().min(27) {
        for value in 0..=255 {
            let mut changed = identifier.to_vec();
            changed[place] = value;
            harness.inputs += 1;
            harness.attribute_write(fields, &changed, 64)?;
        }
    }
    Ok(())
}

/// One random writing call.
pub fn random_case(harness: &mut Harness, random: &mut Random) -> Checked {
    let tunnel_type = near::tunnel_type(random);
    let mut identifier = near::identifier(random, tunnel_type);
    if random.once_in(3) {
        near::disturb(random, &mut identifier);
    }
    let label_field = if random.once_in(4) { random.pick(&LABELS) } else { random.number() as u32 >> 8 };
    let fields = AttributeFields { flags: random.octet(), tunnel_type, label_field };
    let room = if random.once_in(4) { random.below(70) } else { 5 + identifier.len() };
    harness.attribute_write(fields, &identifier, room)
}
