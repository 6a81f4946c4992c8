//! The second decoder's results in the shape of the C interface, so that answers compare field by field. A refusal has
//! empty fields, but for a walk's count and offset and a step's cursor.

use super::{
    attribute::reading::{Attribute, Fec},
    fault::Fault,
    nlri::{reading::Reading, rows::Field},
    number::Number,
    Second,
};
use crate::ffi;

/// Octets of an NLRI's header.
const HEADER: usize = 2;

/// Where an identifier starts, and a FEC's root in it (RFC 6514, section 5; RFC 6388, section 2.2).
const IDENTIFIER: usize = 5;
const ROOT: usize = IDENTIFIER + 4;

impl Second {
    pub fn answer_nlri_read(&self, afi: u16, octets: &[u8]) -> ffi::NlriReading {
        match self.single(afi, octets) {
            Ok(reading) => {
                let mut answer = nlri_reading(&reading);
                if answer.fec.size > 0 && self.has(Fault::FEC_SPAN_IN_BODY) {
                    answer.fec.start -= HEADER;
                }
                answer
            }
            Err(number) => {
                let mut refusal = ffi::NlriReading { number: number.value(), ..Default::default() };
                if let (Number::Group, true) = (number, self.has(Fault::DISCARD_KEEPS_FIELDS)) {
                    refusal.nlri = Second::with_fault(Fault::DISCARD_NEVER).answer_nlri_read(afi, octets).nlri;
                }
                if self.has(Fault::REFUSAL_KEEPS_TYPE) {
                    refusal.nlri.route_type = octets.first().copied().unwrap_or(0);
                }
                refusal
            }
        }
    }

    pub fn answer_step(&self, afi: u16, run: &[u8], cursor: usize) -> ffi::Stepped {
        match self.step(afi, run, cursor) {
            Ok(Some((reading, next))) => ffi::Stepped { cursor: next, number: 0, layout: layout(&reading) },
            Ok(None) => ffi::Stepped { cursor, ..Default::default() },
            Err(_) if self.has(Fault::REFUSED_STEP_REWINDS) => self.answer_step_rewound(afi, run, cursor),
            Err(number @ Number::Group) if self.has(Fault::DISCARD_STEP_MOVES) => {
                let cursor = cursor + 2 + usize::from(run[cursor + 1]);
                ffi::Stepped { cursor, number: number.value(), ..Default::default() }
            }
            Err(number) => ffi::Stepped { cursor, number: number.value(), ..Default::default() },
        }
    }

    /// The wrong answer of `RefusedStepRewinds`.
    fn answer_step_rewound(&self, afi: u16, run: &[u8], cursor: usize) -> ffi::Stepped {
        let number = self.step(afi, run, cursor).err().map_or(0, Number::value);
        ffi::Stepped { number, ..Default::default() }
    }

    pub fn answer_walk(&self, afi: u16, mode: u32, run: &[u8]) -> ffi::Walked {
        let walk = self.walk(afi, mode, run);
        let refused = walk.number != Number::Done;
        let (mut count, mut offset, mut skipped) = (walk.read().count(), walk.offset(), walk.skipped());
        if refused && self.has(Fault::WALK_COUNT_OFF_BY_ONE) {
            count += 1;
        }
        if refused && self.has(Fault::WALK_OFFSET_PAST_HEADER) {
            offset += 2;
        }
        if self.has(Fault::SKIP_COUNTED_AS_READ) {
            count += skipped;
        }
        if self.has(Fault::SKIP_OFFSET_STAYS) {
            let last = walk.read().last();
            offset = last.map_or(0, |(offset, reading)| offset + 2 + usize::from(reading.length));
        }
        if self.has(Fault::SKIPPED_ONCE) {
            skipped = skipped.min(1);
        }
        if refused && self.has(Fault::SKIPPED_UNTOLD_AT_STOP) {
            skipped = 0;
        }
        if walk.number == Number::Type && self.has(Fault::OLD_COUNTS_SKIPPED) {
            skipped += 1;
        }
        if walk.number == Number::Group && self.has(Fault::DISCARD_STOP_COUNTED) {
            skipped += 1;
        }
        if self.has(Fault::DISCARD_COUNTED_AS_READ) {
            count += walk.discarded(run);
        }
        if self.has(Fault::DISCARD_COUNTED_AS_READ) || self.has(Fault::DISCARD_UNCOUNTED) {
            skipped -= walk.discarded(run);
        }
        let [count, offset, skipped] = [count, offset, skipped].map(|figure| figure as u32);
        ffi::Walked { number: walk.number.value(), count, offset, skipped }
    }

    pub fn answer_group_class(&self, afi: u16, prefixes: &[u8], group: &[u8]) -> ffi::Group {
        match self.group_class(afi, prefixes, group) {
            Ok(class) => ffi::Group { number: 0, group_class: class as u32 },
            Err(number) => ffi::Group { number: number.value(), group_class: 0 },
        }
    }

    pub fn answer_attribute_read(&self, octets: &[u8]) -> ffi::AttributeReading {
        match self.attribute(octets) {
            Ok(attribute) => self.attribute_reading(&attribute),
            Err(number) => ffi::AttributeReading { number: number.value(), ..Default::default() },
        }
    }

    fn attribute_reading(&self, attribute: &Attribute) -> ffi::AttributeReading {
        let bit = if self.has(Fault::LIR_OTHER_BIT) { 0x80 } else { 0x01 };
        let shift = if self.has(Fault::LABEL_NOT_DIVIDED) { 0 } else { 4 };
        ffi::AttributeReading {
            number: 0,
            flags: u32::from(attribute.flags),
            tunnel_type: u32::from(attribute.tunnel_type),
            label_field: attribute.label_field,
            label: attribute.label_field >> shift,
            leaf_information_required: u32::from(attribute.flags & bit != 0),
            identifier: span(IDENTIFIER, attribute.identifier),
            fec: attribute.fec.as_ref().map(fec).unwrap_or_default(),
        }
    }
}

/// The number and size of a written encoding.
pub fn written(encoding: &Result<Vec<u8>, Number>) -> ffi::Written {
    match encoding {
        Ok(octets) => ffi::Written { number: 0, size: octets.len() },
        Err(number) => ffi::Written { number: number.value(), size: 0 },
    }
}

fn span(start: usize, octets: &[u8]) -> ffi::Span {
    ffi::Span { start, size: octets.len() }
}

fn fec(fec: &Fec) -> ffi::Fec {
    ffi::Fec {
        fec_type: u32::from(fec.fec_type),
        address_family: u32::from(fec.address_family),
        root: span(ROOT, fec.root),
        opaque: span(ROOT + fec.root.len() + 2, fec.opaque),
    }
}

fn address(octets: &[u8]) -> ffi::Address {
    let mut padded = [0; 16];
    padded[..octets.len()].copy_from_slice(octets);
    ffi::Address { octets: padded, size: octets.len() as u8 }
}

fn nlri_reading(reading: &Reading) -> ffi::NlriReading {
    let distinguisher = reading.octets(Field::Distinguisher).try_into().unwrap_or_default();
    let source_as = reading.octets(Field::SourceAs).try_into().unwrap_or_default();
    let key = reading.octets(Field::Key);
    let fec = reading.octets(Field::Fec);
    // What stands before a FEC in the body.
    let before: usize = [Field::Distinguisher, Field::SourceAs].map(|field| reading.octets(field).len()).iter().sum();
    ffi::NlriReading {
        number: 0,
        nlri: ffi::Nlri {
            distinguisher: ffi::RouteDistinguisher { octets: distinguisher },
            source: address(reading.octets(Field::Source)),
            group: address(reading.octets(Field::Group)),
            originator: address(reading.octets(Field::Originator)),
            source_as: u32::from_be_bytes(source_as),
            route_type: reading.route_type,
        },
        // A key stands right behind the header.
        key: if key.is_empty() { ffi::Span::default() } else { span(HEADER, key) },
        fec: if fec.is_empty() { ffi::Span::default() } else { span(HEADER + before, fec) },
    }
}

fn layout(reading: &Reading) -> ffi::Layout {
    ffi::Layout {
        route_type: usize::from(reading.route_type),
        length: usize::from(reading.length),
        source: reading.octets(Field::Source).len(),
        group: reading.octets(Field::Group).len(),
        originator: reading.octets(Field::Originator).len(),
        key: reading.octets(Field::Key).len(),
        fec: reading.octets(Field::Fec).len(),
    }
}
