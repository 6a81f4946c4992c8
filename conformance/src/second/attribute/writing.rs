//! Writing the PMSI Tunnel attribute: LONG, TUNNEL, IDENT, LABEL, SPACE.

use crate::second::{fault::Fault, number::Number, Second};

/// The most octets of an attribute (document 01, "The numbers a call gives back").
const LONGEST: usize = 64;

impl Second {
    /// The encoding of the fields, if `room` octets of output hold it.
    pub fn attribute_write(
        &self,
        flags: u8,
        tunnel_type: u8,
        label_field: u32,
        identifier: &[u8],
        room: usize,
    ) -> Result<Vec<u8>, Number> {
        if identifier.len() > LONGEST - 5 {
            return Err(Number::Long);
        }
        let most = if self.has(Fault::LABEL_LIMIT_OFF) { 1 << 24 } else { (1 << 24) - 1 };
        if self.has(Fault::LABEL_BEFORE_IDENT) && label_field > most {
            return Err(Number::Label);
        }
        self.identified(tunnel_type, identifier)?;
        if label_field > most {
            return Err(Number::Label);
        }
        let [_, label @ ..] = label_field.to_be_bytes();
        let encoding = [&[flags, tunnel_type], &label[..], identifier].concat();
        self.fitted(encoding, LONGEST, room)
    }
}
