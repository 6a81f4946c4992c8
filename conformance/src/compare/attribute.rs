//! `mvpn_attribute_read` and `mvpn_attribute_write`.

use super::{Checked, Disagreement, Harness, Input};
use crate::{
    coverage::{Call, Seen},
    ffi::{self, AttributeReading},
    hexadecimal::encode,
};

/// The arguments of a writing call, but for the identifier and the output.
#[derive(Clone, Copy, Debug)]
pub struct AttributeFields {
    pub flags: u8,
    pub tunnel_type: u8,
    pub label_field: u32,
}

impl Harness {
    pub fn attribute_read<'a>(&mut self, attribute: impl Into<Input<'a>>) -> Result<AttributeReading, Disagreement> {
        let attribute = attribute.into();
        self.inputs += 1;
        self.lend(attribute);
        let archive = ffi::attribute_read(&mut self.input);
        let second = self.second.answer_attribute_read(attribute.octets);
        self.agree(|| format!("mvpn_attribute_read({})", encode(attribute.octets)), &archive, &second)?;
        self.coverage.count(Call::AttributeRead, Seen::Number(archive.number));
        if archive.number == 0 {
            self.coverage.count(Call::AttributeRead, Seen::Tunnel(archive.tunnel_type));
        }
        if archive.fec.fec_type != 0 {
            let seen = Seen::Fec(archive.tunnel_type, archive.fec.fec_type, archive.fec.address_family);
            self.coverage.count(Call::AttributeRead, seen);
        }
        Ok(archive)
    }

    pub fn attribute_write<'a>(
        &mut self,
        fields: AttributeFields,
        identifier: impl Into<Input<'a>>,
        room: usize,
    ) -> Checked {
        let identifier = identifier.into();
        let AttributeFields { flags, tunnel_type, label_field } = fields;
        self.lend(identifier);
        self.lend_output(room);
        let archive = ffi::attribute_write(flags, tunnel_type, label_field, &mut self.input, &mut self.output);
        let encoding = self.second.attribute_write(flags, tunnel_type, label_field, identifier.octets, room);
        let octets = identifier.octets;
        let shown = || format!("mvpn_attribute_write({fields:?}, identifier {}, output of {room})", encode(octets));
        self.agree_on_writing(Call::AttributeWrite, shown, &archive, &encoding)?;
        if archive.number == 0 {
            self.coverage.count(Call::AttributeWrite, Seen::Tunnel(tunnel_type.into()));
        }
        Ok(())
    }

    /// What the archive reads, the archive writes back to the same octets. Gives whether it was read.
    pub fn attribute_round_trip(&mut self, octets: &[u8]) -> Result<bool, Disagreement> {
        let reading = self.attribute_read(octets)?;
        if reading.number != 0 {
            return Ok(false);
        }
        let fields = AttributeFields {
            flags: reading.flags as u8,
            tunnel_type: reading.tunnel_type as u8,
            label_field: reading.label_field,
        };
        let identifier = octets[reading.identifier.start..][..reading.identifier.size].to_vec();
        self.attribute_write(fields, &identifier, octets.len())?;
        self.agree_on_writing_back(format_args!("attribute"), octets)?;
        Ok(true)
    }
}
