//! Writing one NLRI: FAMILY, TYPE, WIDTH, IDENT and DEEP, LONG, KEY, GROUP, SPACE.

use super::{
    fec::Outermost,
    rows::{Family, Field, MLDP_LEAF, MLDP_SOURCE_TREE_JOIN, S_PMSI},
};
use crate::{
    ffi::{Address, Nlri},
    second::{fault::Fault, number::Number, Second},
};

/// The longest NLRI: one with an mLDP FEC element that leaves no room in its body.
const LONGEST: usize = 257;

/// The most octets of a body.
const LONGEST_BODY: usize = 255;

impl Second {
    /// The encoding of the fields, if `room` octets of output hold it. A key and a FEC element are lent beside them.
    pub fn nlri_write(&self, afi: u16, nlri: &Nlri, key: &[u8], fec: &[u8], room: usize) -> Result<Vec<u8>, Number> {
        let family = self.family(afi)?;
        let fields = self.row(nlri.route_type).ok_or(Number::Type)?;
        let bad_key = fields.contains(&Field::Key) && !self.is_key(family, nlri.route_type, key);
        if bad_key && self.has(Fault::KEY_BEFORE_WIDTH) {
            return Err(Number::Key);
        }
        let bad_fec = self.fec_refusal(family, fields, fec);
        if self.has(Fault::FEC_BEFORE_WIDTH) {
            bad_fec?;
        }
        if self.has(Fault::LACKING_FIELDS_JUDGED) && lacking_fields_bad(nlri) {
            return Err(Number::Width);
        }
        let unwritten = self.is_unwritten(family, nlri);
        if unwritten && self.has(Fault::DISCARD_BEFORE_WRITTEN_WIDTH) {
            return Err(Number::Group);
        }
        if !fields.iter().all(|field| self.width_allowed(family, *field, nlri)) {
            return Err(Number::Width);
        }
        let body: Vec<u8> = fields.iter().flat_map(|field| self.field_octets(*field, nlri, key, fec)).collect();
        if self.has(Fault::LONG_BEFORE_FEC) {
            self.long_refusal(nlri.route_type, body.len())?;
        }
        bad_fec?;
        if bad_key && self.has(Fault::KEY_BEFORE_LONG) {
            return Err(Number::Key);
        }
        self.long_refusal(nlri.route_type, body.len())?;
        if bad_key {
            return Err(Number::Key);
        }
        if unwritten && !self.has(Fault::DISCARD_AFTER_SPACE) {
            return Err(Number::Group);
        }
        let encoding = [&[nlri.route_type, body.len() as u8], &body[..]].concat();
        let encoding = self.fitted(encoding, LONGEST, room)?;
        match unwritten {
            true => Err(Number::Group),
            false => Ok(encoding),
        }
    }

    /// IDENT or DEEP for octets that are not exactly one FEC element of the family.
    fn fec_refusal(&self, family: Family, fields: &[Field], fec: &[u8]) -> Result<(), Number> {
        let judged = fields.contains(&Field::Fec) || self.has(Fault::FEC_ALWAYS_JUDGED);
        match self.nest(family, Outermost::Alone, fec) {
            Err(number) if judged => match self.has(Fault::WRITTEN_DEEP_UNJUDGED) && number == Number::Deep {
                true => Ok(()),
                false => Err(number),
            },
            _ => Ok(()),
        }
    }

    /// LONG where a body of a route type of mLDP customers has more octets than its Length field can say; of the others a key decides.
    fn long_refusal(&self, route_type: u8, size: usize) -> Result<(), Number> {
        let most = match LONGEST_BODY {
            _ if self.has(Fault::LONG_BODY_254) => 254,
            _ if self.has(Fault::LONG_BODY_256) => 256,
            _ if self.has(Fault::LONG_UNJUDGED) => usize::MAX,
            most => most,
        };
        let leaf_judged = route_type != MLDP_LEAF || !self.has(Fault::LONG_OF_FEC_ONLY);
        let judged = (0x43..=MLDP_SOURCE_TREE_JOIN).contains(&route_type) && leaf_judged;
        match (judged || self.has(Fault::LONG_OF_OLD_TYPES)) && size > most {
            true => Err(Number::Long),
            false => Ok(()),
        }
    }

    /// Whether the size of an address suits its place; other fields have no size of their own.
    fn width_allowed(&self, family: Family, field: Field, nlri: &Nlri) -> bool {
        let customer = |address: &Address| {
            let size = usize::from(address.size);
            size == family.octets() || size == 0 && nlri.route_type == S_PMSI
        };
        match field {
            Field::Source => customer(&nlri.source),
            Field::Group => customer(&nlri.group),
            Field::Originator => matches!(nlri.originator.size, 4 | 16),
            Field::Distinguisher | Field::SourceAs | Field::Key | Field::Fec => true,
        }
    }

    fn field_octets(&self, field: Field, nlri: &Nlri, key: &[u8], fec: &[u8]) -> Vec<u8> {
        match field {
            Field::Distinguisher => nlri.distinguisher.octets.to_vec(),
            Field::SourceAs if self.has(Fault::SOURCE_AS_LITTLE_ENDIAN) => nlri.source_as.to_le_bytes().to_vec(),
            Field::SourceAs => nlri.source_as.to_be_bytes().to_vec(),
            Field::Source => customer_octets(&nlri.source),
            Field::Group => customer_octets(&nlri.group),
            Field::Originator => address_octets(&nlri.originator).to_vec(),
            Field::Key => key.to_vec(),
            Field::Fec => fec.to_vec(),
        }
    }
}

fn address_octets(address: &Address) -> &[u8] {
    &address.octets[..usize::from(address.size)]
}

/// A customer address with its length octet, in bits.
fn customer_octets(address: &Address) -> Vec<u8> {
    [&[address.size * 8], address_octets(address)].concat()
}

/// The wrong test of `LackingFieldsJudged`: every address, whatever the type.
fn lacking_fields_bad(nlri: &Nlri) -> bool {
    [nlri.source, nlri.group, nlri.originator].iter().any(|address| !matches!(address.size, 0 | 4 | 16))
}
