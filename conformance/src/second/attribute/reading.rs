//! Reading the PMSI Tunnel attribute: LONG, SHORT, TUNNEL, IDENT.

use super::forms::{form, Form, BIER_SIZES, PIM_SIZES};
use crate::second::{
    fault::Fault,
    nlri::{fec::Outermost, rows::Family},
    number::Number,
    Second,
};

/// An mLDP FEC element (RFC 6388, section 2.2).
#[derive(Clone, Debug, PartialEq, Eq)]
pub struct Fec<'a> {
    pub fec_type: u8,
    pub address_family: u16,
    pub root: &'a [u8],
    pub opaque: &'a [u8],
}

#[derive(Clone, Debug, PartialEq, Eq)]
pub struct Attribute<'a> {
    pub flags: u8,
    pub tunnel_type: u8,
    pub label_field: u32,
    pub identifier: &'a [u8],
    pub fec: Option<Fec<'a>>,
}

impl Second {
    pub fn attribute<'a>(&self, octets: &'a [u8]) -> Result<Attribute<'a>, Number> {
        let most = if self.has(Fault::ATTRIBUTE_LIMIT_65) { 65 } else { 64 };
        if octets.len() > most {
            return Err(Number::Long);
        }
        let [flags, tunnel_type, high, middle, low, identifier @ ..] = octets else {
            return Err(Number::Short);
        };
        let fec = self.identified(*tunnel_type, identifier)?;
        let label_field = u32::from_be_bytes([0, *high, *middle, *low]);
        Ok(Attribute { flags: *flags, tunnel_type: *tunnel_type, label_field, identifier, fec })
    }

    /// Judges an identifier by its tunnel type's form: TUNNEL, IDENT. Gives the FEC of an mLDP tunnel.
    pub(super) fn identified<'a>(&self, tunnel_type: u8, identifier: &'a [u8]) -> Result<Option<Fec<'a>>, Number> {
        let size = identifier.len();
        match form(tunnel_type) {
            None if self.has(Fault::TUNNELS_UP_TO_11) && tunnel_type < 11 => Ok(None),
            None => Err(Number::Tunnel),
            Some(Form::Sizes(PIM_SIZES)) if self.has(Fault::PIM_MIXED_20) && size == 20 => Ok(None),
            Some(Form::Sizes(BIER_SIZES)) if self.has(Fault::BIER_SEVEN_ONLY) && size != 7 => Err(Number::Ident),
            Some(Form::Sizes(sizes)) if sizes.contains(&size) => Ok(None),
            Some(Form::Sizes(_)) => Err(Number::Ident),
            Some(Form::Fec(types)) => self.fec(types, identifier).map(Some).ok_or(Number::Ident),
        }
    }

    /// The FEC that fills the identifier. Every length is judged where it stands, before its content.
    fn fec<'a>(&self, types: &[u8], identifier: &'a [u8]) -> Option<Fec<'a>> {
        let [fec_type, 0, family, address_length, rest @ ..] = identifier else {
            return None;
        };
        let highest = if self.has(Fault::FEC_TYPE_8_REFUSED) { 7 } else { u8::MAX };
        let suits = match (family, address_length) {
            (1, 4) | (2, 16) => true,
            (1, 16) | (2, 4) => self.has(Fault::FEC_ADDRESS_FREE_OF_FAMILY),
            _ => false,
        };
        if !types.contains(fec_type) || *fec_type > highest || !suits {
            return None;
        }
        let (root, rest) = rest.split_at_checked(usize::from(*address_length))?;
        let [high, low, opaque @ ..] = rest else { return None };
        let length = usize::from(u16::from_be_bytes([*high, *low]));
        let ends = length == opaque.len() || self.has(Fault::OPAQUE_NOT_TO_THE_END) && length < opaque.len();
        let empty_refused = length == 0 && self.has(Fault::OPAQUE_EMPTY_REFUSED);
        let family_of = if *family == 1 { Family::Ipv4 } else { Family::Ipv6 };
        let read = self.has(Fault::ATTRIBUTE_OPAQUE_READ);
        let inside_bad = read && self.nest(family_of, Outermost::Alone, identifier).is_err();
        (ends && !empty_refused && !inside_bad).then_some(Fec {
            fec_type: *fec_type,
            address_family: u16::from(*family),
            root,
            opaque,
        })
    }
}
