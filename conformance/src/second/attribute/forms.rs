//! The form of each tunnel type's identifier (RFC 6514, section 5; RFC 8556, section 2; document 01, "PMSI Tunnel
//! attribute").

#[derive(Clone, Copy, Debug, PartialEq, Eq)]
pub enum Form {
    /// Any octets, of one of these sizes.
    Sizes(&'static [usize]),
    /// An mLDP FEC element of one of these types (RFC 6388, sections 2.2 and 3.2).
    Fec(&'static [u8]),
}

pub const PIM_SIZES: &[usize] = &[8, 32];
pub const BIER_SIZES: &[usize] = &[7, 19];

/// The tunnel type of BIER.
pub const BIER: u8 = 11;

const FORMS: [(u8, Form); 9] = [
    (0, Form::Sizes(&[0])),
    (1, Form::Sizes(&[12])),
    (2, Form::Fec(&[6])),
    (3, Form::Sizes(PIM_SIZES)),
    (4, Form::Sizes(PIM_SIZES)),
    (5, Form::Sizes(PIM_SIZES)),
    (6, Form::Sizes(&[4, 16])),
    (7, Form::Fec(&[7, 8])),
    (BIER, Form::Sizes(BIER_SIZES)),
];

pub fn form(tunnel_type: u8) -> Option<Form> {
    FORMS.iter().find(|(known, _)| *known == tunnel_type).map(|(_, form)| *form)
}
