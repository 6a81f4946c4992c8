//! The class of a customer group (RFC 4607, section 1; document 01, "Which route a flow takes"; document 02, W-209).

use super::prefixes::Prefix;
use crate::second::{fault::Fault, nlri::rows::Family, number::Number, Second};

#[derive(Clone, Copy, Debug, PartialEq, Eq)]
pub enum Class {
    Asm = 1,
    Ssm = 2,
}

impl Second {
    /// FAMILY; RANGE, SHORT and RANGE of the prefixes; FLOW.
    pub fn group_class(&self, afi: u16, prefixes: &[u8], group: &[u8]) -> Result<Class, Number> {
        let family = self.family(afi);
        if self.has(Fault::PREFIXES_BEFORE_FAMILY) {
            self.prefixes(family.unwrap_or(Family::Ipv4), prefixes, group)?;
        }
        let family = family?;
        if self.has(Fault::PREFIXES_AFTER_GROUP) {
            self.standard_class(family, group)?;
        }
        self.class_among(&self.prefixes(family, prefixes, group)?, family, group)
    }

    /// The class by these prefixes, which stand in the place of the standard range where there are any. FLOW.
    pub(in crate::second) fn class_among(
        &self,
        prefixes: &[Prefix],
        family: Family,
        group: &[u8],
    ) -> Result<Class, Number> {
        let sized = group.len() == family.octets();
        match self.standard_class(family, group) {
            Ok(class) if self.is_specific(prefixes, group, class == Class::Ssm) => Ok(Class::Ssm),
            Ok(_) => Ok(Class::Asm),
            Err(_) if self.has(Fault::PREFIXES_MAKE_MULTICAST) && sized && self.is_specific(prefixes, group, false) => {
                Ok(Class::Ssm)
            }
            Err(number) => Err(number),
        }
    }

    /// The class by the standard range. FLOW for a group of another size or outside 224.0.0.0/4 and FF00::/8.
    pub(in crate::second) fn standard_class(&self, family: Family, group: &[u8]) -> Result<Class, Number> {
        match (family, group) {
            (Family::Ipv4, [232, _, _, _]) => Ok(Class::Ssm),
            (Family::Ipv4, [233, _, _, _]) if self.has(Fault::SSM_233) => Ok(Class::Ssm),
            (Family::Ipv4, [224..=239, _, _, _]) => Ok(Class::Asm),
            (Family::Ipv6, _) if group.len() != 16 => Err(Number::Flow),
            (Family::Ipv6, [0xFF, 0x30, 0, 0, ..]) if self.has(Fault::SSM_FLAGS_ZERO_REFUSED) => Ok(Class::Asm),
            (Family::Ipv6, [0xFF, 0x30..=0x3F, 0, 0, ..]) => Ok(Class::Ssm),
            (Family::Ipv6, [0xFF, 0x30..=0x3F, ..]) if self.has(Fault::SSM_IPV6_AS_16) => Ok(Class::Ssm),
            (Family::Ipv6, [0xFF, ..]) => Ok(Class::Asm),
            _ => Err(Number::Flow),
        }
    }
}
