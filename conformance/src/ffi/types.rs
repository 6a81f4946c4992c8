//! The structs of `mvpn.h`.

use crate::hexadecimal::encode;
use std::{
    fmt::{self, Debug, Formatter},
    mem::size_of,
};

#[repr(C)]
#[derive(Clone, Copy, Debug, Default, PartialEq, Eq)]
pub struct Span {
    pub start: usize,
    pub size: usize,
}

#[repr(C)]
#[derive(Clone, Copy, Default, PartialEq, Eq)]
pub struct RouteDistinguisher {
    pub octets: [u8; 8],
}

#[repr(C)]
#[derive(Clone, Copy, Default, PartialEq, Eq)]
pub struct Address {
    pub octets: [u8; 16],
    pub size: u8,
}

// Octets are shown in hexadecimal, all sixteen of an address: those past its size count too.
impl Debug for RouteDistinguisher {
    fn fmt(&self, formatter: &mut Formatter) -> fmt::Result {
        formatter.write_str(&encode(&self.octets))
    }
}

impl Debug for Address {
    fn fmt(&self, formatter: &mut Formatter) -> fmt::Result {
        write!(formatter, "{} of size {}", encode(&self.octets), self.size)
    }
}

#[repr(C)]
#[derive(Clone, Copy, Debug, Default, PartialEq, Eq)]
pub struct Nlri {
    pub distinguisher: RouteDistinguisher,
    pub source: Address,
    pub group: Address,
    pub originator: Address,
    pub source_as: u32,
    pub route_type: u8,
}

#[repr(C)]
#[derive(Clone, Copy, Debug, Default, PartialEq, Eq)]
pub struct NlriReading {
    pub number: u32,
    pub nlri: Nlri,
    pub key: Span,
    pub fec: Span,
}

#[repr(C)]
#[derive(Clone, Copy, Debug, Default, PartialEq, Eq)]
pub struct Written {
    pub number: u32,
    pub size: usize,
}

#[repr(C)]
#[derive(Clone, Copy, Debug, Default, PartialEq, Eq)]
pub struct Layout {
    pub route_type: usize,
    pub length: usize,
    pub source: usize,
    pub group: usize,
    pub originator: usize,
    pub key: usize,
    pub fec: usize,
}

#[repr(C)]
#[derive(Clone, Copy, Debug, Default, PartialEq, Eq)]
pub struct Stepped {
    pub number: u32,
    pub cursor: usize,
    pub layout: Layout,
}

#[repr(C)]
#[derive(Clone, Copy, Debug, Default, PartialEq, Eq)]
pub struct Walked {
    pub number: u32,
    pub count: u32,
    pub offset: u32,
    pub skipped: u32,
}

/// Octets that a reader of pieces is lent: the longest NLRI.
pub const UNFINISHED: usize = 257;

/// A reader of a run that arrives in pieces.
#[repr(C)]
#[derive(Clone, Copy, Debug, Default, PartialEq, Eq)]
pub struct Pieces {
    /// After finish the walk's answer.
    pub walked: Walked,
    // What the reader keeps, as it likes.
    pub afi: u32,
    pub mode: u32,
    pub stage: u32,
    pub total: u32,
    pub kept: u32,
}

#[repr(C)]
#[derive(Clone, Copy, Debug, Default, PartialEq, Eq)]
pub struct Fed {
    pub pieces: Pieces,
    /// Octets taken of the piece.
    pub taken: usize,
    /// Octets of the NLRI that is whole at the front of the lent ones; 0 where there is none.
    pub size: usize,
}

#[repr(C)]
#[derive(Clone, Copy, Debug, Default, PartialEq, Eq)]
pub struct Group {
    pub number: u32,
    pub group_class: u32,
}

#[repr(C)]
#[derive(Clone, Copy, Debug, Default, PartialEq, Eq)]
pub struct Fec {
    pub fec_type: u32,
    pub address_family: u32,
    pub root: Span,
    pub opaque: Span,
}

#[repr(C)]
#[derive(Clone, Copy, Debug, Default, PartialEq, Eq)]
pub struct AttributeReading {
    pub number: u32,
    pub flags: u32,
    pub tunnel_type: u32,
    pub label_field: u32,
    pub label: u32,
    pub leaf_information_required: u32,
    pub identifier: Span,
    pub fec: Fec,
}

#[repr(C)]
#[derive(Clone, Copy, Debug, Default, PartialEq, Eq)]
pub struct Installed {
    pub number: u32,
    /// 1 new, 2 replaced, 0 where the install is refused.
    pub outcome: u32,
}

/// What mark and sweep answer.
#[repr(C)]
#[derive(Clone, Copy, Debug, Default, PartialEq, Eq)]
pub struct Restarted {
    pub number: u32,
    /// How many routes went.
    pub gone: u32,
}

#[repr(C)]
#[derive(Clone, Copy, Debug, Default, PartialEq, Eq)]
pub struct Matched {
    pub number: u32,
    pub tier: u32,
    pub nlri_size: u32,
    pub attribute_size: u32,
}

#[repr(C)]
#[derive(Clone, Copy, Debug, Default, PartialEq, Eq)]
pub struct Explained {
    pub matched: Matched,
    /// Of tiers 1 to 4 in turn; 0 on a refusal.
    pub reasons: [u32; 4],
}

#[repr(C)]
#[derive(Clone, Copy, Debug, Default, PartialEq, Eq)]
pub struct Following {
    pub number: u32,
    /// Both 0 where no route comes next.
    pub nlri_size: u32,
    pub attribute_size: u32,
    /// 1 where the route is marked.
    pub stale: u32,
}

#[repr(C)]
#[derive(Clone, Copy, Debug, Default, PartialEq, Eq)]
pub struct TableInfo {
    pub number: u32,
    pub afi: u32,
    pub places: u32,
    pub routes: u32,
}

/// What a judge of proposed routes answers.
#[repr(C)]
#[derive(Clone, Copy, Debug, Default, PartialEq, Eq)]
pub struct Judged {
    pub number: u32,
    /// 1 or 0.
    pub accepted: u32,
}

/// What a planner answers.
#[repr(C)]
#[derive(Clone, Copy, Debug, Default, PartialEq, Eq)]
pub struct Planned {
    pub number: u32,
    /// How many are proposed.
    pub routes: u32,
}

/// What a salvage answers.
#[repr(C)]
#[derive(Clone, Copy, Debug, Default, PartialEq, Eq)]
pub struct Salvaged {
    pub number: u32,
    /// Routes of the table written.
    pub kept: u32,
    /// Places that the list tells.
    pub dropped: u32,
}

/// What is answered with a bit string.
#[repr(C)]
#[derive(Clone, Copy, Debug, Default, PartialEq, Eq)]
pub struct Egress {
    pub number: u32,
    /// Egress routers in the string.
    pub routers: u32,
}

/// What the daemon knows of a shared tree and the PE asked; each is 0 or not.
#[repr(C)]
#[derive(Clone, Copy, Debug, Default, PartialEq, Eq)]
pub struct SharedTree {
    pub upstream: u32,
    pub bidirectional: u32,
    pub source_active_unused: u32,
}

// The sizes that a C compiler gives these structs where size_t has eight octets.
#[cfg(target_pointer_width = "64")]
const _: () = assert!(
    size_of::<Address>() == 17
        && size_of::<Nlri>() == 68
        && size_of::<NlriReading>() == 104
        && size_of::<Stepped>() == 72
        && size_of::<Walked>() == 16
        && size_of::<Pieces>() == 36
        && size_of::<Fed>() == 56
        && size_of::<AttributeReading>() == 80
        && size_of::<Installed>() == 8
        && size_of::<Matched>() == 16
        && size_of::<Explained>() == 32
        && size_of::<Restarted>() == 8
        && size_of::<Following>() == 16
        && size_of::<TableInfo>() == 16
        && size_of::<Judged>() == 8
        && size_of::<Planned>() == 8
        && size_of::<Salvaged>() == 12
        && size_of::<Egress>() == 8
        && size_of::<SharedTree>() == 12
);
