//! A route table as a map of attributes by NLRI and the set of NLRIs that are marked stale, and its one image in octets
//! (document 01, "The table memory"; document 02, W-208).

use crate::second::{
    attribute::{forms::BIER, reading::Attribute},
    fault::Fault,
    nlri::{
        reading::Reading,
        rows::{MLDP_S_PMSI, S_PMSI},
    },
    number::Number,
    Second,
};
use std::collections::{BTreeMap, BTreeSet};

/// Octets of the header and of a place, and the most places.
pub const HEADER: usize = 8;
pub const PLACE: usize = 128;
pub const MOST_PLACES: usize = 500;

/// Installed S-PMSI A-D routes: the attribute of each NLRI. The map's order is that of the places.
pub type Routes = BTreeMap<Vec<u8>, Vec<u8>>;

/// The NLRIs of installed routes that are marked stale.
pub type Stale = BTreeSet<Vec<u8>>;

#[derive(Clone, Debug, PartialEq, Eq)]
pub struct Table {
    pub afi: u16,
    pub places: usize,
    pub routes: Routes,
    pub stale: Stale,
}

impl Table {
    pub fn new(afi: u16, places: usize) -> Self {
        Table::holding(afi, places, Routes::new())
    }

    /// A table that holds these routes, none of them marked.
    pub fn holding(afi: u16, places: usize, routes: Routes) -> Self {
        Table { afi, places, routes, stale: Stale::new() }
    }

    pub fn image(&self) -> Vec<u8> {
        let placed = self.routes.iter().map(|(nlri, attribute)| (nlri, attribute, self.stale.contains(nlri)));
        image(self.afi, size(self.places), placed)
    }
}

/// The octets of memory for so many places.
pub fn size(places: usize) -> usize {
    HEADER + PLACE * places
}

/// A route's NLRI and attribute.
pub type Route<'a> = (&'a Vec<u8>, &'a Vec<u8>);

/// A route's NLRI and attribute, and whether it is marked stale.
pub type Placed<'a> = (&'a Vec<u8>, &'a Vec<u8>, bool);

/// The octets of a table that holds these routes.
pub fn image<'a>(afi: u16, size: usize, routes: impl Iterator<Item = Placed<'a>>) -> Vec<u8> {
    let taken: Vec<Vec<u8>> = routes.map(place).collect();
    let [_, family] = afi.to_be_bytes();
    let [high, low] = (taken.len() as u16).to_be_bytes();
    let mut image = vec![b'M', b'V', b'T', 0, 1, family, high, low];
    image.extend(taken.concat());
    image.resize(size, 0);
    image
}

/// A taken place: both sizes, the NLRI, the attribute, zeros, and the mark in the last octet.
fn place((nlri, attribute, stale): Placed) -> Vec<u8> {
    let mut place = [&[nlri.len() as u8, attribute.len() as u8], &nlri[..], attribute].concat();
    place.resize(PLACE - 1, 0);
    place.push(stale.into());
    place
}

impl Second {
    /// The number of places in memory of a table's size.
    pub(in crate::second) fn places(&self, size: usize) -> Option<usize> {
        let most = if self.has(Fault::PLACES_LIMIT_OFF) { MOST_PLACES + 1 } else { MOST_PLACES };
        let rest = size.checked_sub(HEADER)?;
        let whole = rest % PLACE == 0 || self.has(Fault::PART_PLACE_ALLOWED);
        (whole && rest / PLACE <= most).then_some(rest / PLACE)
    }

    /// The table that the memory is the image of: TABLE where there is none.
    pub fn table(&self, memory: &[u8]) -> Result<Table, Number> {
        self.decoded(memory).ok_or(Number::Table)
    }

    /// The table of one place that has this one, taken; none where the place is bad.
    pub(in crate::second) fn only_place(&self, afi: u16, place: &[u8]) -> Option<Table> {
        let [_, family] = afi.to_be_bytes();
        self.decoded(&[&[b'M', b'V', b'T', 0, 1, family, 0, 1], place].concat())
    }

    fn decoded(&self, memory: &[u8]) -> Option<Table> {
        let places = self.places(memory.len())?;
        let (afi, count) = self.header(memory)?;
        let count = match self.has(Fault::COUNT_UNCHECKED) {
            true => count.min(places),
            false => (count <= places).then_some(count)?,
        };
        let taken = memory[HEADER..].chunks(PLACE).take(count);
        let listed = taken.map(|place| self.route(afi, place)).collect::<Option<Vec<_>>>()?;
        let increasing = listed.windows(2).all(|pair| match self.has(Fault::INCREASING_NOT_STRICT) {
            true => pair[0].0 <= pair[1].0,
            false => pair[0].0 < pair[1].0,
        });
        let ordered = increasing || self.has(Fault::ORDER_UNCHECKED);
        let placed = listed.iter().map(|(nlri, attribute, stale)| (nlri, attribute, *stale));
        let same = self.same_octets(memory, &image(afi, memory.len(), placed), count);
        let stale = listed.iter().filter(|(_, _, stale)| *stale).map(|(nlri, _, _)| nlri.clone()).collect();
        let routes = listed.into_iter().map(|(nlri, attribute, _)| (nlri, attribute)).collect();
        (ordered && same).then_some(Table { afi, places, routes, stale })
    }

    /// AFI and count of a good header.
    fn header(&self, memory: &[u8]) -> Option<(u16, usize)> {
        let [name @ .., version_high, version_low, afi, high, low] = memory.get(..HEADER)? else { return None };
        let version = [*version_high, *version_low] == [0, 1] || self.has(Fault::VERSION_UNCHECKED);
        let family = self.family(u16::from(*afi)).is_ok();
        (name == b"MVT" && version && family).then(|| (u16::from(*afi), usize::from(u16::from_be_bytes([*high, *low]))))
    }

    /// The route of a taken place, and whether it is marked; none where install would not accept it.
    fn route(&self, afi: u16, place: &[u8]) -> Option<(Vec<u8>, Vec<u8>, bool)> {
        let [nlri_size, attribute_size, rest @ ..] = place else { return None };
        let mark = rest.last().copied().unwrap_or(0);
        let (nlri, rest) = rest.split_at_checked(usize::from(*nlri_size))?;
        let (attribute, _) = rest.split_at_checked(usize::from(*attribute_size))?;
        let reading = self.single(afi, nlri).ok()?;
        let kind = reading.route_type == S_PMSI || self.has(Fault::PLACE_KIND_UNCHECKED);
        let tunnel = self.attribute(attribute).ok();
        let label = tunnel.is_some_and(|tunnel| self.labelled(&tunnel) || self.has(Fault::PLACE_LABEL_UNCHECKED));
        let unnamed = self.has(Fault::NO_TUNNEL_UNSOUND) && !self.names_tunnel(attribute);
        let accepted = kind && (label || self.has(Fault::PLACE_ATTRIBUTE_UNCHECKED)) && !unnamed;
        accepted.then(|| (nlri.to_vec(), attribute.to_vec(), self.is_mark(mark)))
    }

    /// Whether the memory behind the header is that of the image: with it every octet that must be zero.
    fn same_octets(&self, memory: &[u8], image: &[u8], count: usize) -> bool {
        let end = if self.has(Fault::REST_UNCHECKED) { size(count) } else { memory.len() };
        let (memory, image) = (&memory[HEADER..end], &image[HEADER..]);
        match self.has(Fault::PADDING_UNCHECKED) {
            true => memory.chunks(PLACE).skip(count).flatten().all(|octet| *octet == 0),
            false => memory == &image[..memory.len()] || self.same_but_for_marks(memory, image, count),
        }
    }

    /// Whether the last octet of a taken place says that its route is stale. With any other value than 0 and 1 the place does
    /// not come out the same when it is laid out again.
    fn is_mark(&self, octet: u8) -> bool {
        match octet {
            1 => !self.has(Fault::MARK_UNSOUND),
            2 => self.has(Fault::MARK_2_SOUND) || self.has(Fault::MARK_ANY_SOUND),
            other => other != 0 && self.has(Fault::MARK_ANY_SOUND),
        }
    }

    /// The wrong answers of faults about the octets that hold a mark, or might.
    fn same_but_for_marks(&self, memory: &[u8], image: &[u8], count: usize) -> bool {
        let overlooked = |at: usize| match (at / PLACE < count, at % PLACE) {
            (true, 127) => self.is_mark(memory[at]) && image[at] == 1,
            (false, 127) => self.has(Fault::MARK_IN_FREE_PLACE) && memory[at] == 1,
            (true, 126) => self.has(Fault::MARK_OF_TWO_OCTETS),
            _ => false,
        };
        (0..memory.len()).all(|at| memory[at] == image[at] || overlooked(at))
    }

    /// NLRI reading with no octets after it, then KIND.
    pub(in crate::second) fn s_pmsi<'a>(&self, afi: u16, nlri: &'a [u8]) -> Result<Reading<'a>, Number> {
        let reading = self.single(afi, nlri).map_err(|number| match number {
            Number::Group if self.has(Fault::DISCARD_AFTER_KIND) => Number::Kind,
            number => number,
        })?;
        match reading.route_type {
            S_PMSI => Ok(reading),
            MLDP_S_PMSI if self.has(Fault::TABLE_TAKES_MLDP) => Ok(reading),
            _ => Err(Number::Kind),
        }
    }

    /// Whether the label suits the tunnel: BIER may not have label 0 (document 01, LABEL).
    fn labelled(&self, attribute: &Attribute) -> bool {
        let shift = if self.has(Fault::FIELD_TESTED_FOR_LABEL) { 0 } else { 4 };
        attribute.tunnel_type != BIER || attribute.label_field >> shift != 0
    }

    /// What install refuses for its arguments and the family alone: NLRI reading, KIND, attribute reading, LABEL.
    pub(in crate::second) fn accepted(&self, afi: u16, nlri: &[u8], attribute: &[u8]) -> Result<(), Number> {
        let discarded = || self.single(afi, nlri) == Err(Number::Group);
        if self.has(Fault::ATTRIBUTE_BEFORE_NLRI) || self.has(Fault::DISCARD_AFTER_ATTRIBUTE) && discarded() {
            self.attribute(attribute)?;
        }
        let reading = match self.has(Fault::KIND_AFTER_ATTRIBUTE) {
            true => self.single(afi, nlri)?,
            false => self.s_pmsi(afi, nlri)?,
        };
        let tunnel = self.attribute(attribute)?;
        if reading.route_type != S_PMSI {
            return Err(Number::Kind);
        }
        if self.has(Fault::NO_TUNNEL_REFUSED) && tunnel.tunnel_type == 0 {
            return Err(Number::Tunnel);
        }
        match self.labelled(&tunnel) {
            true => Ok(()),
            false => Err(Number::Label),
        }
    }
}
