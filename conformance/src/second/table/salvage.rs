//! Salvage of a damaged table (document 02, W-212). Each place of the memory is judged by itself, as the only place of a table of the AFI
//! given. The places are then sets of numbers: those all zero, those that are good, by their NLRIs, and of each NLRI the lowest. What is
//! dropped, and the table, follow from these sets; the header of the memory is not among them.

use super::memory::{image, size, Placed, Table, HEADER, PLACE};
use crate::{
    ffi::Salvaged,
    hexadecimal::encode,
    second::{fault::Fault, number::Number, Moved, Second},
};
use std::{
    collections::{BTreeMap, BTreeSet},
    fmt::{self, Debug, Formatter},
};

/// The octets of the list for each place that is dropped.
pub const DROPPED_PLACE: usize = 3;

/// What becomes of a place.
#[derive(Clone, Copy, Debug, PartialEq, Eq, PartialOrd, Ord)]
pub enum Fate {
    Zero,
    Bad,
    Repeated,
    Kept,
}

impl Fate {
    pub const ALL: [Fate; 4] = [Fate::Zero, Fate::Bad, Fate::Repeated, Fate::Kept];
}

/// The reasons of the list.
pub const BAD: u8 = 1;
pub const REPEATED: u8 = 2;

/// What a salvage answers, and the second buffer and the list buffer afterwards.
#[derive(Clone, PartialEq, Eq)]
pub struct Salvage {
    pub answer: Salvaged,
    pub table: Vec<u8>,
    pub dropped: Vec<u8>,
}

impl Debug for Salvage {
    fn fmt(&self, formatter: &mut Formatter) -> fmt::Result {
        write!(formatter, "{:?}, table {}, dropped {}", self.answer, encode(&self.table), encode(&self.dropped))
    }
}

/// Places, by their numbers.
type Places<'a> = BTreeMap<usize, &'a [u8]>;
type Numbers = BTreeSet<usize>;

/// Good places: the table that each is when it stands alone.
type Good = BTreeMap<usize, Table>;

/// A salvage's arguments; of the two buffers that it writes what they hold beforehand.
#[derive(Clone, Copy)]
struct Lent<'a> {
    afi: u16,
    damaged: &'a [u8],
    table: &'a [u8],
    dropped: &'a [u8],
}

/// Of the rows of what is refused: FAMILY, TABLE, SPACE.
const MOVED: [Moved; 3] =
    [(Fault::SALVAGE_TABLE_FIRST, 1, 0), (Fault::SALVAGE_SPACE_FIRST, 2, 0), (Fault::SALVAGE_SPACE_BEFORE_TABLE, 2, 1)];

impl Second {
    /// `table` and `dropped` are what the second buffer and the list buffer hold beforehand. FAMILY, TABLE, SPACE.
    pub fn answer_salvage(&self, afi: u16, damaged: &[u8], table: &[u8], dropped: &[u8]) -> Salvage {
        let lent = Lent { afi, damaged, table, dropped };
        let Some(number) = self.salvage_refusal(lent) else { return self.salvage(lent) };
        let mut refused = Salvage {
            answer: Salvaged { number: number.value(), ..Default::default() },
            table: table.to_vec(),
            dropped: dropped.to_vec(),
        };
        let list_is_small = number == Number::Space && table.len() == damaged.len();
        if list_is_small && self.has(Fault::SALVAGE_REFUSAL_WRITES) {
            refused.table = self.salvage(lent).table;
        }
        if number == Number::Space && self.has(Fault::SALVAGE_REFUSAL_COUNTS) {
            refused.answer.kept = self.salvage(lent).answer.kept;
        }
        refused
    }

    /// The first row that is true.
    fn salvage_refusal(&self, lent: Lent) -> Option<Number> {
        let judge = self.judge_of_places();
        let rows = [
            (Number::Family, judge.family(lent.afi).is_err()),
            (Number::Table, judge.places(lent.damaged.len()).is_none() || self.refuses_memory(lent.damaged)),
            (Number::Space, !self.has_space(lent)),
        ];
        let (number, _) = self.ordered(rows, &MOVED).into_iter().find(|(_, holds)| *holds)?;
        let other_size = number == Number::Space && lent.table.len() != lent.damaged.len();
        match other_size && self.has(Fault::SALVAGE_SIZE_AS_TABLE) {
            true => Some(Number::Table),
            false => Some(number),
        }
    }

    /// The wrong refusals of memory that has a table's size.
    fn refuses_memory(&self, damaged: &[u8]) -> bool {
        let good_header = damaged.len() >= HEADER
            && damaged.starts_with(b"MVT\x00\x01")
            && matches!(damaged[5], 1 | 2)
            && count(damaged) <= damaged.len() / PLACE;
        self.has(Fault::SALVAGE_HEADER_JUDGED) && !good_header
            || self.has(Fault::SALVAGE_COUNT_JUDGED) && count(damaged) > damaged.len() / PLACE
            || self.has(Fault::SALVAGE_NO_PLACES_REFUSED) && damaged.len() == HEADER
    }

    /// A second buffer of the memory's size, and 3 octets a place for the list.
    fn has_space(&self, lent: Lent) -> bool {
        let Lent { damaged, table, dropped, .. } = lent;
        let places = damaged.len().saturating_sub(HEADER) / PLACE;
        let (told, kept) = match self.has(Fault::SALVAGE_ROOM_BY_DROPPED)
            || self.has(Fault::SALVAGE_SMALLER_TAKEN)
            || self.has(Fault::SALVAGE_ROOM_OF_TWO)
        {
            true => self.numbers_of(lent),
            false => (0, 0),
        };
        let room = match () {
            _ if self.has(Fault::SALVAGE_ROOM_BY_DROPPED) => DROPPED_PLACE * told,
            _ if self.has(Fault::SALVAGE_ROOM_BY_TAKEN) => {
                DROPPED_PLACE * places_of(damaged).values().filter(|place| !is_zero(place)).count()
            }
            _ if self.has(Fault::SALVAGE_ROOM_BY_COUNT) => DROPPED_PLACE * count(damaged),
            _ if self.has(Fault::SALVAGE_ROOM_OF_TWO) => (2 * places).max(DROPPED_PLACE * told),
            _ => DROPPED_PLACE * places,
        };
        let larger = self.has(Fault::SALVAGE_LARGER_TAKEN) && table.len() > damaged.len();
        let smaller = self.has(Fault::SALVAGE_SMALLER_TAKEN)
            && table.len() < damaged.len()
            && self.places(table.len()).is_some_and(|places| places >= kept);
        let exact = !self.has(Fault::SALVAGE_ROOM_EXACT) || dropped.len() <= room;
        (table.len() == damaged.len() || larger || smaller) && dropped.len() >= room && exact
    }

    /// How many places are dropped and kept.
    fn numbers_of(&self, Lent { afi, damaged, .. }: Lent) -> (usize, usize) {
        let places = places_of(damaged);
        let good = self.good(afi, damaged, &places);
        let kept = self.first_of_equal(&places, &good);
        (self.dropped(damaged, &places, &good, &kept).len(), kept.len())
    }

    /// A salvage that is not refused.
    fn salvage(&self, lent: Lent) -> Salvage {
        let Lent { afi, damaged, table, dropped } = lent;
        let places = self.looked_at(afi, places_of(damaged), count(damaged));
        let good = self.good(afi, damaged, &places);
        let kept = self.first_of_equal(&places, &good);
        let reasons = self.dropped(damaged, &places, &good, &kept);
        let list = self.listed(&reasons);
        let held = self.held(afi, damaged.len().saturating_sub(HEADER) / PLACE, &good, &kept);
        let mut after = self.laid_out(lent, &good, &kept, &held);
        after.truncate(table.len());
        after.extend(&table[after.len()..]);
        let rest = dropped.get(list.len()..).unwrap_or(&[]).iter();
        let rest = rest.map(|octet| if self.has(Fault::SALVAGE_LIST_CLEARED) { 0 } else { *octet });
        let mut list: Vec<u8> = list.iter().copied().chain(rest).collect();
        list.truncate(dropped.len());
        let [kept, dropped] = self.counts(damaged, held.routes.len(), &reasons);
        Salvage { answer: Salvaged { number: 0, kept, dropped }, table: after, dropped: list }
    }

    /// All places.
    fn looked_at<'a>(&self, afi: u16, mut places: Places<'a>, count: usize) -> Places<'a> {
        let end =
            |ends: &dyn Fn(&[u8]) -> bool| places.iter().find(|(_, place)| ends(place)).map(|(number, _)| *number);
        let end = match () {
            _ if self.has(Fault::SALVAGE_TO_COUNT) => Some(count),
            _ if self.has(Fault::SALVAGE_ZERO_ENDS) => end(&is_zero),
            _ if self.has(Fault::SALVAGE_BAD_ENDS) => {
                end(&|place| !is_zero(place) && self.alone(afi, place).is_none()).map(|bad| bad + 1)
            }
            _ if self.has(Fault::SALVAGE_LAST_PLACE_LOST) => places.len().checked_sub(1),
            _ => None,
        };
        if let Some(end) = end {
            places.retain(|number, _| *number < end);
        }
        places
    }

    /// The table that the place is when it stands alone in it, taken; none where the place is bad.
    fn alone(&self, afi: u16, place: &[u8]) -> Option<Table> {
        self.judge_of_places().only_place(afi, place)
    }

    /// The decoder that judges places, where its wrong behaviour is one that whole tables have too.
    fn judge_of_places(&self) -> Second {
        self.with_one_of(&[
            (Fault::SALVAGE_AFI_LOW_OCTET, Fault::AFI_LOW_OCTET),
            (Fault::SALVAGE_KIND_UNJUDGED, Fault::PLACE_KIND_UNCHECKED),
            (Fault::SALVAGE_ATTRIBUTE_UNJUDGED, Fault::PLACE_ATTRIBUTE_UNCHECKED),
            (Fault::SALVAGE_LABEL_UNJUDGED, Fault::PLACE_LABEL_UNCHECKED),
            (Fault::SALVAGE_NO_TUNNEL_BAD, Fault::NO_TUNNEL_UNSOUND),
            (Fault::SALVAGE_ZEROS_UNJUDGED, Fault::PADDING_UNCHECKED),
            (Fault::SALVAGE_BEFORE_MARK_UNJUDGED, Fault::MARK_OF_TWO_OCTETS),
            (Fault::SALVAGE_MARK_2_KEPT, Fault::MARK_2_SOUND),
            (Fault::SALVAGE_MARK_ANY_KEPT, Fault::MARK_ANY_SOUND),
            (Fault::SALVAGE_MARKED_BAD, Fault::MARK_UNSOUND),
            (Fault::SALVAGE_501_PLACES, Fault::PLACES_LIMIT_OFF),
            (Fault::SALVAGE_PART_PLACE, Fault::PART_PLACE_ALLOWED),
        ])
    }

    /// The places that are good under the AFI given.
    fn good(&self, afi: u16, damaged: &[u8], places: &Places) -> Good {
        let afi = match damaged.get(5) {
            Some(family @ (1 | 2)) if self.has(Fault::SALVAGE_AFI_OF_HEADER) => u16::from(*family),
            _ => afi,
        };
        let alone = |place: &[u8]| match self.has(Fault::SALVAGE_EITHER_FAMILY) {
            true => self.alone(afi, place).or_else(|| self.alone(3 - afi, place)),
            false => self.alone(afi, place),
        };
        let mut good: Good = places.iter().filter_map(|(number, place)| Some((*number, alone(place)?))).collect();
        if self.has(Fault::SALVAGE_OUT_OF_ORDER_BAD) {
            let before = good.clone();
            good.retain(|number, table| before.range(..number).all(|(_, earlier)| nlri(earlier) < nlri(table)));
        }
        if self.has(Fault::SALVAGE_PAST_COUNT_BAD) {
            good.retain(|number, _| *number < count(damaged));
        }
        good
    }

    /// Of each NLRI the lowest number.
    fn first_of_equal(&self, places: &Places, good: &Good) -> Numbers {
        let mut by_nlri: BTreeMap<&[u8], Numbers> = BTreeMap::new();
        for (number, table) in good {
            by_nlri.entry(nlri(table)).or_default().insert(*number);
        }
        if self.has(Fault::SALVAGE_EQUAL_TO_BAD) {
            for (number, place) in places.iter().filter(|(number, _)| !good.contains_key(number)) {
                by_nlri.entry(claimed(place)).or_default().insert(*number);
            }
        }
        let right_before = |number: usize| number.checked_sub(1).and_then(|before| good.get(&before)).map(nlri);
        let chosen = |(equal, numbers): (&&[u8], &Numbers)| -> Numbers {
            match () {
                _ if self.has(Fault::SALVAGE_LAST_OF_EQUAL) => numbers.last().copied().into_iter().collect(),
                _ if self.has(Fault::SALVAGE_NONE_OF_EQUAL) && numbers.len() > 1 => Numbers::new(),
                _ if self.has(Fault::SALVAGE_EQUAL_NEIGHBOURS) => {
                    numbers.iter().copied().filter(|number| right_before(*number) != Some(equal)).collect()
                }
                _ => numbers.first().copied().filter(|first| good.contains_key(first)).into_iter().collect(),
            }
        };
        by_nlri.iter().flat_map(chosen).collect()
    }

    /// The reason of each place that is dropped, in the order of the places.
    fn dropped(&self, damaged: &[u8], places: &Places, good: &Good, kept: &Numbers) -> BTreeMap<usize, u8> {
        let all: Numbers = places.keys().copied().collect();
        let zero = places.iter().filter(|(_, place)| self.counts_as_zero(place)).map(|(number, _)| *number).collect();
        let good_numbers: Numbers = good.keys().copied().collect();
        let bad = &(&all - &zero) - &good_numbers;
        let repeated = &good_numbers - kept;
        let of_kept = |number: &usize| {
            let claimed = claimed(places[number]);
            kept.range(..*number).any(|earlier| nlri(&good[earlier]) == claimed)
        };
        let reason_of_bad = |number: &usize| match () {
            _ if self.has(Fault::SALVAGE_BAD_AS_REPEATED) => REPEATED,
            _ if self.has(Fault::SALVAGE_BAD_OF_KEPT) && of_kept(number) => REPEATED,
            _ => BAD,
        };
        let reason_of_repeated = if self.has(Fault::SALVAGE_REPEATED_AS_BAD) { BAD } else { REPEATED };
        let rows = bad.iter().map(|number| (*number, reason_of_bad(number)));
        let mut rows: BTreeMap<usize, u8> = rows.chain(repeated.iter().map(|it| (*it, reason_of_repeated))).collect();
        rows.retain(|number, _| !self.is_unlisted(*number, damaged, &bad, &repeated));
        rows
    }

    /// The wrong answers of faults that leave places out of the list.
    fn is_unlisted(&self, number: usize, damaged: &[u8], bad: &Numbers, repeated: &Numbers) -> bool {
        self.has(Fault::SALVAGE_BAD_UNLISTED) && bad.contains(&number)
            || self.has(Fault::SALVAGE_REPEATED_UNLISTED) && repeated.contains(&number)
            || self.has(Fault::SALVAGE_LISTED_TO_COUNT) && number >= count(damaged)
    }

    /// Whether a place is neither kept nor listed.
    fn counts_as_zero(&self, place: &[u8]) -> bool {
        match is_zero(place) {
            true => !self.has(Fault::SALVAGE_ZERO_LISTED),
            false => {
                self.has(Fault::SALVAGE_ZERO_BY_SIZES) && is_zero(&place[..2])
                    || self.has(Fault::SALVAGE_ZERO_BUT_MARK) && is_zero(&place[..PLACE - 1])
            }
        }
    }

    /// The table of the routes kept.
    fn held(&self, afi: u16, places: usize, good: &Good, kept: &Numbers) -> Table {
        let mut held = Table::new(afi, places);
        for number in kept {
            held.routes.extend(good[number].routes.clone());
            held.stale.extend(good[number].stale.clone());
        }
        if self.has(Fault::SALVAGE_EQUAL_ATTRIBUTE) {
            good.values().for_each(|table| held.routes.extend(table.routes.clone()));
        }
        if self.has(Fault::SALVAGE_EQUAL_MARK) {
            good.values().for_each(|table| held.stale.extend(table.stale.clone()));
        }
        if self.has(Fault::SALVAGE_MARKS_LOST) {
            held.stale.clear();
        }
        if self.has(Fault::SALVAGE_MARKS_ALL) {
            held.stale = held.routes.keys().cloned().collect();
        }
        let most = match () {
            _ if self.has(Fault::SALVAGE_EMPTY) => 0,
            _ if self.has(Fault::SALVAGE_ONE) => 1,
            _ => held.routes.len(),
        };
        held.routes = held.routes.into_iter().take(most).collect();
        held
    }

    /// The octets of the table.
    fn laid_out(&self, lent: Lent, good: &Good, kept: &Numbers, held: &Table) -> Vec<u8> {
        let Lent { damaged, table, .. } = lent;
        let end = size(held.routes.len());
        let placed = |number: &usize| -> Placed {
            let (nlri, attribute) = good[number].routes.iter().next().expect("a good place holds a route");
            (nlri, attribute, held.stale.contains(nlri))
        };
        let mut after = match self.has(Fault::SALVAGE_IN_PLACE_ORDER) {
            true => image(lent.afi, damaged.len(), kept.iter().map(placed)),
            false => held.image(),
        };
        if self.has(Fault::SALVAGE_WHERE_THEY_STOOD) {
            for (number, place) in places_of(damaged) {
                let octets = if kept.contains(&number) { place } else { &[0; PLACE] };
                after[size(number)..size(number + 1)].copy_from_slice(octets);
            }
        }
        if self.has(Fault::SALVAGE_SOUND_COPIED) && self.table(damaged).is_ok() {
            after.copy_from_slice(damaged);
        }
        if self.has(Fault::SALVAGE_HEADER_COPIED) {
            after[..6].copy_from_slice(&damaged[..6]);
        }
        if self.has(Fault::SALVAGE_COUNT_COPIED) {
            after[6..8].copy_from_slice(&damaged[6..8]);
        }
        if self.has(Fault::SALVAGE_REST_KEPT) && table.len() == after.len() {
            after[end..].copy_from_slice(&table[end..]);
        }
        if self.has(Fault::SALVAGE_REST_COPIED) {
            after[end..].copy_from_slice(&damaged[end..]);
        }
        after
    }

    /// The octets of the list: the number, 16 bits, and the reason of each.
    fn listed(&self, reasons: &BTreeMap<usize, u8>) -> Vec<u8> {
        let mut rows: Vec<(usize, u8)> = reasons.iter().map(|(number, reason)| (*number, *reason)).collect();
        if self.has(Fault::SALVAGE_LIST_BACKWARDS) {
            rows.reverse();
        }
        if self.has(Fault::SALVAGE_LIST_BY_REASON) {
            rows.sort_by_key(|(_, reason)| *reason);
        }
        let octets = |(number, reason): &(usize, u8)| {
            let [high, low] = (*number as u16 + u16::from(self.has(Fault::SALVAGE_FROM_ONE))).to_be_bytes();
            match () {
                _ if self.has(Fault::SALVAGE_LITTLE_ENDIAN) => vec![low, high, *reason],
                _ if self.has(Fault::SALVAGE_NUMBER_LOW_OCTET) => vec![0, low, *reason],
                _ if self.has(Fault::SALVAGE_REASON_FIRST) => vec![*reason, high, low],
                _ if self.has(Fault::SALVAGE_LIST_OF_FOUR) => vec![high, low, *reason, 0],
                _ => vec![high, low, *reason],
            }
        };
        rows.iter().flat_map(octets).collect()
    }

    /// How many are told as kept and as dropped.
    fn counts(&self, damaged: &[u8], kept: usize, reasons: &BTreeMap<usize, u8>) -> [u32; 2] {
        let kept = match () {
            _ if self.has(Fault::SALVAGE_KEPT_BY_COUNT) => count(damaged),
            _ if self.has(Fault::SALVAGE_KEPT_LOW_OCTET) => kept % 256,
            _ => kept,
        };
        let zeros = places_of(damaged).values().filter(|place| is_zero(place)).count();
        let dropped = match reasons.len() {
            _ if self.has(Fault::SALVAGE_DROPPED_BAD) => reasons.values().filter(|reason| **reason == BAD).count(),
            rows if self.has(Fault::SALVAGE_DROPPED_OCTETS) => DROPPED_PLACE * rows,
            rows if self.has(Fault::SALVAGE_DROPPED_ZEROS) => rows + zeros,
            rows => rows,
        };
        [kept, dropped].map(|number| number as u32)
    }
}

/// The places of memory, by their numbers.
pub fn places_of(memory: &[u8]) -> Places<'_> {
    memory.get(HEADER..).unwrap_or(&[]).chunks_exact(PLACE).enumerate().collect()
}

/// The count that the header says.
pub fn count(memory: &[u8]) -> usize {
    memory.get(6..HEADER).map_or(0, |count| usize::from(u16::from_be_bytes([count[0], count[1]])))
}

pub fn is_zero(octets: &[u8]) -> bool {
    octets.iter().all(|octet| *octet == 0)
}

/// The NLRI of a good place.
fn nlri(alone: &Table) -> &[u8] {
    alone.routes.keys().next().map_or(&[], |nlri| nlri)
}

/// The octets that stand in any place where the NLRI of a good one does.
fn claimed(place: &[u8]) -> &[u8] {
    place.get(2..2 + usize::from(place[0])).unwrap_or(&[])
}
