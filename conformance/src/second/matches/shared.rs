//! The match for a shared tree (RFC 6625, section 3.2.2; document 02, W-201, W-209 and W-210): refusals, conditions and kinds of route
//! as rows, each tried in turn.

use super::choice::{Choice, LEAST_OUTPUT};
use crate::{
    ffi::SharedTree,
    second::{
        fault::Fault,
        groups::{class::Class, prefixes::Prefix},
        lists::List,
        nlri::{
            discards::Asked,
            reading::Reading,
            rows::{Family, Field, SOURCE_ACTIVE},
        },
        number::Number,
        table::memory::Route,
        Moved, Second,
    },
};

/// A shared tree (C-*,C-G) to be received from a PE: what the daemon tells of it, and the lists as they are lent, that of the
/// prefixes by which the group has its class and the two others.
#[derive(Clone, Copy, Debug, PartialEq, Eq)]
pub struct Reception<'a> {
    pub prefixes: &'a [u8],
    pub router: &'a [u8],
    pub group: &'a [u8],
    pub facts: SharedTree,
    pub source_actives: &'a [u8],
    pub states: &'a [u8],
}

/// The most items of either list.
pub const MOST_ITEMS: usize = 256;

const ROUTER_SIZES: &[usize] = &[4, 16];

/// The arguments of a call, with the lists taken apart.
struct Arguments<'a> {
    afi: u16,
    family: Family,
    reception: Reception<'a>,
    prefixes: Result<Vec<Prefix>, Number>,
    /// Originator and NLRI of each.
    source_actives: List<'a, 2>,
    /// Source and group of each.
    states: List<'a, 2>,
    /// Octets of output.
    room: usize,
}

type Refusal = fn(&Second, &Arguments) -> Option<Number>;

/// What the arguments and the family can cause, in the order of the call.
const REFUSALS: [Refusal; 6] = [
    |_, arguments| arguments.prefixes.as_ref().err().copied(),
    Second::long,
    Second::short,
    Second::bad_address,
    Second::bad_route,
    Second::small,
];

const MOVED: [Moved; 8] = [
    (Fault::PREFIXES_AFTER_LONG, 0, 1),
    (Fault::PREFIXES_AFTER_LISTS, 0, 2),
    (Fault::PREFIXES_AFTER_ADDRESSES, 0, 3),
    (Fault::PREFIXES_LAST, 0, 5),
    (Fault::LONG_AFTER_SHORT, 1, 2),
    (Fault::SHORT_AFTER_FLOW, 2, 3),
    (Fault::FLOW_AFTER_ROUTES, 3, 4),
    (Fault::SPACE_BEFORE_ROUTES, 4, 5),
];

type Condition = fn(&Second, &Arguments) -> bool;

/// The conditions of RFC 6625, section 3.2.2, the same for both kinds of route, each with the fault that leaves it out.
const CONDITIONS: [(Condition, Fault); 4] = [
    (|second, arguments| second.told(arguments.reception.facts.upstream), Fault::UPSTREAM_NOT_ASKED),
    (Second::active_without_state, Fault::SOURCE_ACTIVE_NOT_ASKED),
    (|second, arguments| second.told(arguments.reception.facts.bidirectional), Fault::BIDIRECTIONAL_NOT_ASKED),
    (|second, arguments| second.told(arguments.reception.facts.source_active_unused), Fault::UNUSED_NOT_ASKED),
];

impl Second {
    fn arguments<'a>(&self, afi: u16, reception: &Reception<'a>, room: usize) -> Result<Arguments<'a>, Number> {
        let family = self.family(afi)?;
        let prefixes = self.prefixes(family, reception.prefixes, reception.group);
        let [source_actives, states] = [reception.source_actives, reception.states].map(|octets| self.list(octets));
        Ok(Arguments { afi, family, reception: *reception, prefixes, source_actives, states, room })
    }

    /// What the call refuses for its arguments and the family alone: RANGE and SHORT of the prefixes, LONG, SHORT, FLOW, of each
    /// Source Active route its reading number or KIND, SPACE.
    pub(in crate::second) fn reception_refusal(&self, afi: u16, reception: &Reception, room: usize) -> Option<Number> {
        match self.arguments(afi, reception, room) {
            Ok(arguments) => self.first_refusal(&arguments),
            Err(number) => Some(number),
        }
    }

    fn first_refusal(&self, arguments: &Arguments) -> Option<Number> {
        self.ordered(REFUSALS, &MOVED).iter().find_map(|refusal| refusal(self, arguments))
    }

    /// A count over the limit in either list.
    fn long(&self, arguments: &Arguments) -> Option<Number> {
        let Arguments { source_actives, states, .. } = arguments;
        let less = usize::from(self.has(Fault::ITEMS_LIMIT_255));
        let more = usize::from(self.has(Fault::ITEMS_LIMIT_257));
        let over = |count| count > MOST_ITEMS - less + more;
        let late = self.has(Fault::LISTS_ONE_BY_ONE) && !source_actives.whole;
        (over(source_actives.count) || over(states.count) && !late).then_some(Number::Long)
    }

    /// Either list ends before its items do.
    fn short(&self, arguments: &Arguments) -> Option<Number> {
        let whole = arguments.source_actives.whole && arguments.states.whole;
        (!whole).then_some(Number::Short)
    }

    /// An address of a size that it may not have. Only the group asked must be multicast.
    fn bad_address(&self, arguments: &Arguments) -> Option<Number> {
        let Arguments { family, reception, source_actives, states, .. } = arguments;
        let multicast = |group: &[u8]| self.standard_class(*family, group).is_ok();
        let family_sizes = &[family.octets()][..];
        let originator_sizes = if self.has(Fault::ORIGINATORS_BY_FAMILY) { family_sizes } else { ROUTER_SIZES };
        let originators = source_actives.items.iter().map(|[originator, _]| (*originator, originator_sizes));
        let of_states = states.items.as_flattened().iter().map(|address| (*address, family_sizes));
        let listed = originators.chain(of_states).filter(|_| !self.has(Fault::FLOW_OF_PE_ONLY));
        let asked = [(reception.router, ROUTER_SIZES), (reception.group, family_sizes)];
        let sized = asked.into_iter().chain(listed).all(|(address, sizes)| sizes.contains(&address.len()));
        let groups = !self.has(Fault::STATES_MULTICAST) || states.items.iter().all(|[_, group]| multicast(group));
        (!sized || !groups || self.class(arguments).is_none()).then_some(Number::Flow)
    }

    /// The first Source Active route that is not read, or is of another type.
    fn bad_route(&self, arguments: &Arguments) -> Option<Number> {
        if self.is_unjudged(arguments) {
            return None;
        }
        let items = arguments.source_actives.items.iter();
        let mut refusals = items.filter_map(|item| self.source_active(arguments, item).err());
        match self.has(Fault::KIND_AFTER_READING) {
            true => refusals.clone().find(|number| *number != Number::Kind).or(refusals.next()),
            false if self.has(Fault::DISCARD_LISTED_LAST) => {
                refusals.clone().find(|number| *number != Number::Group).or(refusals.next())
            }
            false => refusals.next(),
        }
    }

    /// NLRI reading with no octets after it, then KIND.
    fn source_active<'a>(&self, arguments: &Arguments, item: &[&'a [u8]; 2]) -> Result<Option<Reading<'a>>, Number> {
        let [originator, nlri] = *item;
        if self.has(Fault::OTHER_PE_UNREAD) && originator != arguments.reception.router {
            return Ok(None);
        }
        let afi = match originator.len() {
            _ if !self.has(Fault::FAMILY_OF_ORIGINATOR) => arguments.afi,
            4 => 1,
            _ => 2,
        };
        let prefixes = arguments.prefixes.as_ref().map_or(&[][..], |prefixes| prefixes);
        let of_pe = originator == arguments.reception.router;
        let reading = self.listed_route(afi, nlri, Asked { prefixes, group: arguments.reception.group, of_pe })?;
        match reading.route_type {
            SOURCE_ACTIVE => Ok(Some(reading)),
            _ if self.has(Fault::SOURCE_ACTIVE_ANY_KIND) => Ok(Some(reading)),
            _ => Err(Number::Kind),
        }
    }

    /// An output under the least, also where nothing matches.
    fn small(&self, arguments: &Arguments) -> Option<Number> {
        let late = self.has(Fault::SPACE_WHERE_MATCHED) || self.is_unjudged(arguments);
        (arguments.room < LEAST_OUTPUT && !late).then_some(Number::Space)
    }

    /// Where `SSM_UNREFUSED` answers too early.
    fn is_unjudged(&self, arguments: &Arguments) -> bool {
        self.has(Fault::SSM_UNREFUSED) && self.class(arguments) == Some(Class::Ssm)
    }

    /// The class of the group asked.
    fn class(&self, arguments: &Arguments) -> Option<Class> {
        let prefixes = match &arguments.prefixes {
            Ok(prefixes) if !self.has(Fault::SHARED_BY_STANDARD) => &prefixes[..],
            _ => &[],
        };
        self.class_among(prefixes, arguments.family, arguments.reception.group).ok()
    }

    /// A fact is 0 or not.
    fn told(&self, fact: u32) -> bool {
        match self.has(Fault::FACT_IS_ONE) {
            true => fact == 1,
            false => fact != 0,
        }
    }

    /// One or more Source Active routes are for the group and of the PE, and for at least one of them there is no state.
    fn active_without_state(&self, arguments: &Arguments) -> bool {
        let routes = arguments.source_actives.items.iter().filter_map(|item| self.counting(arguments, item));
        let has_state = |route| arguments.states.items.iter().any(|state| self.corresponds(&route, state));
        let with_state: Vec<bool> = routes.map(has_state).collect();
        if self.has(Fault::ACTIVE_WITH_STATE) {
            return with_state.contains(&true);
        }
        let one_has = self.has(Fault::ACTIVE_ALL_WITHOUT_STATE) && with_state.contains(&true);
        with_state.contains(&false) && !one_has
    }

    /// Source and group of a Source Active route that is for the group and of the PE.
    fn counting<'a>(&self, arguments: &Arguments, item: &[&'a [u8]; 2]) -> Option<[&'a [u8]; 2]> {
        let reading = self.source_active(arguments, item).ok()??;
        let [source, group] = [Field::Source, Field::Group].map(|field| reading.octets(field));
        let of_pe = item[0] == arguments.reception.router || self.has(Fault::ACTIVE_OF_ANY_PE);
        let asked = arguments.reception.group;
        let front = self.has(Fault::ACTIVE_GROUP_FRONT) && group.get(..4) == asked.get(..4);
        let for_group = group == asked || front || self.has(Fault::ACTIVE_FOR_ANY_GROUP);
        (of_pe && for_group).then_some([source, group])
    }

    /// Whether a state is the (C-S,C-G) state of a route: source and group are equal.
    fn corresponds(&self, route: &[&[u8]; 2], state: &[&[u8]; 2]) -> bool {
        let source = route[0] == state[0] || self.has(Fault::STATE_BY_GROUP);
        let group = route[1] == state[1] || self.has(Fault::STATE_BY_SOURCE);
        source && group
    }

    /// Whether a route of the PE may be taken: one of the conditions holds.
    fn eligible(&self, arguments: &Arguments) -> bool {
        let guessed = self.has(Fault::EMPTY_LIST_UNUSED) && arguments.source_actives.items.is_empty();
        let holds = |(condition, without): &(Condition, Fault)| !self.has(*without) && condition(self, arguments);
        let eligible = guessed || self.has(Fault::ELIGIBLE_ALWAYS) || CONDITIONS.iter().any(holds);
        eligible && !self.has(Fault::ELIGIBLE_NEVER)
    }

    /// The route of these that the shared tree takes; none for an SSM group. The refusals first.
    pub(in crate::second) fn shared_choice<'a>(
        &self,
        afi: u16,
        reception: &Reception,
        room: usize,
        routes: impl Iterator<Item = Route<'a>>,
    ) -> Result<Option<Choice<'a>>, Number> {
        let arguments = self.arguments(afi, reception, room)?;
        if let Some(number) = self.first_refusal(&arguments) {
            return Err(number);
        }
        let asm = self.class(&arguments) == Some(Class::Asm) || self.has(Fault::SHARED_FOR_SSM);
        if !asm || !self.eligible(&arguments) {
            return Ok(None);
        }
        let tier_of = |route: &Reading| self.shared_tier(route, reception.group);
        let chosen = self.first(afi, routes, Fault::NO_TUNNEL_TAKEN_SHARED, tier_of);
        // Only under `SPACE_WHERE_MATCHED` has a smaller output come this far.
        match chosen {
            Some(_) if room < LEAST_OUTPUT => Err(Number::Space),
            chosen => Ok(chosen),
        }
    }

    /// The tier in which a route of the PE takes the shared tree of a group.
    fn shared_tier(&self, route: &Reading, group: &[u8]) -> Option<u32> {
        match (route.octets(Field::Source), route.octets(Field::Group)) {
            ([], of) if of == group => Some(3),
            ([], []) => Some(4),
            (_, of) if of == group && self.has(Fault::SHARED_SOURCE_AND_GROUP) => Some(1),
            (_, []) if self.has(Fault::SHARED_SOURCE_ANY_GROUP) => Some(2),
            _ => None,
        }
    }
}
