//! Routes that the measured tables hold.

use conformance::{
    cases::inputs::{routes::s_pmsi, samples::attributes},
    ffi::Matched,
    random::Random,
    second::Second,
};

/// Each router has one route distinguisher, and in `routes` one tunnel.
const ROUTERS: usize = 10;

#[derive(PartialEq)]
pub struct Route {
    pub nlri: Vec<u8>,
    pub attribute: Vec<u8>,
    /// Router, source and group of a flow that takes this route, in this tier.
    pub flow: [Vec<u8>; 3],
    pub tier: u32,
}

impl Route {
    /// What a call that takes this route writes: its NLRI and its attribute.
    pub fn octets(&self) -> Vec<u8> {
        [&self.nlri[..], &self.attribute].concat()
    }

    /// The sizes of both.
    pub fn sizes(&self) -> [u32; 2] {
        [&self.nlri, &self.attribute].map(|octets| octets.len() as u32)
    }

    /// The answer of a match that takes this route.
    pub fn matched(&self) -> Matched {
        let [nlri_size, attribute_size] = self.sizes();
        Matched { number: 0, tier: self.tier, nlri_size, attribute_size }
    }
}

/// The first (C-S,C-G) route, whose NLRI is one of the longest, from the middle on.
pub fn middle(routes: &[Route]) -> &Route {
    let upper = &routes[routes.len() / 2..];
    upper.iter().find(|route| route.tier == 1).expect("the longest NLRIs are of tier 1")
}

/// Different routes in the order of their NLRIs: of each router one (C-*,C-*), every eighth (C-S,C-*) and (C-*,C-G), and
/// else (C-S,C-G). Originators have four octets under AFI 1 and sixteen under AFI 2.
pub fn routes(afi: u16, count: usize) -> Vec<Route> {
    let attributes = tunnels();
    let mut routes: Vec<_> = (0..count)
        .map(|at| {
            let (router, index) = (at % ROUTERS, at / ROUTERS);
            let tier = match index % 8 {
                1 if index == 1 => 4,
                2 => 2,
                3 => 3,
                _ => 1,
            };
            let attribute = attributes[router * attributes.len() / ROUTERS].clone();
            route(afi, router as u8, index as u8, tier, attribute)
        })
        .collect();
    routes.sort_by(|left, right| left.nlri.cmp(&right.nlri));
    routes
}

/// (C-S,C-G) routes of so many originators, each with so many.
pub fn of_many(afi: u16, originators: usize, count: usize) -> Vec<Vec<Route>> {
    let attributes = tunnels();
    let route = |router: usize, index: usize| {
        let [high, low] = [(index / 250) as u8, (index % 250) as u8];
        let flow = [
            address(afi, [0x20, 1, 0x0D, 0xB8], [10, 0, 1, router as u8]),
            address(afi, [0x20, 1, 0x0D, 0xB8], [192, 0, high, low]),
            address(afi, [0xFF, 0x3E, 0, 0], [232, 1, high, low]),
        ];
        of_flow(&distinguisher(router as u8), flow, 1, attributes[index % attributes.len()].clone())
    };
    (0..originators).map(|router| (0..count).map(|index| route(router, index)).collect()).collect()
}

/// Attributes of every tunnel type: a route that names no tunnel takes no flow.
fn tunnels() -> Vec<Vec<u8>> {
    let second = Second::sound();
    attributes().into_iter().filter(|attribute| second.names_tunnel(attribute)).collect()
}

fn route(afi: u16, router: u8, index: u8, tier: u32, attribute: Vec<u8>) -> Route {
    let group = if tier == 3 { [239, 1, 1, index] } else { [232, 1, 1, index] };
    let prefix = if tier == 3 { [0xFF, 0x0E, 0, 0] } else { [0xFF, 0x3E, 0, 0] };
    let flow = [
        address(afi, [0x20, 1, 0x0D, 0xB8], [10, 0, 0, router]),
        address(afi, [0x20, 1, 0x0D, 0xB8], [192, 0, 2, index]),
        address(afi, prefix, group),
    ];
    of_flow(&distinguisher(router), flow, tier, attribute)
}

/// The route that a flow takes in this tier.
fn of_flow(distinguisher: &[u8], flow: [Vec<u8>; 3], tier: u32, attribute: Vec<u8>) -> Route {
    let [originator, source, group] = flow.each_ref().map(|octets| &octets[..]);
    let source = if tier >= 3 { &[] } else { source };
    let group = if tier == 2 || tier == 4 { &[] } else { group };
    let nlri = s_pmsi(distinguisher, source, group, originator);
    Route { nlri, attribute, flow, tier }
}

/// Different routes in a random order: any tier, source, group and tunnel, and any of the routers, half of which have sixteen
/// octets. As above, a router has one route distinguisher, so that routes differ behind it.
pub fn random_routes(random: &mut Random, afi: u16, count: usize) -> Vec<Route> {
    let attributes = tunnels();
    let routers: [Vec<u8>; ROUTERS] = std::array::from_fn(|at| random.octets(if at % 2 == 0 { 4 } else { 16 }));
    let mut routes: Vec<Route> = Vec::new();
    while routes.len() < count {
        let (tier, router) = (1 + random.below(4) as u32, random.below(ROUTERS));
        let flow = [routers[router].clone(), random_source(random, afi), random_group(random, afi, tier)];
        let attribute = attributes[random.below(attributes.len())].clone();
        let route = of_flow(&distinguisher(router as u8), flow, tier, attribute);
        if routes.iter().all(|other| other.nlri != route.nlri) {
            routes.push(route);
        }
    }
    routes
}

fn random_source(random: &mut Random, afi: u16) -> Vec<u8> {
    random.octets(if afi == 1 { 4 } else { 16 })
}

/// An SSM group, or for tier 3 an ASM group.
fn random_group(random: &mut Random, afi: u16, tier: u32) -> Vec<u8> {
    let front: &[u8] = match (afi, tier) {
        (1, 3) => &[239],
        (1, _) => &[232],
        (_, 3) => &[0xFF, 0x0E, 0, 0],
        _ => &[0xFF, 0x3E, 0, 0],
    };
    let mut group = random_source(random, afi);
    group[..front.len()].copy_from_slice(front);
    group
}

fn distinguisher(router: u8) -> [u8; 8] {
    [0, 0, 0, 100, 0, 0, 0, router]
}

/// The last four octets alone, or an IPv6 address that begins and ends in these.
fn address(afi: u16, front: [u8; 4], last: [u8; 4]) -> Vec<u8> {
    match afi {
        1 => last.to_vec(),
        _ => [front, [0; 4], [0; 4], last].concat(),
    }
}
