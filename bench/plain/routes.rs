//! Requests for circuits, explanations and claims.

use crate::answers::{Done, Reply, put, put_number, put_numbers};
use crate::forms::{Fields, Refusal, potential, refused};
use crate::json::Json;
use crate::network::{DIAL, IDENTITY, Network, ROUTER, SERVICE, Terminator};
use crate::paths::NO_PATH;
use crate::tables::Bits;

struct Request {
    identity: u32,
    service: u32,
    ingresses: Vec<u32>,
    /// Those that are counted and admissible.
    offers: Vec<u32>,
}

struct Route {
    total: u64,
    terminator: u32,
    ingress: u32,
    links: Vec<u32>,
}

fn parties(network: &Network, fields: &Fields) -> Result<(u32, u32), Refusal> {
    let identity = network.number(IDENTITY, fields.text(0)).ok_or_else(|| refused(30, "UnknownIdentity"))?;
    let service = network.number(SERVICE, fields.text(1)).ok_or_else(|| refused(31, "UnknownService"))?;
    Ok((identity, service))
}

/// The shared routers, or the named one of them.
fn shared(network: &Network, identity: u32, service: u32, named: Option<u32>) -> Vec<u32> {
    let is_shared = |router: &u32| network.is_shared(identity, service, *router);
    match named {
        Some(router) => Some(router).filter(is_shared).into_iter().collect(),
        None => network.entities[ROUTER].order.iter().copied().filter(is_shared).collect(),
    }
}

fn request(network: &Network, fields: &Fields) -> Result<Request, Refusal> {
    let (identity, service) = parties(network, fields)?;
    let named = network.number(ROUTER, fields.text(2));
    if fields.has(2) && named.is_none() {
        return Err(refused(32, "UnknownRouter"));
    }
    if network.count(DIAL, identity, service) == 0 {
        return Err(refused(33, "NoDial"));
    }
    let mut ingresses = shared(network, identity, service, named);
    if ingresses.is_empty() {
        return Err(refused(34, "NoSharedRouter"));
    }
    ingresses.retain(|router| network.places[*router as usize].connected);
    if ingresses.is_empty() {
        return Err(refused(35, "SharedRoutersOffline"));
    }
    let has_instance = |slot: &u32| *network.terminators[*slot].instance == *fields.text(3);
    let mut offers: Vec<u32> = network.entities[SERVICE].rows[service].terminators.iter().copied().filter(has_instance).collect();
    if offers.is_empty() {
        return Err(refused(36, "NoTerminators"));
    }
    offers.retain(|slot| network.is_admissible(&network.terminators[*slot]));
    if offers.is_empty() {
        return Err(refused(37, "NoAdmissibleTerminator"));
    }
    Ok(Request { identity, service, ingresses, offers })
}

fn cost_of(terminator: &Terminator) -> u64 {
    u64::from(terminator.cost) + terminator.circuits.len() as u64
}

fn best(network: &Network, request: &Request) -> Result<Route, Refusal> {
    let found = (0..3).find_map(|precedence| best_of(network, request, precedence));
    let (total, _, _, terminator, ingress) = found.ok_or_else(|| refused(38, "NoPath"))?;
    if network.circuits.len() >= 16_384 || network.next[2] >= u32::MAX - 1 {
        return Err(refused(39, "CircuitsFull"));
    }
    let (mut costs, mut stops, target) = (Vec::new(), Bits::default(), network.terminators[terminator].router);
    stops.set(ingress, true);
    network.search(target, false, Some((&stops, 1)), &mut costs);
    let links = network.walk(&costs, ingress, target).expect("a path");
    Ok(Route { total, terminator, ingress, links })
}

/// A candidate: its total, the numbers of its terminator and its ingress, and their slots.
type Ranked = (u64, u32, u32, u32, u32);

/// The best candidate of a precedence, by a search for each ingress or for each router where a circuit may end, of which there are fewer.
fn best_of(network: &Network, request: &Request, precedence: u8) -> Option<Ranked> {
    let mut offers: Vec<u32> = request.offers.iter().copied().filter(|slot| network.terminators[*slot].precedence == precedence).collect();
    offers.sort_unstable_by_key(|slot| network.terminators[*slot].router);
    let mut ends: Vec<u32> = offers.iter().map(|slot| network.terminators[*slot].router).collect();
    ends.dedup();
    let onward = request.ingresses.len() < ends.len();
    let (starts, goals) = if onward { (&request.ingresses, &ends) } else { (&ends, &request.ingresses) };
    let (mut stops, mut costs, mut best) = (Bits::default(), Vec::new(), None);
    goals.iter().for_each(|router| stops.set(*router, true));
    for start in starts {
        network.search(*start, onward, Some((&stops, goals.len())), &mut costs);
        let found = if onward { from_ingress(network, &offers, *start, &costs) } else { to_end(network, request, &offers, *start, &costs) };
        best = best.into_iter().chain(found).min();
    }
    best
}

fn ranked(network: &Network, offer: u32, ingress: u32, cost: u32) -> Option<Ranked> {
    let terminator = &network.terminators[offer];
    let number = network.entities[ROUTER].rows[ingress].number;
    (cost != NO_PATH).then(|| (cost_of(terminator) + u64::from(cost), terminator.number, number, offer, ingress))
}

fn from_ingress(network: &Network, offers: &[u32], ingress: u32, costs: &[u32]) -> Option<Ranked> {
    offers.iter().filter_map(|offer| ranked(network, *offer, ingress, costs[network.terminators[*offer].router as usize])).min()
}

/// The routers stand by their numbers, so of several ingresses that cost the same the first is the nearest one.
fn to_end(network: &Network, request: &Request, offers: &[u32], end: u32, costs: &[u32]) -> Option<Ranked> {
    let nearest = *request.ingresses.iter().min_by_key(|router| costs[**router as usize])?;
    let first = offers.partition_point(|offer| network.terminators[*offer].router < end);
    let own = offers[first..].iter().take_while(|offer| network.terminators[**offer].router == end);
    own.filter_map(|offer| ranked(network, *offer, nearest, costs[nearest as usize])).min()
}

fn put_route(network: &Network, route: &Route, reply: &mut Reply) {
    put(reply, "\"ingress\":\"");
    put(reply, &network.entities[ROUTER].rows[route.ingress].name);
    put(reply, "\",\"links\":");
    put_numbers(reply, route.links.iter().map(|link| network.links[*link].number));
}

fn put_end(network: &Network, route: &Route, reply: &mut Reply) {
    put(reply, ",\"terminator\":");
    put_number(reply, u64::from(network.terminators[route.terminator].number));
    put(reply, ",\"total\":");
    put_number(reply, route.total);
    put(reply, "}");
}

pub fn create_circuit(network: &mut Network, fields: &Fields, reply: &mut Reply) -> Done {
    let request = request(network, fields)?;
    let route = best(network, &request)?;
    put(reply, "{\"circuit\":");
    put_number(reply, u64::from(network.next[2]) + 1);
    put(reply, ",");
    put_route(network, &route, reply);
    put_end(network, &route, reply);
    network.add_circuit((request.identity, request.service, route.terminator, route.ingress), &route.links);
    Ok(())
}

/// The routers with an admissible terminator of a precedence or of a better one, by their numbers.
fn targets(network: &Network, request: &Request, precedence: u8) -> Vec<u32> {
    let offers = request.offers.iter().map(|slot| &network.terminators[*slot]);
    let mut routers: Vec<u32> = offers.filter(|it| it.precedence <= precedence).map(|it| it.router).collect();
    routers.sort_unstable_by_key(|router| network.entities[ROUTER].rows[*router].number);
    routers.dedup();
    routers
}

pub fn explain(network: &Network, fields: &Fields, reply: &mut Reply) -> Done {
    let request = request(network, fields)?;
    let route = best(network, &request)?;
    let routers = &network.entities[ROUTER];
    put(reply, "{");
    put_route(network, &route, reply);
    put(reply, ",\"potentials\":[");
    let mut costs = Vec::new();
    for (at, target) in targets(network, &request, network.terminators[route.terminator].precedence).into_iter().enumerate() {
        network.search(target, false, None, &mut costs);
        put(reply, if at > 0 { ",{\"router\":" } else { "{\"router\":" });
        put_number(reply, u64::from(routers.rows[target].number));
        put(reply, ",\"values\":");
        put_values(&routers.order, &costs, reply);
        put(reply, "}");
    }
    put(reply, "],\"routers\":");
    put_numbers(reply, routers.order.iter().map(|slot| routers.rows[*slot].number));
    put_end(network, &route, reply);
    Ok(())
}

fn put_values(order: &[u32], costs: &[u32], reply: &mut Reply) {
    put(reply, "[");
    for (at, slot) in order.iter().enumerate() {
        put(reply, if at > 0 { "," } else { "" });
        match costs[*slot as usize] {
            NO_PATH => put(reply, "null"),
            cost => put_number(reply, u64::from(cost)),
        }
    }
    put(reply, "]");
}

/// The values of a claim's entries by the slots of routers.
type Values = Vec<(u32, Vec<u64>)>;

const NONE: u64 = u64::MAX;

pub fn verify(network: &Network, fields: &Fields, reply: &mut Reply) -> Done {
    let certified = is_justified(network, fields).unwrap_or(false);
    put(reply, if certified { "{\"certified\":true}" } else { "{\"certified\":false}" });
    Ok(())
}

fn is_justified(network: &Network, fields: &Fields) -> Option<bool> {
    let request = request(network, fields).ok()?;
    let ingress = network.number(ROUTER, fields.text(4)).filter(|it| request.ingresses.contains(it))?;
    let slot = *network.terminator_numbers.get(&fields.number(8)?).filter(|it| request.offers.contains(it))?;
    let (terminator, total) = (&network.terminators[slot], u64::from(fields.number(9)?));
    let values = values_of(network, fields, &targets(network, &request, terminator.precedence))?;
    let (_, own) = values.iter().find(|it| it.0 == terminator.router)?;
    let is_settled = values.iter().all(|(target, values)| is_settled(network, *target, values));
    let holds = is_settled && is_tight(network, fields, own, ingress, terminator.router);
    let is_told = own[ingress as usize] != NONE && total == cost_of(terminator) + own[ingress as usize];
    Some(holds && is_told && !is_beaten(network, &request, &values, terminator.precedence, total))
}

fn values_of(network: &Network, fields: &Fields, targets: &[u32]) -> Option<Values> {
    let (routers, entries) = (&network.entities[ROUTER], fields.list(6));
    let numbers = fields.list(7).iter().map(|it| it.number().unwrap_or(0) as u32);
    let is_of_all = numbers.eq(routers.order.iter().map(|slot| routers.rows[*slot].number));
    if !is_of_all || entries.len() != targets.len() {
        return None;
    }
    let mut found = Vec::new();
    for (entry, target) in entries.iter().zip(targets) {
        let (router, values) = potential(entry)?;
        if router != routers.rows[*target].number || values.len() != routers.order.len() {
            return None;
        }
        found.push((*target, by_slots(&routers.order, values, network.places.len())));
    }
    Some(found)
}

fn by_slots(order: &[u32], values: &[Json], places: usize) -> Vec<u64> {
    let mut found = vec![NONE; places];
    for (slot, value) in order.iter().zip(values) {
        found[*slot as usize] = value.number().unwrap_or(NONE);
    }
    found
}

fn is_settled(network: &Network, target: u32, values: &[u64]) -> bool {
    let improves = |at: u32| {
        let place = &network.places[at as usize];
        let is_better = |hop: &crate::paths::Hop| {
            let reach = network.hop_cost(hop, target).map(|cost| values[hop.to as usize].saturating_add(u64::from(cost)));
            place.connected && reach.is_some_and(|it| it < values[at as usize])
        };
        place.hops.iter().any(is_better)
    };
    values[target as usize] == 0 && !network.entities[ROUTER].order.iter().any(|at| improves(*at))
}

fn is_tight(network: &Network, fields: &Fields, values: &[u64], ingress: u32, target: u32) -> bool {
    let mut at = ingress;
    for number in fields.list(5).iter().map(|it| it.number().unwrap_or(0) as u32) {
        let place = &network.places[at as usize];
        let Some(hop) = place.hops.iter().find(|hop| hop.number == number) else { return false };
        let cost = network.hop_cost(hop, target).filter(|_| place.connected);
        let (from, to) = (values[at as usize], values[hop.to as usize]);
        if from == NONE || to == NONE || cost.is_none_or(|cost| to + u64::from(cost) != from) {
            return false;
        }
        at = hop.to;
    }
    at == target
}

fn is_beaten(network: &Network, request: &Request, values: &Values, precedence: u8, total: u64) -> bool {
    request.offers.iter().map(|slot| &network.terminators[*slot]).filter(|it| it.precedence <= precedence).any(|offer| {
        let (_, found) = values.iter().find(|it| it.0 == offer.router).expect("an entry");
        let most = if offer.precedence < precedence { NONE } else { total };
        request.ingresses.iter().any(|ingress| found[*ingress as usize].saturating_add(cost_of(offer)) < most)
    })
}

