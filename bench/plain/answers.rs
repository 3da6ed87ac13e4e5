//! What each command does and replies.

use crate::forms::{About, Fields, PRECEDENCES, Refusal, refused, unknown};
use crate::network::{BIND, DIAL, ENTERS, IDENTITY, Network, POLICY_LIMITS, ROUTER, SERVES, SERVICE, SIDES, Side, Terminator};
use crate::paths::Place;
use crate::routes;
use std::rc::Rc;

pub type Reply = Vec<u8>;
pub type Done = Result<(), Refusal>;

const ENTITY_WORDS: [&str; 3] = ["identity", "service", "router"];
const POLICY_WORDS: [&str; 3] = ["service_policy", "edge_router_policy", "service_edge_router_policy"];
const ROLE_WORDS: [&str; 3] = ["identity_roles", "service_roles", "router_roles"];

pub fn put(reply: &mut Reply, text: &str) {
    reply.extend_from_slice(text.as_bytes());
}

pub fn put_number(reply: &mut Reply, number: u64) {
    let (mut digits, mut at, mut rest) = ([0; 20], 20, number);
    loop {
        at -= 1;
        digits[at] = b'0' + (rest % 10) as u8;
        rest /= 10;
        if rest == 0 {
            break;
        }
    }
    reply.extend_from_slice(&digits[at..]);
}

fn made(reply: &mut Reply, number: u32) {
    put(reply, "{\"no\":");
    put_number(reply, u64::from(number));
    put(reply, "}");
}

fn done(reply: &mut Reply) {
    put(reply, "{}");
}

pub fn write_refusal(reply: &mut Reply, refusal: &Refusal) {
    put(reply, "{\"code\":");
    put_number(reply, u64::from(refusal.code));
    let name = format!("\"name\":\"{}\"", refusal.name);
    let text = match &refusal.about {
        About::Nothing => format!(",{name}}}"),
        About::Field(field) => format!(",\"field\":\"{field}\",{name}}}"),
        About::Kind(kind) => format!(",\"kind\":\"{kind}\",{name}}}"),
        About::Ref(field, absent) => format!(",\"field\":\"{field}\",{name},\"ref\":\"{absent}\"}}"),
        About::Reason(field, reason) => format!(",\"field\":\"{field}\",{name},\"reason\":\"{reason}\"}}"),
    };
    put(reply, &text);
}

fn full(kind: &'static str) -> Refusal {
    Refusal { code: 24, name: "Full", about: About::Kind(kind) }
}

fn refuse_if(holds: bool, refusal: impl FnOnce() -> Refusal) -> Done {
    if holds { Err(refusal()) } else { Ok(()) }
}

fn named(network: &Network, kind: usize, name: &str, field: &'static str) -> Result<u32, Refusal> {
    network.number(kind, name).ok_or_else(|| unknown(field))
}

// Entities.

fn create_entity(network: &mut Network, kind: usize, fields: &Fields, reply: &mut Reply) -> Done {
    refuse_if(network.number(kind, fields.text(0)).is_some(), || refused(20, "Exists"))?;
    refuse_if(network.is_full(kind), || full(ENTITY_WORDS[kind]))?;
    let attributes = network.hold(fields.texts(1));
    refuse_if(!network.has_room(&[&attributes], &[]), || full("attribute"))?;
    if kind == ROUTER {
        place_router(network, fields);
    }
    let slot = network.add_entity(kind, fields.text(0), attributes);
    made(reply, network.entities[kind].rows[slot].number);
    Ok(())
}

fn place_router(network: &mut Network, fields: &Fields) {
    let own_cost = fields.number(2).unwrap_or(0);
    let entry = own_cost.max(network.least_router_cost);
    let slot = network.entities[ROUTER].rows.next_slot();
    if network.places.len() <= slot as usize {
        network.places.push(Place::default());
    }
    network.places[slot as usize] = Place { own_cost, entry, passes: !fields.is_true(3), ..Place::default() };
}

fn update_entity(network: &mut Network, kind: usize, fields: &Fields, reply: &mut Reply) -> Done {
    let slot = named(network, kind, fields.text(0), "name")?;
    let (attributes, before) = (network.hold(fields.texts(1)), network.attributes_of(kind, slot).to_vec());
    refuse_if(!network.has_room(&[&attributes], &[&before]), || full("attribute"))?;
    network.change_entity(kind, slot, attributes);
    if kind == ROUTER {
        let (cost, passes, least) = (fields.number(2).unwrap_or(0), !fields.is_true(3), network.least_router_cost);
        let place = &mut network.places[slot as usize];
        let stops = place.passes && !passes;
        (place.own_cost, place.entry, place.passes) = (cost, cost.max(least), passes);
        if stops {
            lift_all(network, slot, Some(slot));
        }
    }
    done(reply);
    Ok(())
}

fn lift_all(network: &mut Network, router: u32, passing: Option<u32>) {
    let links: Vec<u32> = network.places[router as usize].hops.iter().map(|hop| hop.link).collect();
    links.iter().for_each(|link| network.lift(*link, passing));
}

fn delete_entity(network: &mut Network, kind: usize, fields: &Fields, reply: &mut Reply) -> Done {
    let slot = named(network, kind, fields.text(0), "name")?;
    if kind == ROUTER {
        let links: Vec<u32> = network.places[slot as usize].hops.iter().map(|hop| hop.link).collect();
        links.iter().for_each(|link| network.remove_link(*link));
    }
    network.remove_entity(kind, slot);
    if kind == ROUTER {
        network.places[slot as usize].connected = false;
    }
    done(reply);
    Ok(())
}

fn connect(network: &mut Network, fields: &Fields, connected: bool, reply: &mut Reply) -> Done {
    let slot = named(network, ROUTER, fields.text(0), "name")?;
    if network.places[slot as usize].connected && !connected {
        network.end_at_router(slot);
        lift_all(network, slot, None);
    }
    network.places[slot as usize].connected = connected;
    done(reply);
    Ok(())
}

// Policies.

fn reference(network: &Network, kind: usize, fields: &Fields, at: usize) -> Done {
    let names = fields.texts(at).filter_map(|role| role.strip_prefix('@'));
    match names.into_iter().find(|name| network.number(kind, name).is_none()) {
        Some(name) => Err(Refusal { code: 23, name: "UnknownRef", about: About::Ref(ROLE_WORDS[kind], name.to_owned()) }),
        None => Ok(()),
    }
}

fn side(network: &mut Network, kind: usize, fields: &Fields, at: usize) -> Side {
    let all = fields.texts(at).next() == Some("#all");
    let mut side = Side { all, ..Side::default() };
    if !all {
        side.attributes = network.hold(fields.texts(at).filter_map(|role| role.strip_prefix('#')));
        for slot in fields.texts(at).filter_map(|role| role.strip_prefix('@')).filter_map(|name| network.number(kind, name)) {
            if !side.names.contains(&slot) {
                side.names.push(slot);
            }
        }
    }
    side
}

fn put_policy(network: &mut Network, kind: usize, fields: &Fields, is_new: bool, reply: &mut Reply) -> Done {
    let first = if kind == 0 { 3 } else { 2 };
    let before = network.policy_names[kind].get(fields.text(0)).copied();
    refuse_if(is_new && before.is_some(), || refused(20, "Exists"))?;
    refuse_if(!is_new && before.is_none(), || unknown("name"))?;
    for at in [0, 1] {
        reference(network, SIDES[kind][at], fields, first + at)?;
    }
    let count = network.policy_names[kind].len();
    refuse_if(is_new && (count >= POLICY_LIMITS[kind] || network.policy_next[kind] >= u32::MAX - 1), || full(POLICY_WORDS[kind]))?;
    let sides = [0, 1].map(|at| side(network, SIDES[kind][at], fields, first + at));
    let old = before.map_or([Vec::new(), Vec::new()], |slot| [0, 1].map(|at| network.policies[slot].sides[at].attributes.clone()));
    let held = [&sides[0].attributes[..], &sides[1].attributes[..]];
    refuse_if(!network.has_room(&held, &[&old[0], &old[1]]), || full("attribute"))?;
    let relation = [if fields.text(1) == "Bind" { BIND } else { DIAL }, ENTERS, SERVES][kind];
    network.policy_next[kind] += u32::from(is_new);
    let number = before.map_or(network.policy_next[kind], |slot| network.policies[slot].number);
    network.add_policy((kind, relation, fields.text(first - 1) == "AllOf"), number, Rc::from(fields.text(0)), sides);
    if let Some(slot) = before {
        network.remove_policy(slot);
    }
    if is_new { made(reply, number) } else { done(reply) }
    Ok(())
}

fn delete_policy(network: &mut Network, kind: usize, fields: &Fields, reply: &mut Reply) -> Done {
    let slot = network.policy_names[kind].get(fields.text(0)).copied().ok_or_else(|| unknown("name"))?;
    let sides = network.remove_policy(slot);
    sides.iter().for_each(|side| network.release(&side.attributes));
    done(reply);
    Ok(())
}

// Links.

fn create_link(network: &mut Network, fields: &Fields, reply: &mut Reply) -> Done {
    refuse_if(network.link_names.contains_key(fields.text(0)), || refused(20, "Exists"))?;
    let (a, b) = (named(network, ROUTER, fields.text(1), "a")?, named(network, ROUTER, fields.text(2), "b")?);
    refuse_if(network.links.len() >= 4096 || network.next[0] >= u32::MAX - 1, || full("link"))?;
    refuse_if(a == b, || refused(25, "SameRouter"))?;
    let latencies = [fields.number(4).unwrap_or(0), fields.number(5).unwrap_or(0)];
    let number = network.add_link(fields.text(0), [a, b], fields.number(3).unwrap_or(1), latencies);
    made(reply, number);
    Ok(())
}

fn link_named(network: &Network, fields: &Fields) -> Result<u32, Refusal> {
    network.link_names.get(fields.text(0)).copied().ok_or_else(|| unknown("link"))
}

fn end_reporting(network: &Network, link: u32, fields: &Fields) -> Result<usize, Refusal> {
    let router = network.number(ROUTER, fields.text(1));
    network.links[link].ends.iter().position(|end| Some(*end) == router).ok_or_else(|| unknown("router"))
}

fn set_link_cost(network: &mut Network, fields: &Fields, reply: &mut Reply) -> Done {
    let link = link_named(network, fields)?;
    network.links[link].cost = fields.number(1).unwrap_or(1);
    network.price(link);
    done(reply);
    Ok(())
}

fn report_latency(network: &mut Network, fields: &Fields, reply: &mut Reply) -> Done {
    let link = link_named(network, fields)?;
    let end = end_reporting(network, link, fields)?;
    network.links[link].latencies[end] = fields.number(2).unwrap_or(0);
    network.price(link);
    done(reply);
    Ok(())
}

fn report_state(network: &mut Network, fields: &Fields, reply: &mut Reply) -> Done {
    let link = link_named(network, fields)?;
    end_reporting(network, link, fields)?;
    network.links[link].up = fields.is_true(2);
    network.price(link);
    if !fields.is_true(2) {
        network.lift(link, None);
    }
    done(reply);
    Ok(())
}

fn delete_link(network: &mut Network, fields: &Fields, reply: &mut Reply) -> Done {
    let link = link_named(network, fields)?;
    network.remove_link(link);
    done(reply);
    Ok(())
}

fn set_least_router_cost(network: &mut Network, fields: &Fields, reply: &mut Reply) -> Done {
    let least = fields.number(0).unwrap_or(10);
    network.least_router_cost = least;
    network.places.iter_mut().for_each(|place| place.entry = place.own_cost.max(least));
    done(reply);
    Ok(())
}

// Terminators.

fn precedence(word: &str) -> u8 {
    PRECEDENCES.iter().position(|it| *it == word).unwrap_or(1) as u8
}

fn create_terminator(network: &mut Network, fields: &Fields, reply: &mut Reply) -> Done {
    let service = named(network, SERVICE, fields.text(0), "service")?;
    let router = named(network, ROUTER, fields.text(1), "router")?;
    let host = if fields.has(3) { Some(named(network, IDENTITY, fields.text(3), "host")?) } else { None };
    refuse_if(network.terminators.len() >= 4096 || network.next[1] >= u32::MAX - 1, || full("terminator"))?;
    refuse_if(host.is_some_and(|host| network.count(BIND, host, service) == 0), || refused(26, "NotBindable"))?;
    let (instance, cost, precedence) = (fields.text(2).into(), fields.number(4).unwrap_or(0), precedence(fields.text(5)));
    let number = network.add_terminator(Terminator { number: 0, service, router, host, instance, cost, precedence, circuits: Vec::new() });
    made(reply, number);
    Ok(())
}

fn terminator_numbered(network: &Network, fields: &Fields) -> Result<u32, Refusal> {
    network.terminator_numbers.get(&fields.number(0).unwrap_or(0)).copied().ok_or_else(|| unknown("no"))
}

fn update_terminator(network: &mut Network, fields: &Fields, reply: &mut Reply) -> Done {
    let slot = terminator_numbered(network, fields)?;
    let terminator = &mut network.terminators[slot];
    (terminator.cost, terminator.precedence) = (fields.number(1).unwrap_or(0), precedence(fields.text(2)));
    done(reply);
    Ok(())
}

fn delete_terminator(network: &mut Network, fields: &Fields, reply: &mut Reply) -> Done {
    let slot = terminator_numbered(network, fields)?;
    network.remove_terminator(slot);
    done(reply);
    Ok(())
}

// What is shown.

fn delete_circuit(network: &mut Network, fields: &Fields, reply: &mut Reply) -> Done {
    let slot = network.circuit_numbers.get(&fields.number(0).unwrap_or(0)).copied().ok_or_else(|| unknown("no"))?;
    network.end_circuit(slot);
    done(reply);
    Ok(())
}

fn show_circuit(network: &Network, fields: &Fields, reply: &mut Reply) -> Done {
    let slot = network.circuit_numbers.get(&fields.number(0).unwrap_or(0)).copied().ok_or_else(|| unknown("no"))?;
    let circuit = &network.circuits[slot];
    let name = |kind: usize, slot: u32| &network.entities[kind].rows[slot].name;
    let (identity, ingress) = (name(IDENTITY, circuit.identity), name(ROUTER, circuit.ingress));
    put(reply, &format!("{{\"identity\":\"{identity}\",\"ingress\":\"{ingress}\",\"links\":"));
    put_numbers(reply, circuit.links.iter().map(|(link, _)| network.links[*link].number));
    let (service, terminator) = (name(SERVICE, circuit.service), network.terminators[circuit.terminator].number);
    put(reply, &format!(",\"service\":\"{service}\",\"terminator\":{terminator}}}"));
    Ok(())
}

pub fn put_numbers(reply: &mut Reply, numbers: impl Iterator<Item = u32>) {
    put(reply, "[");
    for (at, number) in numbers.enumerate() {
        if at > 0 {
            put(reply, ",");
        }
        put_number(reply, u64::from(number));
    }
    put(reply, "]");
}

fn put_granted(network: &Network, relation: usize, identity: u32, counts: bool, reply: &mut Reply) {
    let entities = &network.entities[if relation == ENTERS { ROUTER } else { SERVICE }];
    put(reply, "[");
    let granted = entities.order.iter().map(|slot| (*slot, network.count(relation, identity, *slot))).filter(|it| it.1 > 0);
    for (at, (slot, count)) in granted.enumerate() {
        put(reply, if at > 0 { "," } else { "" });
        put(reply, if counts { "[\"" } else { "\"" });
        put(reply, &entities.rows[slot].name);
        put(reply, "\"");
        if counts {
            put(reply, ",");
            put_number(reply, u64::from(count));
            put(reply, "]");
        }
    }
    put(reply, "]");
}

fn show_grants(network: &Network, fields: &Fields, reply: &mut Reply) -> Done {
    let identity = named(network, IDENTITY, fields.text(0), "identity")?;
    for (word, relation) in [("{\"bind\":", BIND), (",\"dial\":", DIAL), (",\"routers\":", ENTERS)] {
        put(reply, word);
        put_granted(network, relation, identity, true, reply);
    }
    put(reply, "}");
    Ok(())
}

fn list_services(network: &Network, fields: &Fields, reply: &mut Reply) -> Done {
    let identity = named(network, IDENTITY, fields.text(0), "identity")?;
    put(reply, "{\"services\":");
    put_granted(network, DIAL, identity, false, reply);
    put(reply, "}");
    Ok(())
}

pub fn show_counts(network: &Network, reply: &mut Reply) -> Done {
    let policies = network.policies.len();
    let rows = [
        ("{\"circuits\":", network.circuits.len()), (",\"grants\":", network.pairs), (",\"identities\":", network.entities[IDENTITY].rows.len()),
        (",\"links\":", network.links.len()), (",\"policies\":", policies), (",\"routers\":", network.entities[ROUTER].rows.len()),
        (",\"services\":", network.entities[SERVICE].rows.len()), (",\"terminators\":", network.terminators.len()),
    ];
    for (word, count) in rows {
        put(reply, word);
        put_number(reply, count as u64);
    }
    put(reply, "}");
    Ok(())
}

/// Carries a command out, settles, and writes the body of its reply.
pub fn answer(network: &mut Network, content: u32, fields: &Fields, reply: &mut Reply) -> Done {
    let kind = (content as usize / 10) % 10;
    let told = match content {
        1000 | 1010 | 1020 => create_entity(network, kind, fields, reply),
        1001 | 1011 | 1021 => update_entity(network, kind, fields, reply),
        1002 | 1012 | 1022 => delete_entity(network, kind, fields, reply),
        1023 | 1024 => connect(network, fields, content == 1023, reply),
        1100 | 1110 | 1120 => put_policy(network, kind, fields, true, reply),
        1101 | 1111 | 1121 => put_policy(network, kind, fields, false, reply),
        1102 | 1112 | 1122 => delete_policy(network, kind, fields, reply),
        1200 => create_link(network, fields, reply),
        1201 => set_link_cost(network, fields, reply),
        1202 => report_latency(network, fields, reply),
        1203 => report_state(network, fields, reply),
        1204 => delete_link(network, fields, reply),
        1210 => set_least_router_cost(network, fields, reply),
        1300 => create_terminator(network, fields, reply),
        1301 => update_terminator(network, fields, reply),
        1302 => delete_terminator(network, fields, reply),
        1400 => routes::create_circuit(network, fields, reply),
        1401 => delete_circuit(network, fields, reply),
        1402 => routes::explain(network, fields, reply),
        1403 => routes::verify(network, fields, reply),
        1500 => show_grants(network, fields, reply),
        1501 => list_services(network, fields, reply),
        1502 => show_counts(network, reply),
        1503 => show_circuit(network, fields, reply),
        _ => {
            done(reply);
            Ok(())
        }
    };
    network.settle();
    network.sweep();
    told
}

pub fn is_permitted(role: u8, own: &str, content: u32, fields: &Fields) -> bool {
    match (role, content) {
        (0, _) => true,
        (1, 1023 | 1024) => fields.text(0) == own,
        (1, 1202 | 1203) => fields.text(1) == own,
        (1, 1300) => fields.text(1) == own && !fields.has(3),
        (2, 1300) => fields.has(3) && fields.text(3) == own,
        (2, 1400 | 1402 | 1500 | 1501) => fields.text(0) == own,
        _ => false,
    }
}

