//! The records of a network with their indexes: members by attribute, counts of pairs in flat rows, circuits by what they stand on.

use crate::paths::{Hop, Place};
use crate::tables::{Bits, Map, Slab, drop_from};
use std::rc::Rc;

pub const IDENTITY: usize = 0;
pub const SERVICE: usize = 1;
pub const ROUTER: usize = 2;
pub const DIAL: usize = 0;
pub const BIND: usize = 1;
pub const ENTERS: usize = 2;
pub const SERVES: usize = 3;
/// The kinds of the two sides of service policies, edge router policies and service edge router policies.
pub const SIDES: [[usize; 2]; 3] = [[IDENTITY, SERVICE], [IDENTITY, ROUTER], [SERVICE, ROUTER]];
pub const ENTITY_LIMITS: [usize; 3] = [2048, 512, 256];
pub const POLICY_LIMITS: [usize; 3] = [512, 256, 256];
const WIDTHS: [usize; 4] = [512, 512, 256, 256];
const LEFTS: [usize; 4] = [2048, 2048, 2048, 512];
const MOST_ATTRIBUTES: usize = 4096;

pub struct Attribute {
    name: Rc<str>,
    uses: u32,
    members: [Bits; 3],
    policies: [Vec<u32>; 3],
}

pub struct Entity {
    pub number: u32,
    pub name: Rc<str>,
    attributes: Vec<u32>,
    named_by: Vec<u32>,
    /// Those that an identity hosts, that a service has, that are on a router.
    pub terminators: Vec<u32>,
}

#[derive(Default)]
pub struct Entities {
    pub rows: Slab<Entity>,
    pub names: Map<Rc<str>, u32>,
    pub next: u32,
    /// Services and routers by their numbers.
    pub order: Vec<u32>,
    present: Bits,
    open_to_all: Vec<u32>,
}

#[derive(Default)]
pub struct Side {
    pub all: bool,
    pub names: Vec<u32>,
    pub attributes: Vec<u32>,
}

pub struct Policy {
    pub kind: usize,
    pub relation: usize,
    pub all_of: bool,
    pub number: u32,
    pub name: Rc<str>,
    pub sides: [Side; 2],
    members: [Bits; 2],
}

pub struct Link {
    pub number: u32,
    pub name: Rc<str>,
    pub ends: [u32; 2],
    pub cost: u32,
    pub latencies: [u32; 2],
    pub up: bool,
    /// Each circuit over it, with the link's place among that circuit's links.
    circuits: Vec<(u32, u32)>,
}

pub struct Terminator {
    pub number: u32,
    pub service: u32,
    pub router: u32,
    pub host: Option<u32>,
    pub instance: Box<str>,
    pub cost: u32,
    pub precedence: u8,
    pub circuits: Vec<u32>,
}

pub struct Circuit {
    pub number: u32,
    pub identity: u32,
    pub service: u32,
    pub terminator: u32,
    pub ingress: u32,
    /// Each link with the circuit's place in its list.
    pub links: Vec<(u32, u32)>,
    places: [u32; 5],
}

#[derive(Default)]
pub struct Network {
    pub entities: [Entities; 3],
    attributes: Slab<Attribute>,
    attribute_names: Map<Rc<str>, u32>,
    in_use: usize,
    idle: Vec<u32>,
    pub policies: Slab<Policy>,
    pub policy_names: [Map<Rc<str>, u32>; 3],
    pub policy_next: [u32; 3],
    counts: [Vec<u16>; 4],
    pub pairs: usize,
    pub links: Slab<Link>,
    pub link_names: Map<Rc<str>, u32>,
    pub places: Vec<Place>,
    pub terminators: Slab<Terminator>,
    pub terminator_numbers: Map<u32, u32>,
    pub circuits: Slab<Circuit>,
    pub circuit_numbers: Map<u32, u32>,
    by_pair: Map<u64, Vec<u32>>,
    pub next: [u32; 3],
    pub least_router_cost: u32,
    fallen: Vec<(usize, u32, u32)>,
    gone: Vec<u32>,
    moved: Vec<u32>,
}

fn pair_key(relation: usize, left: u32, right: u32) -> u64 {
    (relation as u64) << 60 | u64::from(left) << 30 | u64::from(right)
}

// Attributes and grants.

impl Network {
    pub fn number(&self, kind: usize, name: &str) -> Option<u32> {
        self.entities[kind].names.get(name).copied()
    }

    pub fn count(&self, relation: usize, left: u32, right: u32) -> u16 {
        let row = left as usize * WIDTHS[relation];
        self.counts[relation].get(row + right as usize).copied().unwrap_or(0)
    }

    /// The slots of some names, each once, with a use more of each.
    pub fn hold<'n>(&mut self, names: impl Iterator<Item = &'n str>) -> Vec<u32> {
        let mut held = Vec::with_capacity(names.size_hint().0);
        for name in names {
            let slot = match self.attribute_names.get(name) {
                Some(slot) => *slot,
                None => self.add_attribute(name),
            };
            if !held.contains(&slot) {
                self.attributes[slot].uses += 1;
                self.in_use += usize::from(self.attributes[slot].uses == 1);
                held.push(slot);
            }
        }
        held
    }

    fn add_attribute(&mut self, name: &str) -> u32 {
        let name: Rc<str> = name.into();
        let slot = self.attributes.put(Attribute { name: name.clone(), uses: 0, members: Default::default(), policies: Default::default() });
        self.attribute_names.insert(name, slot);
        slot
    }

    pub fn release(&mut self, held: &[u32]) {
        for slot in held {
            self.attributes[*slot].uses -= 1;
            if self.attributes[*slot].uses == 0 {
                self.in_use -= 1;
                self.idle.push(*slot);
            }
        }
    }

    fn hold_again(&mut self, held: &[u32]) {
        for slot in held {
            self.attributes[*slot].uses += 1;
            self.in_use += usize::from(self.attributes[*slot].uses == 1);
        }
    }

    /// Whether the attributes in use are not too many once some are released, which they then are; else others that were held are released.
    pub fn has_room(&mut self, held: &[&[u32]], released: &[&[u32]]) -> bool {
        released.iter().for_each(|it| self.release(it));
        let fits = self.in_use <= MOST_ATTRIBUTES;
        if !fits {
            released.iter().for_each(|it| self.hold_again(it));
            held.iter().for_each(|it| self.release(it));
        }
        fits
    }

    /// Forgets the attributes that nothing uses any more.
    pub fn sweep(&mut self) {
        while let Some(slot) = self.idle.pop() {
            if self.attribute_names.get(&self.attributes[slot].name) == Some(&slot) && self.attributes[slot].uses == 0 {
                let gone = self.attributes.take(slot);
                self.attribute_names.remove(&gone.name);
                self.idle.retain(|it| *it != slot);
            }
        }
    }

    fn is_matched(&self, policy: u32, side: usize, slot: u32) -> bool {
        let policy = &self.policies[policy];
        let (kind, side) = (SIDES[policy.kind][side], &policy.sides[side]);
        let has = |it: &u32| self.attributes[*it].members[kind].has(slot);
        let by_attributes = if policy.all_of { !side.attributes.is_empty() && side.attributes.iter().all(has) } else { side.attributes.iter().any(has) };
        side.all || by_attributes || side.names.contains(&slot)
    }

    fn members_of(&self, kind: usize, all_of: bool, side: &Side) -> Bits {
        if side.all {
            return self.entities[kind].present.clone();
        }
        let mut found = Bits::default();
        for (at, attribute) in side.attributes.iter().enumerate() {
            let members = &self.attributes[*attribute].members[kind];
            if at > 0 && all_of { found.meet(members) } else { found.join(members) }
        }
        side.names.iter().for_each(|slot| found.set(*slot, true));
        found
    }

    fn raise(&mut self, relation: usize, lefts: &[u32], rights: &[u32]) {
        let (counts, width) = (&mut self.counts[relation], WIDTHS[relation]);
        if counts.is_empty() {
            *counts = vec![0; LEFTS[relation] * width];
        }
        for left in lefts {
            let row = &mut counts[*left as usize * width..][..width];
            for right in rights {
                let count = &mut row[*right as usize];
                self.pairs += usize::from(*count == 0);
                *count += 1;
            }
        }
    }

    fn lower(&mut self, relation: usize, lefts: &[u32], rights: &[u32]) {
        let (counts, width) = (&mut self.counts[relation], WIDTHS[relation]);
        let is_watched = self.circuits.len() > 0;
        for left in lefts {
            let row = &mut counts[*left as usize * width..][..width];
            for right in rights {
                let count = &mut row[*right as usize];
                *count -= 1;
                if *count == 0 {
                    self.pairs -= 1;
                    if is_watched {
                        self.fallen.push((relation, *left, *right));
                    }
                }
            }
        }
    }

    /// Turns an entity's membership in the policies that may see a change of it: joins first, so that no pair falls that is granted again.
    fn turn(&mut self, kind: usize, slot: u32, policies: &[u32], stays: bool) {
        let mut left = Vec::new();
        for policy in policies {
            let side = usize::from(SIDES[self.policies[*policy].kind][1] == kind);
            let (was, is) = (self.policies[*policy].members[side].has(slot), stays && self.is_matched(*policy, side, slot));
            if was != is {
                self.policies[*policy].members[side].set(slot, is);
                if is { self.step(*policy, side, slot, true) } else { left.push((*policy, side)) }
            }
        }
        for (policy, side) in left {
            self.step(policy, side, slot, false);
        }
    }

    fn step(&mut self, policy: u32, side: usize, slot: u32, joins: bool) {
        let (relation, others) = (self.policies[policy].relation, self.policies[policy].members[1 - side].list());
        match (joins, side) {
            (true, 0) => self.raise(relation, &[slot], &others),
            (true, _) => self.raise(relation, &others, &[slot]),
            (false, 0) => self.lower(relation, &[slot], &others),
            (false, _) => self.lower(relation, &others, &[slot]),
        }
    }

    fn seen_by(&self, kind: usize, attributes: &[u32]) -> Vec<u32> {
        let mut policies = Vec::new();
        attributes.iter().for_each(|it| policies.extend_from_slice(&self.attributes[*it].policies[kind]));
        policies
    }
}

// Entities.

impl Network {
    pub fn is_full(&self, kind: usize) -> bool {
        self.entities[kind].rows.len() >= ENTITY_LIMITS[kind] || self.entities[kind].next >= u32::MAX - 1
    }

    pub fn add_entity(&mut self, kind: usize, name: &str, attributes: Vec<u32>) -> u32 {
        let entities = &mut self.entities[kind];
        entities.next += 1;
        let (number, name) = (entities.next, Rc::<str>::from(name));
        let mut policies = entities.open_to_all.clone();
        let slot = entities.rows.put(Entity { number, name: name.clone(), attributes: Vec::new(), named_by: Vec::new(), terminators: Vec::new() });
        entities.names.insert(name, slot);
        entities.present.set(slot, true);
        if kind != IDENTITY {
            entities.order.push(slot);
        }
        attributes.iter().for_each(|it| self.attributes[*it].members[kind].set(slot, true));
        policies.extend(self.seen_by(kind, &attributes));
        self.entities[kind].rows[slot].attributes = attributes;
        self.turn(kind, slot, &policies, true);
        slot
    }

    pub fn attributes_of(&self, kind: usize, slot: u32) -> &[u32] {
        &self.entities[kind].rows[slot].attributes
    }

    /// Gives an entity other attributes, which are held already.
    pub fn change_entity(&mut self, kind: usize, slot: u32, attributes: Vec<u32>) {
        let before = std::mem::take(&mut self.entities[kind].rows[slot].attributes);
        let lost: Vec<u32> = before.iter().filter(|it| !attributes.contains(it)).copied().collect();
        let won: Vec<u32> = attributes.iter().filter(|it| !before.contains(it)).copied().collect();
        lost.iter().for_each(|it| self.attributes[*it].members[kind].set(slot, false));
        won.iter().for_each(|it| self.attributes[*it].members[kind].set(slot, true));
        self.entities[kind].rows[slot].attributes = attributes;
        let mut policies = self.seen_by(kind, &won);
        policies.extend(self.seen_by(kind, &lost));
        self.turn(kind, slot, &policies, true);
    }

    pub fn remove_entity(&mut self, kind: usize, slot: u32) {
        let (attributes, named_by) = (self.entities[kind].rows[slot].attributes.clone(), self.entities[kind].rows[slot].named_by.clone());
        let mut policies = self.seen_by(kind, &attributes);
        policies.extend_from_slice(&named_by);
        policies.extend_from_slice(&self.entities[kind].open_to_all);
        self.turn(kind, slot, &policies, false);
        self.revoke_fallen();
        for policy in named_by {
            let side = usize::from(SIDES[self.policies[policy].kind][1] == kind);
            self.policies[policy].sides[side].names.retain(|it| *it != slot);
        }
        attributes.iter().for_each(|it| self.attributes[*it].members[kind].set(slot, false));
        for terminator in self.entities[kind].rows[slot].terminators.clone() {
            self.remove_terminator(terminator);
        }
        self.release(&attributes);
        let entities = &mut self.entities[kind];
        let gone = entities.rows.take(slot);
        entities.names.remove(&gone.name);
        entities.present.set(slot, false);
        entities.order.retain(|it| *it != slot);
    }
}

// Policies.

impl Network {
    pub fn add_policy(&mut self, policy: (usize, usize, bool), number: u32, name: Rc<str>, sides: [Side; 2]) -> u32 {
        let (kind, relation, all_of) = policy;
        let members = [0, 1].map(|side| self.members_of(SIDES[kind][side], all_of, &sides[side]));
        self.raise(relation, &members[0].list(), &members[1].list());
        let slot = self.policies.put(Policy { kind, relation, all_of, number, name: name.clone(), sides, members });
        self.policy_names[kind].insert(name, slot);
        self.list_policy(slot, |list, slot| list.push(slot));
        slot
    }

    pub fn remove_policy(&mut self, slot: u32) -> [Side; 2] {
        self.list_policy(slot, |list, slot| drop_from(list, slot));
        let gone = self.policies.take(slot);
        if self.policy_names[gone.kind].get(&gone.name) == Some(&slot) {
            self.policy_names[gone.kind].remove(&gone.name);
        }
        self.lower(gone.relation, &gone.members[0].list(), &gone.members[1].list());
        gone.sides
    }

    fn list_policy(&mut self, slot: u32, change: fn(&mut Vec<u32>, u32)) {
        let policy = &self.policies[slot];
        for (kind, side) in SIDES[policy.kind].iter().zip(&policy.sides) {
            if side.all {
                change(&mut self.entities[*kind].open_to_all, slot);
            }
            for name in &side.names {
                change(&mut self.entities[*kind].rows[*name].named_by, slot);
            }
            for attribute in &side.attributes {
                change(&mut self.attributes[*attribute].policies[*kind], slot);
            }
        }
    }
}

// Links and terminators.

impl Network {
    pub fn add_link(&mut self, name: &str, ends: [u32; 2], cost: u32, latencies: [u32; 2]) -> u32 {
        self.next[0] += 1;
        let (number, name) = (self.next[0], Rc::<str>::from(name));
        let link = self.links.put(Link { number, name: name.clone(), ends, cost, latencies, up: true, circuits: Vec::new() });
        self.link_names.insert(name, link);
        for at in [0, 1] {
            let hop = Hop { number, link, to: ends[1 - at], cost: cost + latencies[0] + latencies[1] };
            self.places[ends[at] as usize].hops.push(hop);
        }
        number
    }

    /// Tells the hops of a link what it costs now, or that it is down.
    pub fn price(&mut self, slot: u32) {
        let link = &self.links[slot];
        let cost = if link.up { link.cost + link.latencies[0] + link.latencies[1] } else { Hop::DOWN };
        for end in link.ends {
            let hop = self.places[end as usize].hops.iter_mut().find(|hop| hop.link == slot);
            hop.expect("a hop").cost = cost;
        }
    }

    pub fn remove_link(&mut self, slot: u32) {
        self.lift(slot, None);
        let gone = self.links.take(slot);
        self.link_names.remove(&gone.name);
        for end in gone.ends {
            self.places[end as usize].hops.retain(|hop| hop.link != slot);
        }
    }

    pub fn add_terminator(&mut self, terminator: Terminator) -> u32 {
        self.next[1] += 1;
        let (service, router, host) = (terminator.service, terminator.router, terminator.host);
        let slot = self.terminators.put(Terminator { number: self.next[1], ..terminator });
        self.entities[SERVICE].rows[service].terminators.push(slot);
        self.entities[ROUTER].rows[router].terminators.push(slot);
        host.into_iter().for_each(|host| self.entities[IDENTITY].rows[host].terminators.push(slot));
        self.terminator_numbers.insert(self.next[1], slot);
        self.next[1]
    }

    pub fn remove_terminator(&mut self, slot: u32) {
        for circuit in self.terminators[slot].circuits.clone() {
            self.end_circuit(circuit);
        }
        let gone = self.terminators.take(slot);
        self.terminator_numbers.remove(&gone.number);
        drop_from(&mut self.entities[SERVICE].rows[gone.service].terminators, slot);
        drop_from(&mut self.entities[ROUTER].rows[gone.router].terminators, slot);
        gone.host.into_iter().for_each(|host| drop_from(&mut self.entities[IDENTITY].rows[host].terminators, slot));
    }

    pub fn is_shared(&self, identity: u32, service: u32, router: u32) -> bool {
        self.count(ENTERS, identity, router) > 0 && self.count(SERVES, service, router) > 0
    }

    pub fn is_admissible(&self, terminator: &Terminator) -> bool {
        let (service, router) = (terminator.service, terminator.router);
        let hosts = |host| self.count(BIND, host, service) > 0 && self.is_shared(host, service, router);
        self.places[router as usize].connected && terminator.host.is_none_or(hosts)
    }
}

// Circuits.

impl Network {
    fn keys(identity: u32, service: u32, ingress: u32) -> [u64; 3] {
        [pair_key(DIAL, identity, service), pair_key(ENTERS, identity, ingress), pair_key(SERVES, service, ingress)]
    }

    pub fn add_circuit(&mut self, ends: (u32, u32, u32, u32), links: &[u32]) -> u32 {
        let (identity, service, terminator, ingress) = ends;
        self.next[2] += 1;
        let number = self.next[2];
        let slot = self.circuits.put(Circuit { number, identity, service, terminator, ingress, links: Vec::new(), places: [0; 5] });
        let mut places = [0; 5];
        for (place, key) in places.iter_mut().zip(Self::keys(identity, service, ingress)) {
            *place = push(self.by_pair.entry(key).or_default(), slot);
        }
        places[3] = push(&mut self.terminators[terminator].circuits, slot);
        places[4] = push(&mut self.places[ingress as usize].circuits, slot);
        self.circuits[slot].places = places;
        self.circuit_numbers.insert(number, slot);
        self.lay(slot, links);
        number
    }

    fn lay(&mut self, slot: u32, links: &[u32]) {
        let circuit = &mut self.circuits[slot];
        circuit.links.reserve(links.len());
        for (at, link) in links.iter().enumerate() {
            let over = &mut self.links[*link].circuits;
            circuit.links.push((*link, over.len() as u32));
            over.push((slot, at as u32));
        }
    }

    /// Takes a circuit off its links.
    fn unlay(&mut self, slot: u32) {
        for (link, place) in std::mem::take(&mut self.circuits[slot].links) {
            let over = &mut self.links[link].circuits;
            over.swap_remove(place as usize);
            if let Some((moved, at)) = over.get(place as usize).copied() {
                self.circuits[moved].links[at as usize].1 = place;
            }
        }
    }

    pub fn end_circuit(&mut self, slot: u32) {
        self.unlay(slot);
        let gone = self.circuits.take(slot);
        self.circuit_numbers.remove(&gone.number);
        for (at, key) in Self::keys(gone.identity, gone.service, gone.ingress).into_iter().enumerate() {
            unlist(self.by_pair.get_mut(&key).expect("a list"), &mut self.circuits, gone.places[at], at);
        }
        unlist(&mut self.terminators[gone.terminator].circuits, &mut self.circuits, gone.places[3], 3);
        unlist(&mut self.places[gone.ingress as usize].circuits, &mut self.circuits, gone.places[4], 4);
    }

    /// Takes the circuits off a link that has failed, all or those that pass a router between their ends; settling finds them another way.
    pub fn lift(&mut self, link: u32, passing: Option<u32>) {
        for (slot, _) in self.links[link].circuits.clone() {
            let circuit = &self.circuits[slot];
            let ends = [circuit.ingress, self.terminators[circuit.terminator].router];
            if passing.is_none_or(|router| !ends.contains(&router)) {
                self.unlay(slot);
                self.moved.push(slot);
            }
        }
    }

    pub fn end_at_router(&mut self, router: u32) {
        let mut gone = self.places[router as usize].circuits.clone();
        let terminators = &self.entities[ROUTER].rows[router].terminators;
        terminators.iter().for_each(|it| gone.extend_from_slice(&self.terminators[*it].circuits));
        self.gone.append(&mut gone);
    }

    /// Ends the circuits that are granted no more, and finds those that lost a link another way.
    pub fn settle(&mut self) {
        self.revoke_fallen();
        if !self.moved.is_empty() {
            self.reroute();
        }
    }

    fn revoke_fallen(&mut self) {
        for (relation, left, right) in std::mem::take(&mut self.fallen) {
            self.revoke(relation, left, right);
        }
        for slot in std::mem::take(&mut self.gone) {
            if self.circuits.holds(slot) {
                self.end_circuit(slot);
            }
        }
    }

    fn revoke(&mut self, relation: usize, left: u32, right: u32) {
        if let Some(list) = self.by_pair.get(&pair_key(relation, left, right)).filter(|_| relation != BIND) {
            self.gone.extend_from_slice(list);
        }
        let hosted: &[u32] = match relation {
            DIAL => &[],
            SERVES => &self.entities[SERVICE].rows[left].terminators,
            _ => &self.entities[IDENTITY].rows[left].terminators,
        };
        for slot in hosted {
            let terminator = &self.terminators[*slot];
            let other = if relation == BIND { terminator.service } else { terminator.router };
            if other == right && terminator.host.is_some() {
                self.gone.extend_from_slice(&terminator.circuits);
            }
        }
    }

    fn reroute(&mut self) {
        let mut moved = std::mem::take(&mut self.moved);
        moved.retain(|slot| self.circuits.holds(*slot));
        let ends = |network: &Network, slot: u32| (network.terminators[network.circuits[slot].terminator].router, network.circuits[slot].ingress);
        moved.sort_unstable_by_key(|slot| ends(self, *slot));
        let (mut costs, mut known, mut path) = (Vec::new(), None, None);
        for slot in moved {
            let (target, ingress) = ends(self, slot);
            if known.map(|it: (u32, u32)| it.0) != Some(target) {
                self.search(target, false, None, &mut costs);
            }
            if known != Some((target, ingress)) {
                path = self.walk(&costs, ingress, target);
            }
            known = Some((target, ingress));
            match &path {
                Some(links) => self.lay(slot, links),
                None => self.end_circuit(slot),
            }
        }
    }
}

fn push(list: &mut Vec<u32>, slot: u32) -> u32 {
    list.push(slot);
    list.len() as u32 - 1
}

fn unlist(list: &mut Vec<u32>, circuits: &mut Slab<Circuit>, place: u32, which: usize) {
    list.swap_remove(place as usize);
    if let Some(moved) = list.get(place as usize) {
        circuits[*moved].places[which] = place;
    }
}
