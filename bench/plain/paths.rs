//! Least paths: Dijkstra's search over an adjacency that is kept.

use crate::network::Network;
use crate::tables::Bits;
use std::cmp::Reverse;
use std::collections::BinaryHeap;

/// Above each cost of a path, and so low that two such numbers have a sum.
pub const NO_PATH: u32 = 1 << 31;

/// A link from one of its ends.
pub struct Hop {
    pub number: u32,
    pub link: u32,
    pub to: u32,
    pub cost: u32,
}

impl Hop {
    pub const DOWN: u32 = NO_PATH;
}

/// A router as paths see it.
#[derive(Default)]
pub struct Place {
    pub hops: Vec<Hop>,
    pub own_cost: u32,
    /// What it costs to enter it: its own cost, or the least one.
    pub entry: u32,
    pub passes: bool,
    pub connected: bool,
    /// Those that enter by it.
    pub circuits: Vec<u32>,
}

impl Network {
    /// The least costs to a place, or `onward` from it, of all places or as far as the nearest ones that all stops have; up to there they are right.
    pub fn search(&self, start: u32, onward: bool, stops: Option<(&Bits, usize)>, costs: &mut Vec<u32>) {
        costs.clear();
        costs.resize(self.places.len(), NO_PATH);
        if !self.places[start as usize].connected {
            return;
        }
        costs[start as usize] = 0;
        let mut left = stops.map_or(usize::MAX, |it| it.1);
        let mut heap = BinaryHeap::from([Reverse(u64::from(start))]);
        while let Some(Reverse(key)) = heap.pop() {
            let (cost, at) = ((key >> 32) as u32, key as u32);
            let place = &self.places[at as usize];
            if costs[at as usize] < cost {
                continue;
            }
            left -= usize::from(stops.is_some_and(|it| it.0.has(at)));
            if left == 0 {
                return;
            }
            if at == start || place.passes {
                self.relax(place, (cost, onward), costs, &mut heap);
            }
        }
    }

    fn relax(&self, place: &Place, (cost, onward): (u32, bool), costs: &mut [u32], heap: &mut BinaryHeap<Reverse<u64>>) {
        for hop in &place.hops {
            let entered = if onward { &self.places[hop.to as usize] } else { place };
            let reach = cost + hop.cost + entered.entry;
            if reach < costs[hop.to as usize] && self.places[hop.to as usize].connected {
                costs[hop.to as usize] = reach;
                heap.push(Reverse(u64::from(reach) << 32 | u64::from(hop.to)));
            }
        }
    }

    /// What a hop costs on the way to a target, if it may be taken.
    pub fn hop_cost(&self, hop: &Hop, target: u32) -> Option<u32> {
        let place = &self.places[hop.to as usize];
        let may = hop.cost != Hop::DOWN && place.connected && (hop.to == target || place.passes);
        may.then(|| hop.cost + place.entry)
    }

    /// The least path, by the numbers of its links among those that cost the same.
    pub fn walk(&self, costs: &[u32], from: u32, target: u32) -> Option<Vec<u32>> {
        let (mut links, mut at) = (Vec::new(), from);
        if costs[from as usize] == NO_PATH || !self.places[from as usize].connected {
            return None;
        }
        while at != target {
            let is_tight = |hop: &&Hop| {
                let left = costs[hop.to as usize];
                left < costs[at as usize] && self.hop_cost(hop, target).is_some_and(|cost| left + cost == costs[at as usize])
            };
            let hop = self.places[at as usize].hops.iter().filter(is_tight).min_by_key(|hop| hop.number).expect("a tight hop");
            links.push(hop.link);
            at = hop.to;
        }
        Some(links)
    }
}
