//! The least shared cost as the least cost of a flow of two units.
//!
//! Each circuit stands twice: the first copy costs nothing, the second costs the weight of the circuit, and is there
//! only where the circuit has room for both routes. Two units from place to place are two routes, and the second
//! copies that they need are what the routes share. On the scale `worst`, where weights are not added, thresholds are
//! tried: above one, no circuit has a second copy.

use crate::image::Network;
use crate::pair::{Pair, Route};
use crate::scale::{Scale, Value};
use std::collections::VecDeque;

const FAR: i64 = i64::MAX;

/// One step of a path: over a copy of a circuit, along it or back against a unit on it.
#[derive(Clone, Copy)]
struct Step {
    circuit: u16,
    copy: usize,
    along: bool,
}

const NO_STEP: Step = Step { circuit: 0, copy: 0, along: false };

pub struct Flow {
    ends: Vec<(u16, u16)>,
    costs: Vec<u32>,
    out: Vec<Vec<u16>>,
    into: Vec<Vec<u16>>,
    /// 0 and the costs that there are, rising.
    thresholds: Vec<u32>,
    /// Whether each circuit's two copies hold a unit.
    units: Vec<[bool; 2]>,
    distance: Vec<i64>,
    reached: Vec<Step>,
    waiting: VecDeque<u16>,
    queued: Vec<bool>,
}

impl Flow {
    pub fn new(network: &Network) -> Flow {
        let mut out = vec![Vec::new(); network.places];
        let mut into = vec![Vec::new(); network.places];
        for (number, circuit) in network.circuits.iter().enumerate() {
            out[circuit.from as usize].push(number as u16);
            into[circuit.to as usize].push(number as u16);
        }
        let costs: Vec<u32> = network.circuits.iter().map(|circuit| circuit.cost).collect();
        let mut thresholds = costs.clone();
        thresholds.push(0);
        thresholds.sort();
        thresholds.dedup();
        Flow {
            ends: network.circuits.iter().map(|circuit| (circuit.from, circuit.to)).collect(),
            costs,
            out,
            into,
            thresholds,
            units: vec![[false; 2]; network.circuits.len()],
            distance: vec![FAR; network.places],
            reached: vec![NO_STEP; network.places],
            waiting: VecDeque::new(),
            queued: vec![false; network.places],
        }
    }

    /// A pair of least shared cost, and that cost. `lanes` says how many routes each circuit has room for: 0, 1 or 2.
    pub fn least(&mut self, scale: Scale, from: u16, to: u16, lanes: &[u8]) -> Option<(Value, Pair)> {
        match scale {
            Scale::Total => {
                let weights: Vec<i64> = self.costs.iter().map(|&cost| cost as i64).collect();
                let total = self.two_units(from, to, lanes, &weights)?;
                Some((Value { count: 0, total: total as u32 }, self.routes(from, to)))
            }
            Scale::Tally => {
                // All costs together stay below 2^32, so one number holds the count above the total.
                let weights: Vec<i64> = self.costs.iter().map(|&cost| (1 << 32) + cost as i64).collect();
                let both = self.two_units(from, to, lanes, &weights)?;
                let value = Value { count: (both >> 32) as u16, total: both as u32 };
                Some((value, self.routes(from, to)))
            }
            Scale::Worst => {
                let mut high = self.thresholds.len() - 1;
                if !self.within(from, to, lanes, high) {
                    return None;
                }
                let mut low = 0;
                while low < high {
                    let middle = (low + high) / 2;
                    if self.within(from, to, lanes, middle) {
                        high = middle;
                    } else {
                        low = middle + 1;
                    }
                }
                self.within(from, to, lanes, low);
                let value = Value { count: 0, total: self.thresholds[low] };
                Some((value, self.routes(from, to)))
            }
        }
    }

    /// Whether two units pass where only circuits up to a threshold may be shared.
    fn within(&mut self, from: u16, to: u16, lanes: &[u8], threshold: usize) -> bool {
        let most = self.thresholds[threshold];
        let lanes: Vec<u8> = lanes
            .iter()
            .zip(&self.costs)
            .map(|(&lanes, &cost)| if cost > most { lanes.min(1) } else { lanes })
            .collect();
        let weights = vec![0; lanes.len()];
        self.two_units(from, to, &lanes, &weights).is_some()
    }

    /// Sends two units at least cost, and tells the cost.
    fn two_units(&mut self, from: u16, to: u16, lanes: &[u8], weights: &[i64]) -> Option<i64> {
        self.units.fill([false; 2]);
        for _ in 0..2 {
            self.shortest(from, lanes, weights);
            if self.distance[to as usize] == FAR {
                return None;
            }
            let mut place = to;
            while place != from {
                let step = self.reached[place as usize];
                let (start, end) = self.ends[step.circuit as usize];
                self.units[step.circuit as usize][step.copy] = step.along;
                place = if step.along { start } else { end };
            }
        }
        Some(self.units.iter().zip(weights).map(|(units, weight)| if units[1] { *weight } else { 0 }).sum())
    }

    /// The distances from a place, over free copies and back over units, by Bellman and Ford's method with a queue.
    fn shortest(&mut self, from: u16, lanes: &[u8], weights: &[i64]) {
        self.distance.fill(FAR);
        self.distance[from as usize] = 0;
        self.waiting.push_back(from);
        while let Some(place) = self.waiting.pop_front() {
            self.queued[place as usize] = false;
            let here = self.distance[place as usize];
            for i in 0..self.out[place as usize].len() {
                let circuit = self.out[place as usize][i];
                for copy in 0..lanes[circuit as usize] as usize {
                    if !self.units[circuit as usize][copy] {
                        let length = if copy == 1 { weights[circuit as usize] } else { 0 };
                        let end = self.ends[circuit as usize].1;
                        self.reach(end, here + length, Step { circuit, copy, along: true });
                    }
                }
            }
            for i in 0..self.into[place as usize].len() {
                let circuit = self.into[place as usize][i];
                for copy in 0..2 {
                    if self.units[circuit as usize][copy] {
                        let length = if copy == 1 { weights[circuit as usize] } else { 0 };
                        let start = self.ends[circuit as usize].0;
                        self.reach(start, here - length, Step { circuit, copy, along: false });
                    }
                }
            }
        }
    }

    fn reach(&mut self, place: u16, distance: i64, step: Step) {
        let at = place as usize;
        if distance < self.distance[at] {
            self.distance[at] = distance;
            self.reached[at] = step;
            if !self.queued[at] {
                self.queued[at] = true;
                self.waiting.push_back(place);
            }
        }
    }

    /// The two routes of the units, without their loops.
    fn routes(&self, from: u16, to: u16) -> Pair {
        let mut units: Vec<u8> =
            self.units.iter().map(|units| units.iter().filter(|&&unit| unit).count() as u8).collect();
        [(); 2].map(|_| {
            let mut route = Route::new();
            let mut place = from;
            while place != to {
                let next = self.out[place as usize].iter().copied().find(|&circuit| units[circuit as usize] > 0);
                let circuit = next.expect("a unit goes on to its end");
                units[circuit as usize] -= 1;
                route.push(circuit);
                place = self.ends[circuit as usize].1;
                // Back at a place of the route: what lies between is a loop.
                if let Some(i) = route.iter().position(|&circuit| self.ends[circuit as usize].0 == place) {
                    route.truncate(i);
                }
            }
            route
        })
    }
}
