//! The same answers by trying all routes and all sets of them: for small networks only.

use crate::book::{Book, RATE};
use crate::image::Network;
use crate::pair::{self, Mode, Pair, Route};
use crate::scale::Value;

/// A book's state, and all routes between two places.
pub struct Trial<'a> {
    book: &'a Book,
    pub routes: Vec<Route>,
}

impl Trial<'_> {
    pub fn new(book: &Book, from: u32, to: u32) -> Trial<'_> {
        let mut walk = Walk { network: &book.network, to, route: Vec::new(), visited: vec![from], found: Vec::new() };
        walk.go_on(from);
        Trial { book, routes: walk.found }
    }

    fn cost(&self, set: &[&[u16]]) -> Value {
        pair::shared_cost(&self.book.network, self.book.scale, set)
    }

    fn all_pairs(&self) -> impl Iterator<Item = [&[u16]; 2]> {
        let routes = &self.routes;
        routes.iter().enumerate().flat_map(|(i, first)| routes[i..].iter().map(move |second| [&first[..], &second[..]]))
    }

    /// All pairs that carry the rate, with their shared costs.
    pub fn pairs(&self, rate: u32, mode: Mode) -> Vec<(Value, Pair)> {
        let carrying = self.all_pairs().filter(|pair| pair::carries(self.book.ledger(), pair, rate, mode));
        carrying.map(|pair| (self.cost(&pair), pair.map(|route| route.to_vec()))).collect()
    }

    /// The least shared cost of a pair that carries the rate.
    pub fn least(&self, rate: u32, mode: Mode) -> Option<Value> {
        self.pairs(rate, mode).into_iter().map(|(cost, _)| cost).min()
    }

    /// The least shared cost of a set of three routes that carries the rate.
    pub fn least_of_three(&self, rate: u32, mode: Mode) -> Option<Value> {
        let mut least: Option<Value> = None;
        for [first, second] in self.all_pairs() {
            for third in &self.routes {
                let set = [first, second, third];
                if pair::carries(self.book.ledger(), &set, rate, mode) {
                    let cost = self.cost(&set);
                    least = Some(least.map_or(cost, |least| least.min(cost)));
                }
            }
        }
        least
    }

    /// The rate that widest answers: the largest bandwidth of the pairs within the limit. Or its refusal, 16 or 17.
    pub fn widest(&self, mode: Mode, limit: Value) -> Result<u32, u32> {
        let (mut some, mut best) = (false, 0);
        for pair in self.all_pairs() {
            let bandwidth = pair::bandwidth(self.book.ledger(), pair, mode).min(RATE);
            some |= bandwidth > 0;
            if self.cost(&pair) <= limit {
                best = best.max(bandwidth);
            }
        }
        match (some, best) {
            (false, _) => Err(16),
            (true, 0) => Err(17),
            (true, best) => Ok(best),
        }
    }
}

/// The search for all routes to a place.
struct Walk<'a> {
    network: &'a Network,
    to: u32,
    route: Route,
    visited: Vec<u32>,
    found: Vec<Route>,
}

impl Walk<'_> {
    fn go_on(&mut self, place: u32) {
        if place == self.to {
            self.found.push(self.route.clone());
            return;
        }
        for (number, circuit) in self.network.circuits.iter().enumerate() {
            let next = circuit.to as u32;
            if circuit.from as u32 == place && !self.visited.contains(&next) {
                self.route.push(number as u16);
                self.visited.push(next);
                self.go_on(next);
                self.visited.pop();
                self.route.pop();
            }
        }
    }
}
