//! What routes and pairs are, straight from the definitions (docs/BOOK.md, "Places, circuits and routes").

use crate::image::Network;
use crate::scale::{Scale, Value, ZERO};

#[derive(Clone, Copy, Debug, PartialEq, Eq)]
pub enum Mode {
    /// 1+1: both routes carry the feed at once.
    Both,
    /// 1:1: one route carries it at a time.
    OneAtATime,
}

pub const MODES: [Mode; 2] = [Mode::Both, Mode::OneAtATime];

pub type Route = Vec<u16>;
pub type Pair = [Route; 2];

/// What is wrong with a list of circuits as a route from one place to another; nothing where it is one.
pub fn route_fault(network: &Network, from: u32, to: u32, route: &[u16]) -> Option<String> {
    if route.is_empty() {
        return Some("a route has no circuit".to_string());
    }
    let mut visited = vec![from];
    for &number in route {
        let Some(circuit) = network.circuits.get(number as usize) else {
            return Some(format!("there is no circuit {number}"));
        };
        if Some(&(circuit.from as u32)) != visited.last() {
            return Some(format!("circuit {number} does not start where the route stands"));
        }
        if visited.contains(&(circuit.to as u32)) {
            return Some(format!("circuit {number} leads to a place visited before"));
        }
        visited.push(circuit.to as u32);
    }
    if visited.last() != Some(&to) {
        return Some("a route ends at another place".to_string());
    }
    None
}

/// The bandwidth left and whether it is open, for each circuit.
#[derive(Clone, Debug, PartialEq, Eq)]
pub struct Ledger {
    pub left: Vec<u32>,
    pub open: Vec<bool>,
}

/// Whether a set of routes carries the rate.
pub fn carries(ledger: &Ledger, routes: &[&[u16]], rate: u32, mode: Mode) -> bool {
    routes.iter().flat_map(|route| route.iter()).all(|&number| {
        let users = routes.iter().filter(|route| route.contains(&number)).count() as u64;
        let lanes = match mode {
            Mode::Both => users,
            Mode::OneAtATime => 1,
        };
        let left = ledger.left[number as usize] as u64;
        ledger.open[number as usize] && left >= lanes * rate as u64
    })
}

/// The largest rate that a pair carries; 0 where it carries none.
pub fn bandwidth(ledger: &Ledger, pair: [&[u16]; 2], mode: Mode) -> u32 {
    let [first, second] = pair;
    let one = |&number: &u16| {
        let left = if ledger.open[number as usize] { ledger.left[number as usize] } else { 0 };
        let both = first.contains(&number) && second.contains(&number);
        if both && mode == Mode::Both { left / 2 } else { left }
    };
    first.iter().chain(second).map(one).min().unwrap_or(0)
}

/// The shared cost of a set of routes.
pub fn shared_cost(network: &Network, scale: Scale, routes: &[&[u16]]) -> Value {
    let mut value = ZERO;
    for &number in routes[0] {
        if routes.iter().all(|route| route.contains(&number)) {
            value = scale.join(value, scale.weight(network.circuits[number as usize].cost));
        }
    }
    value
}
