//! The book and its calls (docs/BOOK.md). A refusal is its number (docs/REFUSALS.md).

use crate::flow::Flow;
use crate::image::Network;
use crate::pair::{self, Ledger, Mode, Pair};
use crate::scale::{Scale, Value};
use std::collections::BTreeMap;

pub const RATE: u32 = 1_000_000;
pub const STANDING: usize = 32;
pub const ROOM: usize = 127;

pub type Refusal = u32;

pub const WORDS: [&str; 18] = [
    "short", "mark", "name", "order", "ends", "figure", "full", "tail", "zero", "taken", "unknown", "crowded",
    "places", "rate", "list", "no pair", "limit", "mode",
];

pub fn word(number: Refusal) -> &'static str {
    WORDS[number as usize - 1]
}

#[derive(Clone, Debug, PartialEq, Eq)]
pub struct Answer {
    pub rate: u32,
    pub cost: Value,
    pub pair: Pair,
}

/// What safest asks for. `rooms` are the lengths of the two route lists.
#[derive(Clone, Copy, Debug)]
pub struct Matter {
    pub from: u32,
    pub to: u32,
    pub rate: u32,
    pub mode: Mode,
    pub rooms: [usize; 2],
}

struct Feed {
    rate: u32,
    mode: Mode,
    pair: Pair,
}

impl Feed {
    fn uses(&self, circuit: u16) -> u32 {
        self.pair.iter().filter(|route| route.contains(&circuit)).count() as u32
    }

    /// What the feed takes of a circuit.
    fn takes(&self, circuit: u16) -> u32 {
        match self.mode {
            Mode::Both => self.rate * self.uses(circuit),
            Mode::OneAtATime => self.rate * self.uses(circuit).min(1),
        }
    }
}

pub struct Book {
    pub network: Network,
    pub scale: Scale,
    ledger: Ledger,
    feeds: BTreeMap<u32, Feed>,
    notices: BTreeMap<u32, u16>,
    flow: Flow,
}

fn refuse_if(fails: bool, number: Refusal) -> Result<(), Refusal> {
    if fails { Err(number) } else { Ok(()) }
}

impl Book {
    pub fn new(network: Network, scale: Scale) -> Book {
        let ledger = Ledger {
            left: network.circuits.iter().map(|circuit| circuit.bandwidth).collect(),
            open: vec![true; network.circuits.len()],
        };
        let flow = Flow::new(&network);
        Book { network, scale, ledger, feeds: BTreeMap::new(), notices: BTreeMap::new(), flow }
    }

    pub fn ledger(&self) -> &Ledger {
        &self.ledger
    }

    pub fn feeds(&self) -> impl Iterator<Item = u32> + '_ {
        self.feeds.keys().copied()
    }

    pub fn notices(&self) -> impl Iterator<Item = u32> + '_ {
        self.notices.keys().copied()
    }

    pub fn safest(&mut self, matter: Matter) -> Result<Answer, Refusal> {
        self.check_places(matter.from, matter.to)?;
        refuse_if(matter.rate == 0 || matter.rate > RATE, 14)?;
        check_rooms(matter.rooms)?;
        self.least(matter.from, matter.to, matter.rate, matter.mode).ok_or(16)
    }

    pub fn widest(
        &mut self,
        from: u32,
        to: u32,
        mode: Mode,
        limit: Value,
        rooms: [usize; 2],
    ) -> Result<Answer, Refusal> {
        self.check_places(from, to)?;
        check_rooms(rooms)?;
        let mut best = self.least(from, to, 1, mode).ok_or(16u32)?;
        refuse_if(best.cost > limit, 17)?;
        // Between these rates the same circuits have the same room, so the largest rate is one of them.
        let mut rates = vec![1, RATE];
        for &left in &self.ledger.left {
            rates.push(left);
            rates.push(left / 2);
        }
        rates.retain(|rate| (1..=RATE).contains(rate));
        rates.sort();
        rates.dedup();
        // What carries a rate carries each smaller one at the same cost.
        let (mut low, mut high) = (0, rates.len());
        while high - low > 1 {
            let middle = (low + high) / 2;
            match self.least(from, to, rates[middle], mode) {
                Some(answer) if answer.cost <= limit => {
                    low = middle;
                    best = answer;
                }
                _ => high = middle,
            }
        }
        Ok(best)
    }

    /// Judges a booking and answers as book does, but takes nothing.
    pub fn judge(&mut self, feed: u32, matter: Matter, limit: Value) -> Result<Answer, Refusal> {
        refuse_if(feed == 0, 9)?;
        refuse_if(self.feeds.contains_key(&feed), 10)?;
        refuse_if(self.feeds.len() == STANDING, 12)?;
        let answer = self.safest(matter)?;
        refuse_if(answer.cost > limit, 17)?;
        Ok(answer)
    }

    /// Books a pair that was judged to be right.
    pub fn take(&mut self, number: u32, rate: u32, mode: Mode, pair: Pair) {
        let feed = Feed { rate, mode, pair };
        for (circuit, left) in self.ledger.left.iter_mut().enumerate() {
            *left -= feed.takes(circuit as u16);
        }
        self.feeds.insert(number, feed);
    }

    pub fn book(&mut self, feed: u32, matter: Matter, limit: Value) -> Result<Answer, Refusal> {
        let answer = self.judge(feed, matter, limit)?;
        self.take(feed, matter.rate, matter.mode, answer.pair.clone());
        Ok(answer)
    }

    pub fn release(&mut self, feed: u32) -> Result<(), Refusal> {
        refuse_if(feed == 0, 9)?;
        let feed = self.feeds.remove(&feed).ok_or(11u32)?;
        for (circuit, left) in self.ledger.left.iter_mut().enumerate() {
            *left += feed.takes(circuit as u16);
        }
        Ok(())
    }

    pub fn close(&mut self, notice: u32, circuit: u32) -> Result<(), Refusal> {
        refuse_if(notice == 0, 9)?;
        refuse_if(self.notices.contains_key(&notice), 10)?;
        let circuit = self.known(circuit)?;
        refuse_if(self.notices.len() == STANDING, 12)?;
        self.notices.insert(notice, circuit);
        self.ledger.open[circuit as usize] = false;
        Ok(())
    }

    pub fn reopen(&mut self, notice: u32) -> Result<(), Refusal> {
        refuse_if(notice == 0, 9)?;
        let circuit = self.notices.remove(&notice).ok_or(11u32)?;
        self.ledger.open[circuit as usize] = !self.notices.values().any(|&named| named == circuit);
        Ok(())
    }

    pub fn left(&self, circuit: u32) -> Result<u32, Refusal> {
        let circuit = self.known(circuit)?;
        Ok(self.ledger.left[circuit as usize])
    }

    pub fn open(&self, circuit: u32) -> Result<bool, Refusal> {
        let circuit = self.known(circuit)?;
        Ok(self.ledger.open[circuit as usize])
    }

    pub fn uses(&self, feed: u32, circuit: u32) -> Result<u32, Refusal> {
        refuse_if(feed == 0, 9)?;
        let feed = self.feeds.get(&feed).ok_or(11u32)?;
        Ok(feed.uses(self.known(circuit)?))
    }

    /// The shared cost of a pair that carries the rate between two places, or what is wrong with it.
    pub fn try_pair(&self, from: u32, to: u32, rate: u32, mode: Mode, pair: &Pair) -> Result<Value, String> {
        for route in pair {
            if let Some(fault) = pair::route_fault(&self.network, from, to, route) {
                return Err(fault);
            }
        }
        let routes: [&[u16]; 2] = [&pair[0], &pair[1]];
        if !pair::carries(&self.ledger, &routes, rate, mode) {
            return Err(format!("the pair does not carry {rate}"));
        }
        Ok(pair::shared_cost(&self.network, self.scale, &routes))
    }

    fn check_places(&self, from: u32, to: u32) -> Result<(), Refusal> {
        let places = self.network.places as u32;
        refuse_if(from >= places || to >= places || from == to, 13)
    }

    fn known(&self, circuit: u32) -> Result<u16, Refusal> {
        refuse_if(circuit as usize >= self.network.circuits.len(), 11)?;
        Ok(circuit as u16)
    }

    fn least(&mut self, from: u32, to: u32, rate: u32, mode: Mode) -> Option<Answer> {
        let room = |(&left, &open): (&u32, &bool)| {
            if !open || left < rate {
                0
            } else if mode == Mode::Both && left < 2 * rate {
                1
            } else {
                2
            }
        };
        let lanes: Vec<u8> = self.ledger.left.iter().zip(&self.ledger.open).map(room).collect();
        let (cost, pair) = self.flow.least(self.scale, from as u16, to as u16, &lanes)?;
        Some(Answer { rate, cost, pair })
    }
}

fn check_rooms(rooms: [usize; 2]) -> Result<(), Refusal> {
    refuse_if(rooms.iter().any(|&room| room < ROOM), 15)
}
