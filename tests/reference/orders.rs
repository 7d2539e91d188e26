//! Orders and answers as the planner's lines, and a random run of orders.

use crate::book::{self, Answer, Book, Matter, ROOM, Refusal};
use crate::pair::{MODES, Mode};
use crate::random::{Draft, Random};
use crate::scale::{Scale, Value};

#[derive(Clone, Copy, Debug)]
pub enum Order {
    Safest { from: u32, to: u32, rate: u32, mode: Mode },
    Widest { from: u32, to: u32, mode: Mode, limit: Value },
    Book { feed: u32, from: u32, to: u32, rate: u32, mode: Mode, limit: Value },
    Release { feed: u32 },
    Close { notice: u32, circuit: u32 },
    Reopen { notice: u32 },
    Left { circuit: u32 },
    Open { circuit: u32 },
    Uses { feed: u32, circuit: u32 },
}

#[derive(Clone, Debug, PartialEq, Eq)]
pub enum Reply {
    Pair(Answer),
    Done,
    Left(u32),
    Open(bool),
    Uses(u32),
    Refused(Refusal),
}

fn show_mode(mode: Mode) -> &'static str {
    match mode {
        Mode::Both => "1+1",
        Mode::OneAtATime => "1:1",
    }
}

impl Order {
    pub fn show(&self, scale: Scale) -> String {
        match *self {
            Order::Safest { from, to, rate, mode } => format!("safest {from} {to} {rate} {}", show_mode(mode)),
            Order::Widest { from, to, mode, limit } => {
                format!("widest {from} {to} {} {}", show_mode(mode), scale.show(limit))
            }
            Order::Book { feed, from, to, rate, mode, limit } => {
                format!("book {feed} {from} {to} {rate} {} {}", show_mode(mode), scale.show(limit))
            }
            Order::Release { feed } => format!("release {feed}"),
            Order::Close { notice, circuit } => format!("close {notice} {circuit}"),
            Order::Reopen { notice } => format!("reopen {notice}"),
            Order::Left { circuit } => format!("left {circuit}"),
            Order::Open { circuit } => format!("open {circuit}"),
            Order::Uses { feed, circuit } => format!("uses {feed} {circuit}"),
        }
    }

    pub fn read(scale: Scale, line: &str) -> Option<Order> {
        let mut words = line.split(' ');
        let name = words.next()?;
        let order = match name {
            "safest" => Order::Safest {
                from: number(words.next()?)?,
                to: number(words.next()?)?,
                rate: number(words.next()?)?,
                mode: read_mode(words.next()?)?,
            },
            "widest" => Order::Widest {
                from: number(words.next()?)?,
                to: number(words.next()?)?,
                mode: read_mode(words.next()?)?,
                limit: scale.read(words.next()?)?,
            },
            "book" => Order::Book {
                feed: number(words.next()?)?,
                from: number(words.next()?)?,
                to: number(words.next()?)?,
                rate: number(words.next()?)?,
                mode: read_mode(words.next()?)?,
                limit: scale.read(words.next()?)?,
            },
            "release" => Order::Release { feed: number(words.next()?)? },
            "close" => Order::Close { notice: number(words.next()?)?, circuit: number(words.next()?)? },
            "reopen" => Order::Reopen { notice: number(words.next()?)? },
            "left" => Order::Left { circuit: number(words.next()?)? },
            "open" => Order::Open { circuit: number(words.next()?)? },
            "uses" => Order::Uses { feed: number(words.next()?)?, circuit: number(words.next()?)? },
            _ => return None,
        };
        words.next().is_none().then_some(order)
    }
}

fn number(word: &str) -> Option<u32> {
    word.parse().ok()
}

fn read_mode(word: &str) -> Option<Mode> {
    match word {
        "1+1" => Some(Mode::Both),
        "1:1" => Some(Mode::OneAtATime),
        _ => None,
    }
}

impl Reply {
    pub fn show(&self, scale: Scale) -> String {
        match self {
            Reply::Pair(answer) => {
                let list = |route: &[u16]| route.iter().map(u16::to_string).collect::<Vec<_>>().join(",");
                let [first, second] = &answer.pair;
                let cost = scale.show(answer.cost);
                format!("pair rate={} cost={cost} first={} second={}", answer.rate, list(first), list(second))
            }
            Reply::Done => "done".to_string(),
            Reply::Left(left) => format!("left={left}"),
            Reply::Open(open) => format!("open={}", if *open { "yes" } else { "no" }),
            Reply::Uses(uses) => format!("uses={uses}"),
            Reply::Refused(number) => format!("refused {number} {}", book::word(*number)),
        }
    }

    /// Reads a line. A line in any other form than `show` writes is none.
    pub fn read(scale: Scale, line: &str) -> Option<Reply> {
        let reply = if let Some(rest) = line.strip_prefix("pair ") {
            let mut words = rest.split(' ');
            let rate = number(words.next()?.strip_prefix("rate=")?)?;
            let cost = scale.read(words.next()?.strip_prefix("cost=")?)?;
            let list = |text: &str| text.split(',').map(|word| word.parse::<u16>().ok()).collect::<Option<Vec<_>>>();
            let first = list(words.next()?.strip_prefix("first=")?)?;
            let second = list(words.next()?.strip_prefix("second=")?)?;
            Reply::Pair(Answer { rate, cost, pair: [first, second] })
        } else if line == "done" {
            Reply::Done
        } else if let Some(left) = line.strip_prefix("left=") {
            Reply::Left(number(left)?)
        } else if let Some(open) = line.strip_prefix("open=") {
            Reply::Open(open == "yes")
        } else if let Some(uses) = line.strip_prefix("uses=") {
            Reply::Uses(number(uses)?)
        } else {
            let refused = number(line.strip_prefix("refused ")?.split(' ').next()?)?;
            (1..=book::WORDS.len() as u32).contains(&refused).then_some(Reply::Refused(refused))?
        };
        (reply.show(scale) == line).then_some(reply)
    }
}

/// Plays an order, except that a pair that it books is not taken yet: `settle` does that.
pub fn answer(book: &mut Book, order: &Order) -> Reply {
    let rooms = [ROOM; 2];
    let result = match *order {
        Order::Safest { from, to, rate, mode } => book.safest(Matter { from, to, rate, mode, rooms }).map(Reply::Pair),
        Order::Widest { from, to, mode, limit } => book.widest(from, to, mode, limit, rooms).map(Reply::Pair),
        Order::Book { feed, from, to, rate, mode, limit } => {
            book.judge(feed, Matter { from, to, rate, mode, rooms }, limit).map(Reply::Pair)
        }
        Order::Release { feed } => book.release(feed).map(|()| Reply::Done),
        Order::Close { notice, circuit } => book.close(notice, circuit).map(|()| Reply::Done),
        Order::Reopen { notice } => book.reopen(notice).map(|()| Reply::Done),
        Order::Left { circuit } => book.left(circuit).map(Reply::Left),
        Order::Open { circuit } => book.open(circuit).map(Reply::Open),
        Order::Uses { feed, circuit } => book.uses(feed, circuit).map(Reply::Uses),
    };
    result.unwrap_or_else(Reply::Refused)
}

/// Takes the pair of a reply where the order books one.
pub fn settle(book: &mut Book, order: &Order, reply: &Reply) {
    if let (&Order::Book { feed, rate, mode, .. }, Reply::Pair(answer)) = (order, reply) {
        book.take(feed, rate, mode, answer.pair.clone());
    }
}

/// Plays an order and holds another book's reply to it. Where that is a pair it may be any of the least cost, and is
/// the one that is booked.
pub fn follow(book: &mut Book, order: &Order, reply: &Reply) -> Result<(), String> {
    let expected = answer(book, order);
    match (&expected, reply) {
        (Reply::Pair(expected), Reply::Pair(given)) => {
            let (from, to, mode) = match *order {
                Order::Safest { from, to, mode, .. } => (from, to, mode),
                Order::Widest { from, to, mode, .. } => (from, to, mode),
                Order::Book { from, to, mode, .. } => (from, to, mode),
                _ => return Err("a pair answers no such order".to_string()),
            };
            if given.rate != expected.rate {
                return Err(format!("the rate should be {}", expected.rate));
            }
            let cost = book.try_pair(from, to, given.rate, mode, &given.pair)?;
            if cost != expected.cost {
                return Err(format!("the least cost is {}", book.scale.show(expected.cost)));
            }
            if given.cost != cost {
                return Err(format!("the cost of this pair is {}", book.scale.show(cost)));
            }
        }
        _ => {
            if *reply != expected {
                return Err(format!("expected: {}", expected.show(book.scale)));
            }
        }
    }
    settle(book, order, reply);
    Ok(())
}

/// A random run of orders, in phases that fill the book, empty it, close circuits or mix all.
pub struct Run<'a> {
    draft: &'a Draft,
    scale: Scale,
    phase: Phase,
    left_in_phase: u32,
    /// The numbers of feeds and notices that stand unless they were refused.
    feeds: Vec<u32>,
    notices: Vec<u32>,
}

#[derive(Clone, Copy)]
struct Phase {
    /// How often each kind of order comes, in the order of `Order`.
    mix: [u32; 9],
    /// What rates are divided by.
    thin: u32,
    /// The largest number of a feed, and of a notice.
    most_feeds: u32,
    most_notices: u32,
    /// The circuits that most notices name.
    troubled: [u32; 3],
}

const MIXED: [u32; 9] = [8, 4, 8, 6, 1, 2, 1, 1, 2];
const FILLING: [u32; 9] = [3, 2, 20, 2, 1, 2, 1, 1, 1];
const EMPTYING: [u32; 9] = [4, 2, 2, 10, 1, 5, 1, 1, 1];
const CLOSING: [u32; 9] = [4, 2, 4, 3, 6, 3, 1, 3, 1];
const REOPENING: [u32; 9] = [6, 3, 6, 4, 1, 8, 1, 2, 2];

impl<'a> Run<'a> {
    pub fn new(draft: &'a Draft, scale: Scale) -> Run<'a> {
        let phase = Phase { mix: MIXED, thin: 1, most_feeds: 1, most_notices: 1, troubled: [0; 3] };
        Run { draft, scale, phase, left_in_phase: 0, feeds: Vec::new(), notices: Vec::new() }
    }

    pub fn next(&mut self, random: &mut Random) -> Order {
        if self.left_in_phase == 0 {
            self.left_in_phase = random.between(20, 300);
            self.phase = Phase {
                mix: random.pick(&[MIXED, MIXED, MIXED, FILLING, FILLING, EMPTYING, CLOSING, REOPENING, REOPENING]),
                thin: random.pick(&[1, 2, 8, 40, 200, 1000]),
                most_feeds: random.pick(&[12, 34, 40]),
                most_notices: random.pick(&[2, 3, 3, 3, 5, 40]),
                troubled: [(); 3].map(|_| self.circuit(random)),
            };
        }
        self.left_in_phase -= 1;
        let mut kind = 0;
        let mut at = random.below(self.phase.mix.iter().sum());
        while at >= self.phase.mix[kind] {
            at -= self.phase.mix[kind];
            kind += 1;
        }
        let (from, to) = self.draft.places(random);
        let mode = random.pick(&MODES);
        let limit = self.limit(random);
        match kind {
            0 => Order::Safest { from, to, rate: self.rate(random), mode },
            1 => Order::Widest { from, to, mode, limit },
            2 => {
                let feed = fresh(random, &mut self.feeds, self.phase.most_feeds);
                Order::Book { feed, from, to, rate: self.rate(random), mode, limit }
            }
            3 => {
                let feed = standing(random, &self.feeds, self.phase.most_feeds);
                self.feeds.retain(|&known| known != feed);
                Order::Release { feed }
            }
            4 => {
                let notice = fresh(random, &mut self.notices, self.phase.most_notices);
                let circuit = if random.percent(80) { random.pick(&self.phase.troubled) } else { self.circuit(random) };
                Order::Close { notice, circuit }
            }
            5 => {
                let notice = standing(random, &self.notices, self.phase.most_notices);
                self.notices.retain(|&known| known != notice);
                Order::Reopen { notice }
            }
            6 => Order::Left { circuit: self.circuit(random) },
            7 => Order::Open { circuit: self.circuit(random) },
            _ => {
                let feed = standing(random, &self.feeds, self.phase.most_feeds);
                Order::Uses { feed, circuit: self.circuit(random) }
            }
        }
    }

    fn rate(&self, random: &mut Random) -> u32 {
        let rate = self.draft.rate(random);
        if self.phase.thin == 1 || random.percent(10) { rate } else { rate / self.phase.thin + 1 }
    }

    fn circuit(&self, random: &mut Random) -> u32 {
        let circuits = self.draft.network.circuits.len() as u32;
        if circuits == 0 || random.percent(2) {
            random.pick(&[circuits, u32::MAX, 1 << 16])
        } else {
            random.below(circuits)
        }
    }

    fn limit(&self, random: &mut Random) -> Value {
        let total = match random.below(8) {
            0..3 => u32::MAX,
            3 => 0,
            4 => random.between(0, 20),
            _ => {
                let mut sum = 0;
                for _ in 0..random.between(1, 3) {
                    let circuit = self.draft.network.circuits.get(random.below(400) as usize);
                    sum += circuit.map_or(3, |circuit| circuit.cost);
                }
                sum + random.below(2)
            }
        };
        match self.scale {
            Scale::Total | Scale::Worst => Value { count: 0, total },
            Scale::Tally => {
                let count = if random.percent(30) { u16::MAX } else { random.between(0, 4) as u16 };
                Value { count, total }
            }
        }
    }
}

/// A number for a new feed or notice: mostly one that is free.
fn fresh(random: &mut Random, known: &mut Vec<u32>, most: u32) -> u32 {
    let mut number = any_number(random, most);
    if known.contains(&number) && random.percent(90) {
        number = (1..=most).find(|number| !known.contains(number)).unwrap_or(number);
    }
    if !known.contains(&number) {
        known.push(number);
    }
    number
}

/// The number of a feed or a notice: mostly one that stands.
fn standing(random: &mut Random, known: &[u32], most: u32) -> u32 {
    if known.is_empty() || random.percent(10) { any_number(random, most) } else { random.pick(known) }
}

fn any_number(random: &mut Random, most: u32) -> u32 {
    if random.percent(2) { random.pick(&[0, u32::MAX, 1 << 16]) } else { random.between(1, most) }
}
