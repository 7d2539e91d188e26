//! The reference as the planner, to test the comparison with: `planner [SCALE [IMAGE]] < orders`.
//!
//! With PLANNER_TASTE=last it answers the last of all least-cost pairs, on small networks. With PLANNER_FAULT=NAME it
//! is wrong in one way, some orders after the start.

use reference::book::{Answer, Book};
use reference::brute::Trial;
use reference::image::{self, Circuit, Network};
use reference::orders::{self, Order, Reply};
use reference::scale::Scale;
use std::io::{BufWriter, Write};

fn main() {
    let mut arguments = std::env::args().skip(1);
    let scale = arguments.next().map_or(Scale::Total, |name| Scale::named(&name).expect("a scale"));
    let network = arguments.next().map_or_else(worked, |file| {
        image::load(&std::fs::read(file).expect("the image is read")).expect("the image loads")
    });
    let last = std::env::var("PLANNER_TASTE").is_ok_and(|taste| taste == "last") && network.places <= 6;
    let fault = std::env::var("PLANNER_FAULT").unwrap_or_default();
    let mut book = Book::new(network, scale);
    let mut output = BufWriter::new(std::io::stdout().lock());
    for (number, line) in std::io::stdin().lines().enumerate() {
        let line = line.expect("a line is read");
        let order = Order::read(scale, &line).expect("an order");
        let mut reply = orders::answer(&mut book, &order);
        if let (true, Reply::Pair(answer)) = (last, &mut reply) {
            other_pair(&book, &order, answer);
        }
        orders::settle(&mut book, &order, &reply);
        let fault = if number > 500 { &fault[..] } else { "" };
        match (&mut reply, fault) {
            (Reply::Pair(answer), "rate") => answer.rate -= 1,
            (Reply::Pair(answer), "cost") => answer.cost.total += 1,
            // A pair that is not the one booked.
            (Reply::Pair(answer), "other") => answer.pair[0] = answer.pair[1].clone(),
            (Reply::Left(left), "left") => *left += 1,
            (Reply::Refused(number), "number") if *number == 17 => *number = 16,
            // A state that is not what the answer says.
            (Reply::Done, "state") => drop(book.close(4_000_000_000, 0)),
            (Reply::Done, "silent") => continue,
            _ => {}
        }
        let shown = reply.show(scale);
        let shown = if fault == "form" { shown.replace("refused", "Refused") } else { shown };
        writeln!(output, "{shown}").expect("a line is written");
    }
}

fn other_pair(book: &Book, order: &Order, answer: &mut Answer) {
    let (from, to, mode) = match *order {
        Order::Safest { from, to, mode, .. } => (from, to, mode),
        Order::Widest { from, to, mode, .. } => (from, to, mode),
        Order::Book { from, to, mode, .. } => (from, to, mode),
        _ => return,
    };
    let pairs = Trial::new(book, from, to).pairs(answer.rate, mode);
    let least = pairs.into_iter().rfind(|(cost, _)| *cost == answer.cost);
    answer.pair = least.expect("a pair").1;
}

/// The network of docs/BOOK.md.
fn worked() -> Network {
    let circuit = |from, to, bandwidth, cost| Circuit { from, to, bandwidth, cost };
    let circuits = vec![
        circuit(0, 1, 40_000, 3),
        circuit(0, 2, 30_000, 5),
        circuit(1, 3, 20_000, 2),
        circuit(2, 3, 50_000, 4),
        circuit(1, 2, 25_000, 1),
    ];
    Network { places: 4, circuits }
}
