//! Compares the planner with the reference on random orders.
//!
//!     planner_compare PLANNER FOLDER ORDERS SEED [SCALE IMAGE]
//!
//! Each round makes a network, or takes the given one, and runs the planner on a file of orders in FOLDER. The
//! reference then plays the same orders. Which of the least-cost pairs is answered is free, so it checks each pair
//! that the planner answered, and books that one.

use reference::book::{Book, Matter, ROOM};
use reference::image::{self, Network};
use reference::orders::{self, Order, Reply, Run};
use reference::pair::Mode;
use reference::random::{self, Draft, Random};
use reference::scale::{SCALES, Scale};
use std::fs::{self, File};
use std::io::{BufWriter, Write};
use std::path::Path;
use std::process::{Command, exit};

/// Orders to a network.
const ROUND: u32 = 1_000;

fn main() {
    let arguments: Vec<String> = std::env::args().skip(1).collect();
    let [planner, folder, count, seed, given @ ..] = &arguments[..] else {
        stop("usage: planner_compare PLANNER FOLDER ORDERS SEED [SCALE IMAGE]");
    };
    let folder = Path::new(folder);
    let count: u32 = count.parse().unwrap_or_else(|_| stop("ORDERS is no number"));
    let seed = seed.parse().unwrap_or_else(|_| stop("SEED is no number"));
    let mut random = Random::new(seed);
    let mut tally = Tally { orders: 0, networks: 0, kinds: Vec::new() };
    while tally.orders < count {
        let orders = ROUND.min(count - tally.orders);
        let (draft, scale, file) = match given {
            [] => {
                let draft = some_draft(&mut random);
                let file = folder.join("image");
                fs::write(&file, image::records(&draft.network).concat())
                    .unwrap_or_else(|error| stop(&error.to_string()));
                (draft, random.pick(&SCALES), file)
            }
            [scale, file] => {
                let scale = Scale::named(scale).unwrap_or_else(|| stop("SCALE is total, worst or tally"));
                let bytes = fs::read(file).unwrap_or_else(|error| stop(&format!("{file}: {error}")));
                let network = image::load(&bytes).unwrap_or_else(|refusal| stop(&format!("{file}: {refusal:?}")));
                (draft_of(&mut random, network), scale, file.into())
            }
            _ => stop("SCALE and IMAGE go together"),
        };
        if let Err(fault) = round(planner, folder, &file, &draft, scale, orders, &mut random, &mut tally) {
            eprintln!("planner: {} {} < {}: {fault}", scale.name(), file.display(), folder.join("orders").display());
            exit(1);
        }
    }
    let kinds: Vec<String> = tally.kinds.iter().map(|(kind, times)| format!("{kind} {times}")).collect();
    println!("planner: {} orders on {} networks, all equal ({})", tally.orders, tally.networks, kinds.join(", "));
}

fn stop(why: &str) -> ! {
    eprintln!("planner_compare: {why}");
    exit(2)
}

struct Tally {
    orders: u32,
    networks: u32,
    /// How often each kind of answer came.
    kinds: Vec<(String, u32)>,
}

impl Tally {
    fn count(&mut self, reply: &Reply) {
        let kind = match reply {
            Reply::Pair(_) => "pair".to_string(),
            Reply::Done => "done".to_string(),
            Reply::Left(_) => "left".to_string(),
            Reply::Open(_) => "open".to_string(),
            Reply::Uses(_) => "uses".to_string(),
            Reply::Refused(number) => format!("refused {number}:"),
        };
        match self.kinds.binary_search_by(|(known, _)| known.cmp(&kind)) {
            Ok(at) => self.kinds[at].1 += 1,
            Err(at) => self.kinds.insert(at, (kind, 1)),
        }
    }
}

fn some_draft(random: &mut Random) -> Draft {
    match random.below(10) {
        0..4 => random::draft(random, 6, 12),
        4..8 => random::draft(random, 24, 60),
        8 => random::draft(random, 48, 140),
        _ => random::draft(random, 128, 384),
    }
}

/// What to ask of a network that was given: between places with a route, where they are soon found.
fn draft_of(random: &mut Random, network: Network) -> Draft {
    let places = network.places.max(2) as u32;
    let mut book = Book::new(network.clone(), Scale::Total);
    let (mut from, mut to) = (0, 1);
    for _ in 0..50 {
        from = random.below(places);
        to = random.below(places);
        if book.safest(Matter { from, to, rate: 1, mode: Mode::OneAtATime, rooms: [ROOM; 2] }).is_ok() {
            break;
        }
    }
    let mut rates: Vec<u32> =
        network.circuits.iter().flat_map(|circuit| [circuit.bandwidth, circuit.bandwidth / 2]).collect();
    rates.retain(|&rate| (1..=1_000_000).contains(&rate));
    rates.push(1_000_000);
    Draft { network, from, to, rates }
}

#[allow(clippy::too_many_arguments)]
fn round(
    planner: &str,
    folder: &Path,
    image: &Path,
    draft: &Draft,
    scale: Scale,
    count: u32,
    random: &mut Random,
    tally: &mut Tally,
) -> Result<(), String> {
    let mut run = Run::new(draft, scale);
    let orders: Vec<Order> = (0..count).map(|_| run.next(random)).collect();
    let answers = ask(planner, folder, image, scale, &orders).map_err(|error| error.to_string())?;
    let mut book = Book::new(draft.network.clone(), scale);
    let mut lines = answers.lines();
    for (number, order) in orders.iter().enumerate() {
        let at = |fault: String| format!("line {}, {}: {fault}", number + 1, order.show(scale));
        let line = lines.next().ok_or_else(|| at("no answer".to_string()))?;
        let reply = Reply::read(scale, line).ok_or_else(|| at(format!("not an answer: {line}")))?;
        orders::follow(&mut book, order, &reply).map_err(|fault| at(format!("{line}: {fault}")))?;
        tally.count(&reply);
    }
    if let Some(line) = lines.next() {
        return Err(format!("a line too many: {line}"));
    }
    tally.orders += count;
    tally.networks += 1;
    Ok(())
}

/// Runs the planner on the orders and gives what it wrote.
fn ask(planner: &str, folder: &Path, image: &Path, scale: Scale, orders: &[Order]) -> std::io::Result<String> {
    let (orders_file, answers_file) = (folder.join("orders"), folder.join("answers"));
    let mut writer = BufWriter::new(File::create(&orders_file)?);
    for order in orders {
        writeln!(writer, "{}", order.show(scale))?;
    }
    writer.flush()?;
    let status = Command::new(planner)
        .arg(scale.name())
        .arg(image)
        .stdin(File::open(&orders_file)?)
        .stdout(File::create(&answers_file)?)
        .status()?;
    if !status.success() {
        return Err(std::io::Error::other(format!("the planner ended with {status}")));
    }
    fs::read_to_string(&answers_file)
}
