//! Tests of the reference itself: the worked examples of docs/, and its flows against trying all routes.

use reference::book::{Book, Matter, ROOM};
use reference::brute::Trial;
use reference::image::{self, Circuit, LoadRefusal, Network};
use reference::orders::{self, Order, Reply, Run};
use reference::pair::{self, MODES, Mode};
use reference::random::{self, Random};
use reference::scale::{SCALES, Scale, Value, ZERO};

fn main() {
    images();
    worked_network();
    full_books();
    let compared = against_brute_force(20_000);
    let followed = follows(300);
    println!("reference: {compared} answers as by trying all routes, {followed} orders followed, all right");
}

fn circuit(from: u16, to: u16, bandwidth: u32, cost: u32) -> Circuit {
    Circuit { from, to, bandwidth, cost }
}

fn load_records(records: &[Vec<u8>]) -> Result<Network, LoadRefusal> {
    image::load(&records.concat())
}

fn refused(number: u32, offset: usize) -> Result<Network, LoadRefusal> {
    Err(LoadRefusal { number, offset })
}

/// The image of docs/IMAGE.md, and each check of a load at least once.
fn images() {
    let (a, b) = (image::place_record(b"A"), image::place_record(b"B"));
    let link = circuit(0, 1, 2, 5);
    let line = image::circuit_record(&link);
    let good = [a.clone(), b.clone(), line.clone(), image::end_record(3)].concat();
    assert_eq!(good.len(), 26);
    assert_eq!(image::load(&good), Ok(Network { places: 2, circuits: vec![link] }));
    let mut bad = good.clone();
    bad[25] = 2;
    assert_eq!(image::load(&bad), refused(8, 22));
    assert_eq!(image::load(&[good.clone(), vec![0]].concat()), refused(8, 22));
    assert_eq!(image::load(&image::end_record(0)), Ok(Network { places: 0, circuits: vec![] }));

    // Cut anywhere, an image is short, by the record that the cut is in.
    for length in 0..good.len() {
        let offset = [0, 4, 8, 22].into_iter().filter(|&start| start <= length).max().unwrap();
        assert_eq!(image::load(&good[..length]), refused(1, offset), "{length}");
    }
    assert_eq!(image::load(b"Pl\x01A"), refused(2, 0));
    assert_eq!(load_records(&[a.clone(), vec![0, 0]]), refused(2, 4));
    assert_eq!(load_records(&[a.clone(), image::place_record(b"")]), refused(3, 4));
    assert_eq!(load_records(&[a.clone(), image::place_record(&[65; 17])]), refused(3, 4));
    assert_eq!(load_records(&[a.clone(), b"PL\x11".to_vec()]), refused(3, 4));
    assert_eq!(load_records(&[a.clone(), b.clone(), a.clone()]), refused(3, 8));
    assert_eq!(load_records(&[a.clone(), b.clone(), line.clone(), b"PL".to_vec()]), refused(4, 22));
    for (from, to) in [(0, 0), (0, 2), (2, 0), (2, 2), (0, 256)] {
        let line = image::circuit_record(&circuit(from, to, 0, 5));
        assert_eq!(load_records(&[a.clone(), b.clone(), line]), refused(5, 8));
    }
    for (bandwidth, cost, right) in [
        (0, 5, false),
        (1, 0, true),
        (64_000_000, 1_000_000, true),
        (64_000_001, 5, false),
        (1, 1_000_001, false),
        (u32::MAX, u32::MAX, false),
    ] {
        let line = image::circuit_record(&circuit(0, 1, bandwidth, cost));
        let loaded = load_records(&[a.clone(), b.clone(), line, image::end_record(3)]);
        assert_eq!(loaded.is_ok(), right);
        assert!(right || loaded == refused(6, 8));
    }
    let full = Network { places: 128, circuits: vec![circuit(0, 127, 1, 1); 384] };
    let mut records = image::records(&full);
    assert_eq!(load_records(&records), Ok(full));
    records.pop();
    let length = records.concat().len();
    records.push(b"CT".to_vec());
    assert_eq!(load_records(&records), refused(7, length));
    records.truncate(128);
    let length = records.concat().len();
    records.push(b"PL".to_vec());
    assert_eq!(load_records(&records), refused(7, length));
}

fn worked() -> Network {
    let circuits = vec![
        circuit(0, 1, 40_000, 3),
        circuit(0, 2, 30_000, 5),
        circuit(1, 3, 20_000, 2),
        circuit(2, 3, 50_000, 4),
        circuit(1, 2, 25_000, 1),
    ];
    Network { places: 4, circuits }
}

fn total(total: u32) -> Value {
    Value { count: 0, total }
}

fn matter(rate: u32, mode: Mode) -> Matter {
    Matter { from: 0, to: 3, rate, mode, rooms: [ROOM; 2] }
}

/// The table of docs/BOOK.md, "A network to try it on".
fn worked_network() {
    let mut book = Book::new(worked(), Scale::Total);
    let answer = book.safest(matter(20_000, Mode::OneAtATime)).unwrap();
    let mut routes = answer.pair.clone();
    routes.sort();
    assert_eq!((routes, answer.cost), ([vec![0, 2], vec![1, 3]], ZERO));
    for rate in [21_000, 25_000] {
        let answer = book.safest(matter(rate, Mode::Both)).unwrap();
        let mut routes = answer.pair.clone();
        routes.sort();
        assert_eq!((routes, answer.cost), ([vec![0, 4, 3], vec![1, 3]], total(4)));
    }
    assert_eq!(book.safest(matter(25_001, Mode::Both)), Err(16));
    for (scale, cost) in
        [(Scale::Total, total(9)), (Scale::Worst, total(5)), (Scale::Tally, Value { count: 2, total: 9 })]
    {
        let answer = Book::new(worked(), scale).safest(matter(25_001, Mode::OneAtATime)).unwrap();
        assert_eq!((answer.pair, answer.cost), ([vec![1, 3], vec![1, 3]], cost));
    }
    assert_eq!(book.safest(matter(30_001, Mode::OneAtATime)), Err(16));
    let widest =
        |book: &mut Book, mode, limit| book.widest(0, 3, mode, total(limit), [ROOM; 2]).map(|answer| answer.rate);
    for (limit, rate) in [(3, 20_000), (4, 25_000), (8, 25_000), (9, 30_000)] {
        assert_eq!(widest(&mut book, Mode::OneAtATime, limit), Ok(rate));
    }
    assert_eq!(widest(&mut book, Mode::Both, 9), Ok(25_000));
    book.book(7, matter(20_000, Mode::OneAtATime), ZERO).unwrap();
    assert_eq!(book.ledger().left, [20_000, 10_000, 0, 30_000, 25_000]);
    assert_eq!(book.uses(7, 0), Ok(1));
    assert_eq!(book.uses(7, 4), Ok(0));
    for (limit, rate) in [(0, Err(17)), (7, Ok(10_000)), (8, Ok(20_000))] {
        assert_eq!(widest(&mut book, Mode::OneAtATime, limit), rate);
    }
    assert_eq!(book.close(1, 3), Ok(()));
    assert_eq!(book.close(2, 3), Ok(()));
    assert_eq!(book.reopen(1), Ok(()));
    assert_eq!(book.open(3), Ok(false));
    assert_eq!(book.safest(matter(1, Mode::OneAtATime)), Err(16));
    assert_eq!(book.reopen(2), Ok(()));
    assert_eq!(book.release(7), Ok(()));
    assert_eq!(book.ledger(), Book::new(worked(), Scale::Total).ledger());

    for (bandwidth, expected) in [(1, Err(16)), (7, Ok(3))] {
        let network = Network { places: 2, circuits: vec![circuit(0, 1, bandwidth, 4)] };
        let mut book = Book::new(network, Scale::Total);
        let answer = book.widest(0, 1, Mode::Both, total(4), [ROOM; 2]);
        assert_eq!(answer.map(|answer| answer.rate), expected);
    }
}

/// The checks of each call in their order: each order here fails by all the later checks too.
fn full_books() {
    let network = Network { places: 4, circuits: vec![circuit(0, 3, 64_000_000, 1)] };
    let mut book = Book::new(network, Scale::Total);
    let good = matter(1, Mode::Both);
    let list = Matter { rooms: [127, 126], rate: 1, from: 3, to: 0, mode: Mode::Both };
    let rate = Matter { rate: 1_000_001, ..list };
    let places = Matter { from: 4, ..rate };
    assert_eq!(book.safest(places), Err(13));
    assert_eq!(book.safest(rate), Err(14));
    assert_eq!(book.safest(Matter { rate: 0, ..list }), Err(14));
    assert_eq!(book.safest(list), Err(15));
    assert_eq!(book.safest(Matter { rooms: [127; 2], ..list }), Err(16));
    assert_eq!(book.widest(2, 2, Mode::Both, ZERO, [0; 2]), Err(13));
    assert_eq!(book.widest(3, 0, Mode::Both, ZERO, [126, 127]), Err(15));
    assert_eq!(book.widest(3, 0, Mode::Both, ZERO, [127; 2]), Err(16));
    assert_eq!(book.widest(0, 3, Mode::Both, ZERO, [127; 2]), Err(17));
    assert_eq!(book.widest(0, 3, Mode::Both, total(1), [127; 2]).map(|answer| answer.rate), Ok(1_000_000));
    assert_eq!(book.book(1, good, ZERO), Err(17));
    for feed in 1..=32 {
        book.book(feed, good, total(1)).unwrap();
    }
    for notice in 1..=32 {
        book.close(notice, 0).unwrap();
    }
    assert_eq!(book.book(0, places, ZERO), Err(9));
    assert_eq!(book.book(32, places, ZERO), Err(10));
    assert_eq!(book.book(33, places, ZERO), Err(12));
    assert_eq!(book.release(32), Ok(()));
    assert_eq!(book.book(33, places, ZERO), Err(13));
    assert_eq!(book.book(33, rate, ZERO), Err(14));
    assert_eq!(book.book(33, list, ZERO), Err(15));
    assert_eq!(book.book(33, good, ZERO), Err(16));
    assert_eq!(book.left(0), Ok(64_000_000 - 2 * 31));
    assert_eq!(book.uses(1, 0), Ok(2));
    assert_eq!(book.uses(0, 1), Err(9));
    assert_eq!(book.uses(32, 0), Err(11));
    assert_eq!(book.uses(1, 1), Err(11));
    assert_eq!(book.release(0), Err(9));
    assert_eq!(book.release(32), Err(11));
    assert_eq!(book.close(0, 1), Err(9));
    assert_eq!(book.close(32, 1), Err(10));
    assert_eq!(book.close(33, 1), Err(11));
    assert_eq!(book.close(33, 0), Err(12));
    assert_eq!(book.reopen(0), Err(9));
    assert_eq!(book.reopen(33), Err(11));
    assert_eq!((book.left(1), book.open(1), book.open(0)), (Err(11), Err(11), Ok(false)));
}

/// Safest and widest on small networks, in books with feeds and notices, against trying all routes.
fn against_brute_force(networks: u32) -> u32 {
    let mut random = Random::new(1);
    let mut compared = 0;
    // Pairs that share nothing, pairs that share, no pair, beyond the limit: each must come often.
    let mut seen = [0; 4];
    for _ in 0..networks {
        let draft = random::draft(&mut random, 6, 10);
        let scale = random.pick(&SCALES);
        let mut book = Book::new(draft.network.clone(), scale);
        let mut run = Run::new(&draft, scale);
        for _ in 0..random.pick(&[0, 5, 40]) {
            let order = run.next(&mut random);
            let reply = orders::answer(&mut book, &order);
            orders::settle(&mut book, &order, &reply);
        }
        let (from, to) = draft.places(&mut random);
        if from == to || from.max(to) as usize >= draft.network.places {
            continue;
        }
        for mode in MODES {
            let rate = draft.rate(&mut random).clamp(1, 1_000_000);
            let trial = Trial::new(&book, from, to);
            let least = trial.least(rate, mode);
            // A pair may be promised only if no larger set is cheaper, or carries where none of two does.
            if trial.routes.len() <= 12 {
                let three = trial.least_of_three(rate, mode);
                assert!(three.is_none() || least.is_some_and(|least| least <= three.unwrap()));
            }
            let answer = book.safest(Matter { from, to, rate, mode, rooms: [ROOM; 2] });
            match &answer {
                Ok(answer) => {
                    seen[if answer.cost == ZERO { 0 } else { 1 }] += 1;
                    assert_eq!(Some(answer.cost), least);
                    assert_eq!(book.try_pair(from, to, rate, mode, &answer.pair), Ok(answer.cost));
                    let bandwidth = pair::bandwidth(book.ledger(), [&answer.pair[0], &answer.pair[1]], mode);
                    assert!(bandwidth >= rate);
                }
                Err(number) => {
                    seen[2] += 1;
                    assert_eq!((*number, least), (16, None));
                }
            }
            let near = answer.map_or(ZERO, |answer| answer.cost);
            for limit in [ZERO, near, Value { count: near.count, total: near.total.saturating_sub(1) }] {
                let answer = book.widest(from, to, mode, limit, [ROOM; 2]);
                let trial = Trial::new(&book, from, to);
                let expected = trial.widest(mode, limit);
                seen[3] += if expected == Err(17) { 1 } else { 0 };
                assert_eq!(answer.as_ref().map(|answer| answer.rate).map_err(|number| *number), expected);
                if let Ok(answer) = answer {
                    assert_eq!(Some(answer.cost), trial.least(answer.rate, mode));
                    assert_eq!(book.try_pair(from, to, answer.rate, mode, &answer.pair), Ok(answer.cost));
                }
                compared += 1;
            }
            compared += 1;
        }
    }
    assert!(seen.iter().all(|&times| times > 1_000), "{seen:?}");
    compared
}

/// Two books with different tastes in pairs: the one follows the other. Lines read back as they were written.
fn follows(networks: u32) -> u32 {
    let mut random = Random::new(2);
    let mut followed = 0;
    let mut seen = [0; 19];
    for _ in 0..networks {
        let draft = random::draft(&mut random, 6, 10);
        let scale = random.pick(&SCALES);
        let mut leader = Book::new(draft.network.clone(), scale);
        let mut follower = Book::new(draft.network.clone(), scale);
        let mut run = Run::new(&draft, scale);
        for _ in 0..500 {
            let order = run.next(&mut random);
            assert_eq!(order.show(scale), Order::read(scale, &order.show(scale)).unwrap().show(scale));
            let mut reply = orders::answer(&mut leader, &order);
            if let (Reply::Pair(answer), Order::Book { from, to, rate, mode, .. }) = (&mut reply, order) {
                let pairs = Trial::new(&leader, from, to).pairs(rate, mode);
                let best: Vec<_> = pairs.into_iter().filter(|(cost, _)| *cost == answer.cost).collect();
                answer.pair = best[random.below(best.len() as u32) as usize].1.clone();
            }
            orders::settle(&mut leader, &order, &reply);
            assert_eq!(Reply::read(scale, &reply.show(scale)), Some(reply.clone()));
            assert_eq!(orders::follow(&mut follower, &order, &reply), Ok(()));
            assert_eq!(leader.ledger(), follower.ledger());
            if let Reply::Refused(number) = reply {
                seen[number as usize] += 1;
            }
            followed += 1;
        }
    }
    assert!(seen[9..=14].iter().chain(&seen[16..=17]).all(|&times| times > 20), "{seen:?}");
    followed
}
