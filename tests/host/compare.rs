//! Compares the host's entry with the reference on random and damaged images. Prints the numbers of images and orders.
//! Argument: the number of images.

use reference::host::{self, Call, OUTPUT};
use reference::image::{self, Circuit, Network};
use reference::random::{self, Draft, Random};

unsafe extern "C" {
    fn route_book_safest(
        image: *const u8,
        image_len: usize,
        output: *mut u8,
        output_len: usize,
        from: u32,
        to: u32,
        rate: u32,
        mode: u32,
    ) -> u32;
}

const CANARY: u8 = 0xA5;
const MARGIN: usize = 64;
const ORDERS: u32 = 5;

fn main() {
    let images: u32 = std::env::args().nth(1).map_or(4_000, |count| count.parse().expect("a number of images"));
    let mut random = Random::new(20_251);
    let mut returned = [0u32; 256];
    let mut sharing = 0;
    for number in 0..images {
        let draft = some_draft(&mut random);
        let mut records = some_records(&mut random, &draft.network);
        if random.percent(25) {
            damage_records(&mut random, &mut records);
        }
        let mut bytes = records.concat();
        if random.percent(10) {
            damage_bytes(&mut random, &mut bytes);
        }
        for _ in 0..ORDERS {
            let call = some_call(&mut random, &draft);
            match compare(&bytes, call) {
                Ok((result, cost)) => {
                    returned[result as usize] += 1;
                    sharing += (cost > 0) as u32;
                }
                Err(fault) => {
                    let file = "target/tests/different.image";
                    std::fs::write(file, &bytes).expect("the image is written");
                    eprintln!("compare: image {number} ({file}), {call:?}: {fault}");
                    std::process::exit(1);
                }
            }
        }
    }
    // A run that leaves something out would say little.
    for result in [0, 1, 2, 3, 4, 5, 6, 7, 8, 13, 14, 15, 16, 18] {
        if returned[result] < images / 400 {
            eprintln!("compare: {result} was returned {} times only", returned[result]);
            std::process::exit(1);
        }
    }
    assert!(sharing > images / 4, "{sharing} answers have a shared cost");
    println!("{images} images, {} orders", images * ORDERS);
}

/// What both returned and the cost, or how the answer is wrong.
fn compare(bytes: &[u8], call: Call) -> Result<(u32, u32), String> {
    let given = bytes.to_vec();
    let mut buffer = vec![CANARY; MARGIN + call.output_len + MARGIN];
    // SAFETY: both pointers are to live buffers of these lengths, which do not overlap.
    let result = unsafe {
        let output = buffer[MARGIN..].as_mut_ptr();
        route_book_safest(
            given.as_ptr(),
            given.len(),
            output,
            call.output_len,
            call.from,
            call.to,
            call.rate,
            call.mode,
        )
    };
    if given != bytes {
        return Err("the image has changed".to_string());
    }
    let untouched = |bytes: &[u8]| bytes.iter().all(|&byte| byte == CANARY);
    let output = &buffer[MARGIN..MARGIN + call.output_len];
    if !untouched(&buffer[..MARGIN]) || !untouched(&buffer[MARGIN + call.output_len..]) {
        return Err("bytes outside the output have changed".to_string());
    }
    let (book, expected) = match host::safest(bytes, call) {
        Ok(expected) if result == 0 => expected,
        Ok(_) => return Err(format!("returned {result}, and there is a pair")),
        Err(number) if result != number => return Err(format!("returned {result}, not {number}")),
        Err(_) if !untouched(output) => return Err("a refused call has written to the output".to_string()),
        Err(_) => return Ok((result, 0)),
    };
    let short = |at: usize| u16::from_be_bytes([output[at], output[at + 1]]);
    let (n, m) = (short(0) as usize, short(2) as usize);
    let end = 8 + 2 * (n + m);
    if end > OUTPUT {
        return Err(format!("the routes have {n} and {m} circuits"));
    }
    if !untouched(&output[end..]) {
        return Err("bytes after the answer have changed".to_string());
    }
    let cost = u32::from_be_bytes([output[4], output[5], output[6], output[7]]);
    let circuits: Vec<u16> = (8..end).step_by(2).map(short).collect();
    let pair = [circuits[..n].to_vec(), circuits[n..].to_vec()];
    let mode = host::mode(call.mode).expect("the mode was accepted");
    let shared = book.try_pair(call.from, call.to, call.rate, mode, &pair)?.total;
    if shared != expected.cost.total || cost != shared {
        return Err(format!("told cost {cost}, what {pair:?} share costs {shared}, least {}", expected.cost.total));
    }
    Ok((result, cost))
}

fn some_draft(random: &mut Random) -> Draft {
    match random.below(100) {
        0..60 => random::draft(random, 8, 16),
        60..80 => random::draft(random, 32, 96),
        80..90 => random::draft(random, 128, 384),
        _ => random::sized(random, 128, 384),
    }
}

fn some_call(random: &mut Random, draft: &Draft) -> Call {
    let (from, to) = draft.places(random);
    let mode = if random.percent(2) { random.pick(&[0, 3, 257, 65_538, u32::MAX]) } else { random.between(1, 2) };
    let output_len = match random.below(100) {
        0..90 => OUTPUT,
        90..96 => OUTPUT + random.below(100) as usize,
        96..98 => OUTPUT - 1,
        _ => random.below(OUTPUT as u32) as usize,
    };
    Call { output_len, from, to, rate: draft.rate(random), mode }
}

/// The records of an image, with names of any content.
fn some_records(random: &mut Random, network: &Network) -> Vec<Vec<u8>> {
    let mut records = image::records(network);
    if random.percent(70) {
        let mut names: Vec<Vec<u8>> = Vec::new();
        let marks = random.percent(30);
        while names.len() < network.places {
            let length = if random.percent(20) { 16 } else { random.between(1, 16) };
            let some_byte = |_| if marks { random.pick(b"PLCTEN\x01\x00") } else { random.below(256) as u8 };
            let name: Vec<u8> = (0..length).map(some_byte).collect();
            if !names.contains(&name) {
                records[names.len()] = image::place_record(&name);
                names.push(name);
            }
        }
    }
    records
}

/// Damage to a record or two; it may happen to leave an image.
fn damage_records(random: &mut Random, records: &mut Vec<Vec<u8>>) {
    let last = records.len() as u32 - 1;
    let is_place = |record: &Vec<u8>| record.starts_with(b"PL");
    let places = records.iter().filter(|record| is_place(record)).count() as u32;
    let some_circuit = |random: &mut Random| places + random.below((last - places).max(1));
    match random.below(14) {
        // More records than fit.
        0 => {
            let surplus = (places..random.between(128, 130)).map(|i| image::place_record(&i.to_be_bytes()));
            let surplus: Vec<_> = surplus.collect();
            records.splice(places as usize..places as usize, surplus);
        }
        1 => {
            let circuit = image::circuit_record(&Circuit { from: 0, to: 1, bandwidth: 9, cost: 9 });
            let most = random.between(384, 386);
            let surplus = most.saturating_sub(last - places) as usize;
            records.splice(last as usize..last as usize, vec![circuit; surplus]);
        }
        // A name twice, also in different records' order.
        2 if places > 1 => {
            let (a, b) = (random.below(places), random.below(places));
            records[a as usize] = records[b as usize].clone();
        }
        // A name of a wrong length.
        3 => {
            let length = random.pick(&[0, 17, 17, 255]);
            records[random.below(places) as usize] = image::place_record(&vec![b'x'; length]);
        }
        // Records in another order.
        4 | 5 => {
            let (a, b) = (random.below(last), random.below(last + 1));
            records.swap(a as usize, b as usize);
        }
        // Wrong ends and figures.
        6..9 => {
            let at = some_circuit(random) as usize;
            let (from, to) = random.pick(&[(0, 0), (0, 1), (0, places as u16), (255, 0), (1, 65_535), (0, 256)]);
            let bandwidth = random.pick(&[0, 1, 64_000_000, 64_000_001, u32::MAX, 5]);
            let cost = random.pick(&[0, 1_000_000, 1_000_001, u32::MAX]);
            records[at] = image::circuit_record(&Circuit { from, to, bandwidth, cost });
        }
        // A wrong count, then or not with bytes behind it.
        9 => {
            let count = random.pick(&[last + 1, last.wrapping_sub(1), 0, last ^ 0x100]);
            *records.last_mut().unwrap() = image::end_record(count as usize);
        }
        10 => {
            let more = (0..random.between(1, 20)).map(|_| random.below(256) as u8).collect();
            records.push(more);
        }
        // A record missing, twice, or cut.
        11 => {
            records.remove(random.below(last + 1) as usize);
        }
        12 => {
            let at = random.below(last + 1) as usize;
            records.insert(at, records[at].clone());
        }
        _ => {
            let at = random.below(last + 1) as usize;
            let length = random.below(records[at].len() as u32);
            records[at].truncate(length as usize);
            if random.percent(70) {
                records.truncate(at + 1);
            }
        }
    }
    // Mostly the count is made right, so that it does not stand in for the damage.
    let count = records.len() - 1;
    if random.percent(70) && records[count].starts_with(b"EN") && records[count].len() == 4 {
        let at = random.percent(80);
        records[count] = image::end_record(if at { count } else { count + 1 });
    }
}

/// Bytes changed, cut off, put in or taken out anywhere.
fn damage_bytes(random: &mut Random, bytes: &mut Vec<u8>) {
    for _ in 0..random.between(1, 2) {
        let at = random.below(bytes.len() as u32 + 1) as usize;
        match random.below(5) {
            0 => bytes.truncate(at),
            1 => bytes.insert(at, random.below(256) as u8),
            2 if at < bytes.len() => {
                bytes.remove(at);
            }
            3 if at < bytes.len() => bytes[at] ^= 1 << random.below(8),
            _ if at < bytes.len() => bytes[at] = random.below(256) as u8,
            _ => {}
        }
    }
}
