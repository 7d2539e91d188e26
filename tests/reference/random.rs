//! Repeatable pseudo-random numbers, and networks made of them.

use crate::book::RATE;
use crate::image::{BANDWIDTH, COST, Circuit, Network};

/// The generator splitmix64.
#[derive(Clone)]
pub struct Random {
    state: u64,
}

impl Random {
    pub fn new(seed: u64) -> Random {
        Random { state: seed }
    }

    fn draw(&mut self) -> u64 {
        self.state = self.state.wrapping_add(0x9E37_79B9_7F4A_7C15);
        let mut z = self.state;
        z = (z ^ (z >> 30)).wrapping_mul(0xBF58_476D_1CE4_E5B9);
        z = (z ^ (z >> 27)).wrapping_mul(0x94D0_49BB_1331_11EB);
        z ^ (z >> 31)
    }

    /// A number below `end`, which is at least 1.
    pub fn below(&mut self, end: u32) -> u32 {
        (((self.draw() >> 32) * end as u64) >> 32) as u32
    }

    /// A number from `low` to `high`.
    pub fn between(&mut self, low: u32, high: u32) -> u32 {
        low + self.below(high - low + 1)
    }

    /// True this many times in a hundred.
    pub fn percent(&mut self, percent: u32) -> bool {
        self.below(100) < percent
    }

    pub fn pick<T: Copy>(&mut self, list: &[T]) -> T {
        list[self.below(list.len() as u32) as usize]
    }

    pub fn shuffle<T>(&mut self, list: &mut [T]) {
        for i in (1..list.len()).rev() {
            list.swap(i, self.below(i as u32 + 1) as usize);
        }
    }
}

/// A network with what is worth asking of it.
pub struct Draft {
    pub network: Network,
    pub from: u32,
    pub to: u32,
    /// Rates near which the circuits' bandwidths lie.
    pub rates: Vec<u32>,
}

impl Draft {
    /// Two places: mostly the two ends, sometimes any two, seldom unknown or equal ones.
    pub fn places(&self, random: &mut Random) -> (u32, u32) {
        let places = self.network.places as u32;
        match random.below(100) {
            0..70 => (self.from, self.to),
            70..73 => (self.to, self.from),
            73..96 if places > 0 => (random.below(places), random.below(places)),
            96 => (self.from, self.from),
            97 => (places, self.to),
            98 => (self.from, random.pick(&[places, 65_536, u32::MAX])),
            _ => (random.below(200), random.below(200)),
        }
    }

    /// A rate: mostly near the draft's, seldom out of range.
    pub fn rate(&self, random: &mut Random) -> u32 {
        let near = random.pick(&self.rates);
        match random.below(100) {
            0..75 => near,
            75..80 => near + 1,
            80..85 => near - 1,
            85..90 => random.between(1, RATE),
            90..95 => random.between(1, near.max(1)),
            95 => RATE,
            96 => RATE + 1,
            97 => random.pick(&[0, u32::MAX, 1 << 31, 65_536 * 65_535]),
            _ => random.between(1, 4),
        }
    }
}

/// A draft with at most so many places and circuits, at least 2 and 1.
pub fn draft(random: &mut Random, most_places: usize, most_circuits: usize) -> Draft {
    if random.percent(20) {
        return sized(random, most_places, most_circuits);
    }
    let places = random.between(2, most_places as u32) as usize;
    let fewest = if random.percent(80) { places.min(most_circuits) } else { 1 };
    let circuits = random.between(fewest as u32, most_circuits as u32) as usize;
    sized(random, places, circuits)
}

/// A draft with so many places, and circuits up to this number as its form wants them.
pub fn sized(random: &mut Random, places: usize, circuits: usize) -> Draft {
    let rates: Vec<u32> = (0..random.between(1, 3)).map(|_| some_rate(random)).collect();
    let mut ends = match random.below(10) {
        0 => split(random, places, circuits),
        1 | 2 => chain(random, places, circuits),
        3 | 4 => ladder(random, places, circuits),
        5 | 6 => traps(random, places),
        _ => scatter(random, places, circuits),
    };
    ends.truncate(circuits);
    // Circuits that lead back, so that there are loops.
    if random.percent(30) {
        while ends.len() < circuits {
            let (a, b) = two_places(random, places);
            ends.push((a.max(b), a.min(b)));
        }
    }
    let mut names: Vec<u16> = (0..places as u16).collect();
    if random.percent(50) {
        random.shuffle(&mut names);
    }
    if random.percent(70) {
        random.shuffle(&mut ends);
    }
    // On long routes a few narrow circuits are enough.
    let plenty = if places > 16 { random.pick(&[60, 95, 98, 99, 100]) } else { random.pick(&[0, 20, 60, 90]) };
    let costly = random.pick(&[COST, 9, 3, 0]);
    let circuits = ends
        .iter()
        .map(|&(a, b)| Circuit {
            from: names[a as usize],
            to: names[b as usize],
            bandwidth: some_bandwidth(random, &rates, plenty),
            cost: if random.percent(10) { random.pick(&[0, COST]) } else { random.between(0, costly) },
        })
        .collect();
    let network = Network { places, circuits };
    Draft { network, from: names[0] as u32, to: names[places - 1] as u32, rates }
}

fn some_rate(random: &mut Random) -> u32 {
    match random.below(8) {
        0 => random.between(1, 3),
        1 => random.between(1, 100),
        2 => RATE,
        3 => RATE - random.below(3),
        4 => RATE / 2 + random.below(2),
        _ => random.between(2, RATE),
    }
}

/// Just at, above or below what one route or both need of a rate; or plenty, this many times in a hundred.
fn some_bandwidth(random: &mut Random, rates: &[u32], plenty: u32) -> u32 {
    let rate = random.pick(rates);
    let bandwidth = if random.percent(plenty) {
        match random.below(4) {
            0 => BANDWIDTH,
            1 => random.between(1, BANDWIDTH),
            _ => rate * random.between(2, 40),
        }
    } else {
        let lanes = random.pick(&[1, 1, 2, 2, 2, 3]);
        rate * lanes + random.pick(&[1, 2, 2, 2, 2, 3]) - 2
    };
    bandwidth.clamp(1, BANDWIDTH)
}

fn two_places(random: &mut Random, places: usize) -> (u16, u16) {
    let a = random.below(places as u32);
    let b = (a + 1 + random.below(places as u32 - 1)) % places as u32;
    (a as u16, b as u16)
}

// Each of these gives the ends of circuits over places 0 to `places` - 1, with much between the first and the last.

/// Any two places, often near each other.
fn scatter(random: &mut Random, places: usize, circuits: usize) -> Vec<(u16, u16)> {
    let near = random.percent(50);
    (0..circuits)
        .map(|_| {
            let (a, b) = two_places(random, places);
            if near && a as usize + 1 < places {
                let end = (a as u32 + random.between(1, 4)).min(places as u32 - 1);
                (a, end as u16)
            } else {
                (a, b)
            }
        })
        .collect()
}

/// From each place to the next by one to three circuits.
fn chain(random: &mut Random, places: usize, circuits: usize) -> Vec<(u16, u16)> {
    let single = random.pick(&[0, 10, 50, 100]);
    let mut spare = circuits.saturating_sub(places - 1);
    let mut ends = Vec::new();
    for a in 0..places as u16 - 1 {
        ends.push((a, a + 1));
        if !random.percent(single) {
            let more = random.between(1, 2).min(spare as u32);
            spare -= more as usize;
            ends.extend((0..more).map(|_| (a, a + 1)));
        }
    }
    ends
}

/// Two rails with rungs, and here and there a place that all must pass.
fn ladder(random: &mut Random, places: usize, circuits: usize) -> Vec<(u16, u16)> {
    let mut ends = Vec::new();
    let mut layer = vec![0u16];
    let mut next = 1;
    while next < places as u16 {
        let width = if random.percent(70) { 2 } else { 1 };
        let width = width.min(places as u16 - next);
        let following: Vec<u16> = (next..next + width).collect();
        next += width;
        for (i, &a) in layer.iter().enumerate() {
            for (j, &b) in following.iter().enumerate() {
                if i == j || layer.len() != following.len() || random.percent(30) {
                    ends.push((a, b));
                }
            }
        }
        if following.len() == 2 && random.percent(30) {
            ends.push((following[0], following[1]));
        }
        layer = following;
    }
    if layer.len() == 2 {
        ends.push((layer[0], layer[1]));
    }
    while ends.len() < circuits && random.percent(80) {
        let (a, b) = two_places(random, places);
        ends.push((a, b));
    }
    ends
}

/// One after the other: four places where the first route found may stand in the way of a second.
fn traps(random: &mut Random, places: usize) -> Vec<(u16, u16)> {
    let mut ends = Vec::new();
    let mut a = 0;
    while a + 1 < places as u16 {
        if a + 3 < places as u16 {
            ends.extend([(a, a + 1), (a + 1, a + 2), (a, a + 2), (a + 1, a + 3), (a + 2, a + 3)]);
            a += 3;
        } else {
            ends.push((a, a + 1));
            a += 1;
        }
        if random.percent(20) && a + 1 < places as u16 {
            ends.push((a, a + 1));
            a += 1;
        }
    }
    ends
}

/// Two parts, with circuits from the second to the first alone.
fn split(random: &mut Random, places: usize, circuits: usize) -> Vec<(u16, u16)> {
    let middle = random.between(1, places as u32 - 1) as u16;
    let mut ends = scatter(random, places, circuits);
    ends.retain(|&(a, b)| !(a < middle && b >= middle));
    ends
}
