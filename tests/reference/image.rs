//! Networks, and the register image that holds one (docs/IMAGE.md).

pub const PLACES: usize = 128;
pub const CIRCUITS: usize = 384;
pub const BANDWIDTH: u32 = 64_000_000;
pub const COST: u32 = 1_000_000;

#[derive(Clone, Copy, Debug, PartialEq, Eq)]
pub struct Circuit {
    pub from: u16,
    pub to: u16,
    pub bandwidth: u32,
    pub cost: u32,
}

#[derive(Clone, Debug, PartialEq, Eq)]
pub struct Network {
    pub places: usize,
    pub circuits: Vec<Circuit>,
}

/// Why a load was refused, and the offset of the record at fault.
#[derive(Clone, Copy, Debug, PartialEq, Eq)]
pub struct LoadRefusal {
    pub number: u32,
    pub offset: usize,
}

fn short(bytes: &[u8], at: usize) -> u16 {
    u16::from_be_bytes([bytes[at], bytes[at + 1]])
}

fn long(bytes: &[u8], at: usize) -> u32 {
    u32::from_be_bytes([bytes[at], bytes[at + 1], bytes[at + 2], bytes[at + 3]])
}

/// The network that an image means, or the first refusal.
pub fn load(image: &[u8]) -> Result<Network, LoadRefusal> {
    let mut names: Vec<&[u8]> = Vec::new();
    let mut circuits: Vec<Circuit> = Vec::new();
    let mut offset = 0;
    loop {
        let rest = &image[offset..];
        let refused = |number| Err(LoadRefusal { number, offset });
        if rest.len() < 2 {
            return refused(1);
        }
        match &rest[..2] {
            b"PL" => {
                if !circuits.is_empty() {
                    return refused(4);
                }
                if names.len() == PLACES {
                    return refused(7);
                }
                let Some(&length) = rest.get(2) else {
                    return refused(1);
                };
                if !(1..=16).contains(&length) {
                    return refused(3);
                }
                let Some(name) = rest.get(3..3 + length as usize) else {
                    return refused(1);
                };
                if names.contains(&name) {
                    return refused(3);
                }
                names.push(name);
                offset += 3 + name.len();
            }
            b"CT" => {
                if circuits.len() == CIRCUITS {
                    return refused(7);
                }
                if rest.len() < 14 {
                    return refused(1);
                }
                let circuit = Circuit {
                    from: short(rest, 2),
                    to: short(rest, 4),
                    bandwidth: long(rest, 6),
                    cost: long(rest, 10),
                };
                let known = |place: u16| (place as usize) < names.len();
                if !known(circuit.from) || !known(circuit.to) || circuit.from == circuit.to {
                    return refused(5);
                }
                if circuit.bandwidth < 1 || circuit.bandwidth > BANDWIDTH || circuit.cost > COST {
                    return refused(6);
                }
                circuits.push(circuit);
                offset += 14;
            }
            b"EN" => {
                if rest.len() < 4 {
                    return refused(1);
                }
                if short(rest, 2) as usize != names.len() + circuits.len() || rest.len() > 4 {
                    return refused(8);
                }
                return Ok(Network { places: names.len(), circuits });
            }
            _ => return refused(2),
        }
    }
}

pub fn place_record(name: &[u8]) -> Vec<u8> {
    let mut record = b"PL".to_vec();
    record.push(name.len() as u8);
    record.extend_from_slice(name);
    record
}

pub fn circuit_record(circuit: &Circuit) -> Vec<u8> {
    let mut record = b"CT".to_vec();
    record.extend_from_slice(&circuit.from.to_be_bytes());
    record.extend_from_slice(&circuit.to.to_be_bytes());
    record.extend_from_slice(&circuit.bandwidth.to_be_bytes());
    record.extend_from_slice(&circuit.cost.to_be_bytes());
    record
}

pub fn end_record(count: usize) -> Vec<u8> {
    let mut record = b"EN".to_vec();
    record.extend_from_slice(&(count as u16).to_be_bytes());
    record
}

/// The records of an image of the network; each place is named by its number.
pub fn records(network: &Network) -> Vec<Vec<u8>> {
    let mut records: Vec<Vec<u8>> = Vec::new();
    for place in 0..network.places {
        records.push(place_record(format!("{place}").as_bytes()));
    }
    records.extend(network.circuits.iter().map(circuit_record));
    records.push(end_record(records.len()));
    records
}
