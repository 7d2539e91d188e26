//! The host's entry (docs/HOST.md).

use crate::book::{Answer, Book, Matter, ROOM, Refusal};
use crate::image;
use crate::pair::Mode;
use crate::scale::Scale;

pub const OUTPUT: usize = 8 + 4 * ROOM;

#[derive(Clone, Copy, Debug)]
pub struct Call {
    pub output_len: usize,
    pub from: u32,
    pub to: u32,
    pub rate: u32,
    pub mode: u32,
}

pub fn mode(number: u32) -> Option<Mode> {
    match number {
        1 => Some(Mode::Both),
        2 => Some(Mode::OneAtATime),
        _ => None,
    }
}

/// The answer to a call, with the book that gave it.
pub fn safest(image: &[u8], call: Call) -> Result<(Book, Answer), Refusal> {
    let mode = mode(call.mode).ok_or(18u32)?;
    let network = image::load(image).map_err(|refusal| refusal.number)?;
    let mut book = Book::new(network, Scale::Total);
    // The output is the room for the two lists.
    let room = if call.output_len < OUTPUT { 0 } else { ROOM };
    let matter = Matter { from: call.from, to: call.to, rate: call.rate, mode, rooms: [room; 2] };
    let answer = book.safest(matter)?;
    Ok((book, answer))
}

/// An answer as the bytes of the output.
pub fn written(answer: &Answer) -> Vec<u8> {
    let [first, second] = &answer.pair;
    let mut bytes = Vec::new();
    bytes.extend_from_slice(&(first.len() as u16).to_be_bytes());
    bytes.extend_from_slice(&(second.len() as u16).to_be_bytes());
    bytes.extend_from_slice(&answer.cost.total.to_be_bytes());
    for circuit in first.iter().chain(second) {
        bytes.extend_from_slice(&circuit.to_be_bytes());
    }
    bytes
}
