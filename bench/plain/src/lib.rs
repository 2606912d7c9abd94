//! The plain program: document 01 in plain Rust, written to be fast, which the proved functions are timed against. It asks
//! for no memory and has no dependency; nothing of it is proved, and the benchmark holds its answers to the proved ones.
//! The calls are named and answer as those of `bindings/`; number 13 is never given, for the typing excludes it.
#![deny(unsafe_code)]

#[allow(unsafe_code)]
mod book;
mod evaluate;
mod machine;
#[allow(unsafe_code)]
mod packets;

pub use machine::{AREA_WORDS, MOST_POSITIONS};

use book::{Book, Seconds};
use evaluate::{Cost, Set, Walk};
use packets::{pack, unpack, Cell, Raw, MOST_PACKETS};

/// Why a call is turned away: the number, and the place in the book, 0 where none is told.
#[derive(Clone, Copy, Debug, PartialEq, Eq)]
pub struct Refusal {
    pub number: u8,
    pub place: u16,
}

/// What an accepted book says of itself: k, m, n and D.
#[derive(Clone, Copy, Debug, PartialEq, Eq)]
pub struct Sizes {
    pub fields: u8,
    pub tables: u8,
    pub parts: u16,
    pub deep: u8,
}

/// What the evaluator answers beside the packets: their count, N, n, D and the room.
#[derive(Clone, Copy, Debug, PartialEq, Eq)]
pub struct Outcome {
    pub count: usize,
    pub steps: u32,
    pub parts: u16,
    pub deep: u8,
    pub room: u32,
}

/// A run that finished, or one whose schedule ended first.
#[derive(Clone, Copy, Debug, PartialEq, Eq)]
pub enum Ran {
    Finished { steps: usize, count: usize },
    Running { steps: usize, live: usize, ready: usize },
}

#[inline]
fn refused<T>(number: u8) -> Result<T, Refusal> {
    Err(Refusal { number, place: 0 })
}

/// The verdict on a book: numbers 1 to 7.
pub fn accept(bytes: &[u8]) -> Result<Sizes, Refusal> {
    Ok(book::read::<false>(bytes, &mut Seconds::new())?.sizes)
}

/// The packets given, in the first `count`·k words of the result.
pub fn evaluate(bytes: &[u8], packet: &[u16], result: &mut [u16]) -> Result<Outcome, Refusal> {
    let book = book::read::<false>(bytes, &mut Seconds::new())?;
    let Sizes { fields, parts, deep, .. } = book.sizes;
    if packet.len() != fields as usize {
        return refused(8);
    }
    if result.len() < MOST_PACKETS * fields as usize {
        return refused(12);
    }
    let mut set = Set::new();
    let cost = give(bytes, &book, packet, &mut set)?;
    write(&set.packets[..set.count], fields as usize, result);
    Ok(Outcome { count: set.count, steps: cost.steps(), parts, deep, room: cost.room() })
}

/// Runs the book on the packet under the schedule; the area is zero afterwards.
pub fn run(
    bytes: &[u8],
    packet: &[u16],
    schedule: &[u8],
    result: &mut [u16],
    area: &mut [u16],
) -> Result<Ran, Refusal> {
    let mut seconds = Seconds::new();
    let book = book::read::<true>(bytes, &mut seconds)?;
    let fields = book.sizes.fields as usize;
    if packet.len() != fields {
        return refused(8);
    }
    let Some(area) = area.first_chunk_mut::<AREA_WORDS>() else { return refused(12) };
    if result.len() < MOST_PACKETS * fields {
        return refused(12);
    }
    let mut set = Set::new();
    let cost = give(bytes, &book, packet, &mut set)?;
    if cost.room() > MOST_POSITIONS as u32 {
        return refused(11);
    }
    let ran = machine::run(bytes, &book.start, &seconds, pack(packet), schedule, area, &mut set.packets);
    area.fill(0);
    if let Ran::Finished { count, .. } = ran {
        write(&set.packets[..count], fields, result);
    }
    Ok(ran)
}

/// Numbers 9 and 10, or the packets with their cost.
fn give(bytes: &[u8], book: &Book, packet: &[u16], set: &mut Set) -> Result<Cost, Refusal> {
    if book.names_blank {
        return refused(9);
    }
    let walk = Walk { book: bytes, start: &book.start };
    match walk.one(book.start[0] as usize, pack(packet), set) {
        Some(cost) => Ok(cost),
        None => refused(10),
    }
}

fn write(packets: &[Raw], fields: usize, result: &mut [u16]) {
    for (packet, words) in packets.iter().zip(result.chunks_exact_mut(fields)) {
        unpack(packet.get(), words);
    }
}
