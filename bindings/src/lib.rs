//! The proved policy books for Rust programs: safe calls of the functions of `include/hamstedew.h`. How a book is
//! written, and what the words mean, stands in `docs/FORMAT.md`. Every answer is proved; this crate is not.
//!
//! ```
//! // Two fields, no table: field 0 set to 1 beside field 1 set to 2.
//! let book = [2, 0, 0, 11, 0, 3, 7, 1, 2, 3, 0, 0, 1, 3, 1, 0, 2];
//! let sizes = hamstedew::accept(&book)?;
//! assert_eq!((sizes.fields, sizes.tables, sizes.parts, sizes.deep), (2, 0, 3, 1));
//! assert_eq!(hamstedew::packets(&book, &[5, 9])?, [[1, 2]]);
//!
//! // Both sides write field 0: the place is the code byte of the concurrent part.
//! let book = [2, 0, 0, 11, 0, 3, 7, 1, 1, 3, 0, 0, 1, 3, 0, 0, 2];
//! let refusal = hamstedew::accept(&book).unwrap_err();
//! assert_eq!((refusal.number, refusal.place), (hamstedew::refusal::TYPING, 6));
//! println!("{refusal}");
//! # Ok::<(), hamstedew::Refusal>(())
//! ```
//!
//! A call asks for no memory, except [`packets`], and keeps nothing. It takes stack, up to about 69 KiB, and an accepted
//! book can make one packet cost seconds: `docs/SPEED.md` has both.

mod faces;
pub mod refusal;

use faces::{hamstedew_accept, hamstedew_evaluate, hamstedew_run, Values, ANSWERED, RUNNING};
pub use refusal::Refusal;

/// Bytes of a book.
pub const MOST_BYTES: usize = 4096;
/// Fields of a packet, k.
pub const MOST_FIELDS: usize = 8;
/// Tables of a book, m.
pub const MOST_TABLES: usize = 15;
/// Levels of a body, one part below the other.
pub const MOST_DEPTH: usize = 32;
/// Parts of the main policy, n.
pub const MOST_PARTS: usize = 1023;
/// Concurrent parts on any path down, D.
pub const MOST_CONCURRENT: usize = 4;
/// Packets of a set.
pub const MOST_PACKETS: usize = 16;
/// Positions of a run.
pub const MOST_POSITIONS: usize = 160;

/// Words of a result that is long enough for every book; a book of k fields needs [`MOST_PACKETS`]·k.
pub const RESULT_WORDS: usize = MOST_PACKETS * MOST_FIELDS;
/// Words of a run's working area.
pub const AREA_WORDS: usize = 21_760;

/// What an accepted book says of itself: k, m, n and D.
#[derive(Clone, Copy, Debug, PartialEq, Eq)]
pub struct Sizes {
    pub fields: usize,
    pub tables: usize,
    pub parts: usize,
    pub deep: usize,
}

/// What the evaluator answers beside the packets: their count, N, n, D and the room.
#[derive(Clone, Copy, Debug, PartialEq, Eq)]
pub struct Outcome {
    pub count: usize,
    pub steps: u64,
    pub parts: usize,
    pub deep: usize,
    pub room: u64,
}

/// A run that finished, or one whose schedule ended first.
#[derive(Clone, Copy, Debug, PartialEq, Eq)]
pub enum Ran {
    Finished { steps: usize, count: usize },
    Running { steps: usize, live: usize, ready: usize },
}

/// The verdict on a book.
pub fn accept(book: &[u8]) -> Result<Sizes, Refusal> {
    let mut values = Values::default();
    // Safety: each pointer stands beside the length of its slice, and nothing is kept.
    let code = unsafe { hamstedew_accept(book.as_ptr(), book.len(), values.as_mut_ptr(), values.len()) };
    answered(code, &values)?;
    let [fields, tables, parts, deep, _] = values.map(|value| value as usize);
    Ok(Sizes { fields, tables, parts, deep })
}

/// One packet through a book. The packets given stand in the first `count`·k words of `result`, one after the
/// other, ascending; all other words, and all words after a refusal, are kept.
pub fn evaluate(book: &[u8], packet: &[u16], result: &mut [u16]) -> Result<Outcome, Refusal> {
    let mut values = Values::default();
    // Safety: each pointer stands beside the length of its slice, the slices are apart, and nothing is kept.
    let code = unsafe {
        hamstedew_evaluate(
            book.as_ptr(),
            book.len(),
            packet.as_ptr(),
            packet.len(),
            result.as_mut_ptr(),
            result.len(),
            values.as_mut_ptr(),
            values.len(),
        )
    };
    answered(code, &values)?;
    let [count, steps, parts, deep, room] = values;
    Ok(Outcome { count: count as usize, steps, parts: parts as usize, deep: deep as usize, room })
}

/// The packets that come out for one packet, ascending, in a vector: [`evaluate`] with a result of its own.
pub fn packets(book: &[u8], packet: &[u16]) -> Result<Vec<Vec<u16>>, Refusal> {
    let mut result = [0; RESULT_WORDS];
    let given = evaluate(book, packet, &mut result)?;
    // Packets are given only for a packet of k words.
    Ok(result.chunks_exact(packet.len()).take(given.count).map(<[u16]>::to_vec).collect())
}

/// One packet through a book under a schedule: byte b picks ready position b mod r. Finished, the packets stand in
/// `result` as `evaluate` puts them; running, it is kept. After either, the first [`AREA_WORDS`] words of `area` are
/// zero. All other words, and all words after a refusal, are kept.
pub fn run(
    book: &[u8],
    packet: &[u16],
    schedule: &[u8],
    result: &mut [u16],
    area: &mut [u16],
) -> Result<Ran, Refusal> {
    let mut values = Values::default();
    // Safety: each pointer stands beside the length of its slice, the slices are apart, and nothing is kept.
    let code = unsafe {
        hamstedew_run(
            book.as_ptr(),
            book.len(),
            packet.as_ptr(),
            packet.len(),
            schedule.as_ptr(),
            schedule.len(),
            result.as_mut_ptr(),
            result.len(),
            area.as_mut_ptr(),
            area.len(),
            values.as_mut_ptr(),
            values.len(),
        )
    };
    let [steps, second, third, ..] = values.map(|value| value as usize);
    if code == RUNNING {
        return Ok(Ran::Running { steps, live: second, ready: third });
    }
    answered(code, &values)?;
    Ok(Ran::Finished { steps, count: second })
}

fn answered(code: u64, values: &Values) -> Result<(), Refusal> {
    match code {
        ANSWERED => Ok(()),
        number => Err(Refusal { number: number as u8, place: values[0] as usize }),
    }
}
