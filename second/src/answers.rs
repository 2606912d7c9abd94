//! What the calls answer. Numbers and places are those of "Numbers that turn a call away".

pub const LEAST_BOOK: usize = 2;
pub const MOST_BOOK: usize = 4096;
pub const MOST_FIELDS: usize = 8;
pub const MOST_TABLES: usize = 15;
pub const MOST_DEPTH: usize = 32;
pub const MOST_PARTS: usize = 1023;
pub const MOST_CONCURRENCY: usize = 4;
pub const MOST_PACKETS: usize = 16;
pub const MOST_POSITIONS: u64 = 160;
pub const WORK_WORDS: usize = 21_760;
pub const MOST_SCHEDULE: usize = 8192;

pub const BOOK_SIZE: u8 = 1;
pub const HEADER: u8 = 2;
pub const LENGTHS: u8 = 3;
pub const ENTRY_MASKS: u8 = 4;
pub const FORM: u8 = 5;
pub const TOO_LARGE: u8 = 6;
pub const TYPING: u8 = 7;
pub const PACKET_SIZE: u8 = 8;
pub const UNPOPULATED: u8 = 9;
pub const TOO_WIDE: u8 = 10;
pub const TOO_ROOMY: u8 = 11;
pub const BUFFER_SIZE: u8 = 12;
pub const STUCK: u8 = 13;
pub const PROGRAM_INPUT: u8 = 14;

#[derive(Clone, Copy, Debug, PartialEq, Eq)]
pub struct Refusal {
    pub number: u8,
    pub place: usize,
}

impl Refusal {
    /// A refusal whose place is 0: all but 5, 7 and 13.
    pub fn plain(number: u8) -> Refusal {
        Refusal { number, place: 0 }
    }

    pub fn at(number: u8, place: usize) -> Refusal {
        Refusal { number, place }
    }
}

/// k, m, n and D of an accepted book.
#[derive(Clone, Copy, Debug, PartialEq, Eq)]
pub struct Shape {
    pub fields: usize,
    pub tables: usize,
    pub parts: usize,
    pub concurrency: usize,
}

#[derive(Clone, Copy, Debug, PartialEq, Eq)]
pub enum Verdict {
    Accepted(Shape),
    Refused(Refusal),
}

/// The evaluator's answer; the packets stand in the first count·k words of the result.
#[derive(Clone, Copy, Debug, PartialEq, Eq)]
pub enum Evaluated {
    Given {
        count: usize,
        /// N, the number of steps of every full run.
        steps: u64,
        /// n
        parts: usize,
        /// D
        concurrency: usize,
        room: u64,
    },
    Refused(Refusal),
}

/// The step machine's answer; after `Finished` the packets stand in the first count·k words of the
/// result.
#[derive(Clone, Copy, Debug, PartialEq, Eq)]
pub enum Ran {
    Finished { steps: u64, count: usize },
    Running { steps: u64, live: usize, ready: usize },
    Refused(Refusal),
}
