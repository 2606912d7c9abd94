//! Why a call is turned away.

use std::error::Error;
use std::fmt;

pub const BOOK_LENGTH: u8 = 1;
pub const COUNTS: u8 = 2;
pub const LENGTHS: u8 = 3;
pub const ENTRY_MASKS: u8 = 4;
pub const FORM: u8 = 5;
pub const LIMITS: u8 = 6;
pub const TYPING: u8 = 7;
pub const PACKET_LENGTH: u8 = 8;
pub const UNPOPULATED: u8 = 9;
pub const TOO_WIDE: u8 = 10;
pub const POSITIONS: u8 = 11;
pub const BUFFER_LENGTH: u8 = 12;
pub const STUCK: u8 = 13;

/// Why a call is turned away: one of the numbers above, and a place in the book, 0 but for [`FORM`], [`TYPING`]
/// and [`STUCK`].
#[derive(Clone, Copy, Debug, PartialEq, Eq)]
pub struct Refusal {
    pub number: u8,
    pub place: usize,
}

impl Refusal {
    /// Whether the place is told: where it is not, it is 0 and means nothing.
    pub fn has_place(&self) -> bool {
        matches!(self.number, FORM | TYPING | STUCK)
    }

    /// What the number means, in a few words; `docs/NUMBERS.md` tells more.
    pub fn reason(&self) -> &'static str {
        match self.number {
            BOOK_LENGTH => "the book has fewer than 2 or more than 4,096 bytes",
            COUNTS => "the number of fields is not 1 to 8, or there are more than 15 tables",
            LENGTHS => "header, contents and stated lengths do not add up to the book",
            ENTRY_MASKS => "the masks of an entry overlap or name a field that is not there",
            FORM => "a byte that cannot stand there",
            LIMITS => "more than 1,023 parts, or more than 4 concurrent parts on a path down",
            TYPING => "a concurrent part whose sides could disturb each other, or a body that does not fit its masks",
            PACKET_LENGTH => "the packet has not one word for each field",
            UNPOPULATED => "the main policy names a table that is not populated",
            TOO_WIDE => "some part is handed or gives more than 16 packets",
            POSITIONS => "a run would need more than 160 positions",
            BUFFER_LENGTH => "the result or the working area is too short",
            STUCK => "a step at a field that its position lacks",
            _ => "a number that is not known here",
        }
    }
}

impl fmt::Display for Refusal {
    fn fmt(&self, out: &mut fmt::Formatter<'_>) -> fmt::Result {
        write!(out, "refused by {}", self.number)?;
        if self.has_place() {
            write!(out, " at place {}", self.place)?;
        }
        write!(out, ": {}", self.reason())
    }
}

impl Error for Refusal {}
