//! The evaluator: direct recursion over the bytes of an accepted book, the set changed in place.

use crate::answers::*;
use crate::book::{self, Book};
use crate::codes::*;
use crate::sets::{packet_from_words, without, Packet, Set, TooWide};

/// The set for one packet, with N, n, D and the room; or a refusal that leaves `result` as it was.
pub fn evaluate(bytes: &[u8], packet: &[u16], result: &mut [u16]) -> Evaluated {
    match try_evaluate(bytes, packet, result) {
        Ok(given) => given,
        Err(refusal) => Evaluated::Refused(refusal),
    }
}

fn try_evaluate(bytes: &[u8], packet: &[u16], result: &mut [u16]) -> Result<Evaluated, Refusal> {
    let book = book::read(bytes)?;
    let fields = book.shape.fields;
    check_packet(&book, packet)?;
    check_buffer(result.len() >= MOST_PACKETS * fields)?;
    let outcome = work_through(&book, packet)?;
    write_packets(&outcome.set, fields, result);
    Ok(Evaluated::Given {
        count: outcome.set.count(),
        steps: outcome.steps,
        parts: book.shape.parts,
        concurrency: book.shape.concurrency,
        room: outcome.room,
    })
}

/// Refusal 8.
pub fn check_packet(book: &Book, packet: &[u16]) -> Result<(), Refusal> {
    if packet.len() != book.shape.fields {
        return Err(Refusal::plain(PACKET_SIZE));
    }
    Ok(())
}

/// Refusal 12.
pub fn check_buffer(is_long_enough: bool) -> Result<(), Refusal> {
    if !is_long_enough {
        return Err(Refusal::plain(BUFFER_SIZE));
    }
    Ok(())
}

/// Puts the packets into the first words of the result and keeps the others.
pub fn write_packets(set: &Set, fields: usize, result: &mut [u16]) {
    for (words, packet) in result.chunks_exact_mut(fields).zip(set.packets()) {
        words.copy_from_slice(&packet[..fields]);
    }
}

/// What working through the parts leads to.
pub struct Outcome {
    pub set: Set,
    pub steps: u64,
    pub room: u64,
}

/// Works through the main policy; refusals 9 and 10.
pub fn work_through(book: &Book, packet: &[u16]) -> Result<Outcome, Refusal> {
    if book.names_unpopulated {
        return Err(Refusal::plain(UNPOPULATED));
    }
    let mut set = Set::one(packet_from_words(packet));
    let mut worker = Worker { book, at: book.body_start(0), steps: 0 };
    match worker.part(&mut set) {
        Ok(room) => Ok(Outcome { set, steps: worker.steps, room }),
        Err(TooWide) => Err(Refusal::plain(TOO_WIDE)),
    }
}

struct Worker<'a> {
    book: &'a Book<'a>,
    /// The next byte to read.
    at: usize,
    steps: u64,
}

impl Worker<'_> {
    /// Turns the set handed to the part at `at` into the set it gives, moves `at` behind the part, and
    /// answers the room.
    fn part(&mut self, set: &mut Set) -> Result<u64, TooWide> {
        let bytes = self.book.bytes;
        let place = self.at;
        self.at += 1;
        match bytes[place] {
            ID => Ok(1),
            DROP => {
                set.clear();
                self.steps += 1;
                Ok(1)
            }
            TEST => {
                set.keep_where(bytes[place + 1] as usize, two_bytes(bytes, place + 2));
                self.at += 3;
                self.steps += 1;
                Ok(1)
            }
            SET => {
                set.write(bytes[place + 1] as usize, two_bytes(bytes, place + 2));
                self.at += 3;
                self.steps += 1;
                Ok(1)
            }
            NOT => self.not(set),
            SUM => self.sum(set),
            SEQUENCE => {
                let p = self.part(set)?;
                let q = self.part(set)?;
                self.steps += 1;
                Ok(q.max(1 + p))
            }
            BESIDE => self.beside(set),
            _ => {
                let after = place + 2;
                self.at = self.book.body_start(bytes[place + 1] as usize);
                let room = self.part(set)?;
                self.at = after;
                self.steps += 1;
                Ok(room)
            }
        }
    }

    fn not(&mut self, set: &mut Set) -> Result<u64, TooWide> {
        let mut given = *set;
        let room = self.part(&mut given)?;
        set.remove_all(&given);
        self.steps += 2;
        Ok(1 + room)
    }

    fn sum(&mut self, set: &mut Set) -> Result<u64, TooWide> {
        let mut given_by_q = *set;
        let p = self.part(set)?;
        let q = self.part(&mut given_by_q)?;
        set.add_all(&given_by_q)?;
        self.steps += 2;
        Ok(1 + p + q)
    }

    /// One packet at a time. Each split and its join take two steps and one position; joining in
    /// another order than the steps do is too wide just as often, since the whole union is the largest.
    fn beside(&mut self, set: &mut Set) -> Result<u64, TooWide> {
        let sides = self.at;
        if set.count() == 0 {
            self.at = after_part(self.book.bytes, sides - 1);
            self.steps += 1;
            return Ok(1);
        }
        let handed = *set;
        set.clear();
        let splits = handed.count() as u64 - 1;
        let mut room = splits;
        self.steps += 2 * splits;
        for packet in handed.packets() {
            self.at = sides;
            room += self.beside_on_one(packet, set)?;
        }
        Ok(room)
    }

    /// Adds what the concurrent part gives for one packet to `joined`.
    fn beside_on_one(&mut self, packet: &Packet, joined: &mut Set) -> Result<u64, TooWide> {
        let left = self.book.bytes[self.at];
        let right = self.book.bytes[self.at + 1];
        self.at += 2;
        let mut p = Set::one(without(packet, right));
        let room_of_p = self.part(&mut p)?;
        let mut q = Set::one(without(packet, left));
        let room_of_q = self.part(&mut q)?;
        joined.add_pairings(&p, &q, right)?;
        self.steps += 2;
        Ok(1 + room_of_p + room_of_q)
    }
}
