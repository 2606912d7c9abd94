//! Random books, packets and printer inputs. Most books are accepted by construction: every part is
//! made with the fields it may test and write, and a concurrent part narrows them for its sides.

use crate::answers::*;
use crate::book::{self, all_fields};
use crate::evaluate::work_through;
use crate::policy::*;
use crate::rng::Rng;
use crate::typing::Declared;

/// What may stand at a place of a book in the making.
#[derive(Clone, Copy)]
struct Allowed {
    test: u8,
    write: u8,
    /// Concurrent parts that may still stand on the path down.
    concurrency: usize,
    /// Depths left, this part's own included.
    depth: usize,
    tables: bool,
}

struct Maker<'a> {
    rng: &'a mut Rng,
    /// The declarations of the tables 1 to m.
    tables: Vec<Declared>,
    /// How many values the tests and sets choose from: few values make tests pass and packets meet.
    values: usize,
}

impl Maker<'_> {
    /// A policy of about so many parts.
    fn policy(&mut self, parts: usize, allowed: Allowed) -> Policy {
        if parts <= 1 || allowed.depth <= 1 {
            return self.leaf(allowed);
        }
        let below = Allowed { depth: allowed.depth - 1, ..allowed };
        let (first, second) = self.share(parts - 1);
        match self.rng.below(100) {
            0..=6 => self.negation(parts, allowed),
            7..=12 if allowed.depth >= 3 => self.several(allowed.write),
            7..=39 => sum(self.policy(first, below), self.policy(second, below)),
            40..=69 => sequence(self.policy(first, below), self.policy(second, below)),
            _ if allowed.concurrency > 0 => self.concurrent(first, second, below),
            _ => sequence(self.policy(first, below), self.policy(second, below)),
        }
    }

    /// Two counts that add up to the whole, mostly far from even.
    fn share(&mut self, whole: usize) -> (usize, usize) {
        let first = self.rng.below(whole + 1);
        (first, whole - first)
    }

    fn leaf(&mut self, allowed: Allowed) -> Policy {
        match self.rng.below(100) {
            0..=14 => Policy::Id,
            15..=17 => Policy::Drop,
            18..=27 => self.test(allowed.test),
            28..=44 => self.table(allowed),
            _ => self.set(allowed.write),
        }
    }

    fn test(&mut self, fields: u8) -> Policy {
        match self.field_of(fields) {
            Some(field) => Policy::Test(field, self.value()),
            None => Policy::Id,
        }
    }

    fn set(&mut self, fields: u8) -> Policy {
        match self.field_of(fields) {
            Some(field) => set(field, self.value()),
            None => Policy::Id,
        }
    }

    /// One field set to each of some values: sets of several packets.
    fn several(&mut self, fields: u8) -> Policy {
        let Some(field) = self.field_of(fields) else { return Policy::Id };
        let sets: Vec<Policy> = (0..self.rng.between(2, 4)).map(|value| set(field, value as u16)).collect();
        balanced(sum, &sets)
    }

    /// A use of a table whose declaration may stand here, if there is one.
    fn table(&mut self, allowed: Allowed) -> Policy {
        let may_stand = |table: &Declared| {
            let masks = table.masks_of_use();
            masks.tested & !allowed.test == 0 && masks.written & !allowed.write == 0
        };
        let numbers: Vec<u8> =
            (1..=self.tables.len() as u8).filter(|x| may_stand(&self.tables[*x as usize - 1])).collect();
        if !allowed.tables || numbers.is_empty() {
            return self.set(allowed.write);
        }
        Policy::Table(*self.rng.pick(&numbers))
    }

    fn negation(&mut self, parts: usize, allowed: Allowed) -> Policy {
        let inside = self.predicate(parts.min(12) - 1, allowed.test, allowed.depth - 1);
        not(inside)
    }

    fn predicate(&mut self, parts: usize, fields: u8, depth: usize) -> Policy {
        if parts <= 1 || depth <= 1 {
            return match self.rng.below(10) {
                0 => Policy::Id,
                1 => Policy::Drop,
                _ => self.test(fields),
            };
        }
        let (first, second) = self.share(parts - 1);
        match self.rng.below(5) {
            0 => not(self.predicate(parts - 1, fields, depth - 1)),
            1 | 2 => sum(self.predicate(first, fields, depth - 1), self.predicate(second, fields, depth - 1)),
            _ => {
                sequence(self.predicate(first, fields, depth - 1), self.predicate(second, fields, depth - 1))
            }
        }
    }

    /// A right concurrent part: the sides write apart, and neither tests what the other may write.
    fn concurrent(&mut self, first: usize, second: usize, below: Allowed) -> Policy {
        let left = below.write & self.rng.byte();
        let right = below.write & !left & (self.rng.byte() | self.rng.byte());
        let concurrency = below.concurrency - 1;
        let for_p = Allowed { test: below.test & !right, write: left, concurrency, ..below };
        let for_q = Allowed { test: below.test & !left, write: right, concurrency, ..below };
        beside(left, right, self.policy(first, for_p), self.policy(second, for_q))
    }

    fn field_of(&mut self, fields: u8) -> Option<u8> {
        let numbers: Vec<u8> = (0..8).filter(|field| fields & (1 << field) != 0).collect();
        if numbers.is_empty() {
            return None;
        }
        Some(*self.rng.pick(&numbers))
    }

    fn value(&mut self) -> u16 {
        random_value(self.rng, self.values)
    }
}

fn random_value(rng: &mut Rng, values: usize) -> u16 {
    match rng.below(40) {
        0 => *rng.pick(&[65_535, 256, 255, 32_768]),
        _ => rng.below(values) as u16,
    }
}

/// Two masks without a common field, mostly with much to write.
fn random_declaration(rng: &mut Rng, all: u8) -> Declared {
    let writable = match rng.below(4) {
        0 => all,
        1 => all & rng.byte(),
        _ => all & (rng.byte() | rng.byte()),
    };
    Declared { readable: all & !writable & (rng.byte() | rng.byte()), writable }
}

/// A table's declaration: narrow ones can stand beside others.
fn random_table_declaration(rng: &mut Rng, all: u8) -> Declared {
    let writable = all & rng.byte() & rng.byte();
    Declared { readable: all & !writable & rng.byte() & rng.byte(), writable }
}

/// The number of parts of a body: small ones most often, large ones now and then.
fn random_size(rng: &mut Rng) -> usize {
    match rng.below(20) {
        0 => 1,
        1..=11 => rng.between(2, 14),
        12..=16 => rng.between(15, 50),
        17 | 18 => rng.between(51, 160),
        _ => rng.between(161, 700),
    }
}

/// A book that keeps the rules by construction, but for its size in parts.
pub fn sound_book(rng: &mut Rng) -> Vec<u8> {
    let fields = rng.between(1, 8);
    let all = all_fields(fields);
    let table_count = if rng.chance(45) { rng.below(5) } else { rng.below(16) * rng.below(2) };
    let values = rng.between(2, 5);
    let main =
        if rng.chance(60) { Declared { readable: 0, writable: all } } else { random_declaration(rng, all) };
    let tables: Vec<Declared> = (0..table_count).map(|_| random_table_declaration(rng, all)).collect();
    let size = random_size(rng);
    let unpopulated_percent = if rng.chance(12) { 40 } else { 0 };
    let mut maker = Maker { rng, tables: tables.clone(), values };
    let mut entries = vec![body(&mut maker, main, size, true)];
    for table in tables {
        let is_unpopulated = maker.rng.chance(unpopulated_percent);
        entries.push(if is_unpopulated {
            Entry::unpopulated(table.readable, table.writable)
        } else {
            let size = random_size(maker.rng).min(20);
            body(&mut maker, table, size, false)
        });
    }
    write_book(fields as u8, &entries)
}

fn body(maker: &mut Maker, declared: Declared, size: usize, is_main: bool) -> Entry {
    let Declared { readable, writable } = declared;
    let concurrency = if is_main { 3 } else { 1 };
    let allowed = Allowed {
        test: readable | writable,
        write: writable,
        concurrency,
        depth: MOST_DEPTH,
        tables: is_main,
    };
    Entry::new(readable, writable, &maker.policy(size, allowed))
}

/// A packet with values that the tests of a sound book often meet.
pub fn random_packet(rng: &mut Rng, fields: usize) -> Vec<u16> {
    (0..fields).map(|_| random_value(rng, 3)).collect()
}

/// The book with one byte changed, put in or taken out.
pub fn damaged(rng: &mut Rng, book: &[u8]) -> Vec<u8> {
    let mut book = book.to_vec();
    if book.is_empty() {
        return book;
    }
    let place = rng.below(book.len());
    match rng.below(20) {
        0 => {
            book.remove(place);
        }
        1 => book.insert(place, rng.byte()),
        2..=10 => book[place] = rng.below(10) as u8,
        11..=14 => book[place] ^= 1 << rng.below(8),
        15 => book[place] = rng.byte(),
        // The contents are few bytes among many: they get a share of their own.
        _ => {
            let contents = book.len().min(6 + 4 * book.get(1).map_or(0, |m| *m as usize & 15));
            book[rng.below(contents)] ^= 1 << rng.below(8);
        }
    }
    book
}

/// A length for a schedule: about N where N is known, and any other now and then.
pub fn schedule_length(rng: &mut Rng, steps: Option<u64>) -> usize {
    match (rng.below(10), steps) {
        (0..=2, Some(steps)) => (steps as usize).min(MOST_SCHEDULE),
        (3, Some(steps)) => (steps as usize).saturating_sub(1).min(MOST_SCHEDULE),
        (4, Some(steps)) => (steps as usize + 1).min(MOST_SCHEDULE),
        (5..=7, Some(steps)) => rng.below((steps as usize).min(MOST_SCHEDULE) + 1),
        (8, _) => *rng.pick(&[0, 1, 2, 255, 256, 1000, 8191, 8192]),
        _ => rng.below(64),
    }
}

/// N, if the book is accepted and gives a set for the packet.
pub fn steps_of(bytes: &[u8], packet: &[u16]) -> Option<u64> {
    let book = book::read(bytes).ok()?;
    work_through(&book, packet).ok().map(|outcome| outcome.steps)
}

/// The printer's input of these pieces.
pub fn input_of(book: &[u8], packet: &[u16], schedule: &[u8]) -> Vec<u8> {
    let mut input = (book.len() as u16).to_be_bytes().to_vec();
    input.extend(book);
    input.extend(packet.iter().flat_map(|word| word.to_be_bytes()));
    input.extend(schedule);
    input
}

fn sound_input(rng: &mut Rng, book: &[u8]) -> Vec<u8> {
    let fields = book.first().map_or(1, |k| (*k as usize).clamp(1, MOST_FIELDS));
    let packet = random_packet(rng, fields);
    let length = schedule_length(rng, steps_of(book, &packet));
    let schedule = rng.bytes(length);
    input_of(book, &packet, &schedule)
}

/// An input for the printer: most are sound, a share is damaged in the book or around it.
pub fn printer_input(rng: &mut Rng, edge_books: &[Vec<u8>]) -> Vec<u8> {
    let kind = rng.below(100);
    let book = match kind {
        0..=59 => sound_book(rng),
        60..=69 => rng.pick(edge_books).clone(),
        97 | 99 => sound_book(rng),
        _ => {
            let book = if rng.chance(80) { sound_book(rng) } else { rng.pick(edge_books).clone() };
            damaged(rng, &book)
        }
    };
    let mut input = sound_input(rng, &book);
    match kind {
        // The length says more or less than there is.
        95 => input[rng.below(2)] ^= 1 << rng.below(8),
        96 => input.truncate(rng.below(book.len() + 2)),
        97 => input.truncate(2 + book.len() + rng.below(17)),
        98 => input.truncate(rng.below(4)),
        99 => {
            let more = rng.between(8180, 8200);
            input.extend(rng.bytes(more));
        }
        _ => {}
    }
    input
}
