//! The books that are timed, written with the second program's trees.

use crate::programs::PLAIN;
use second::bench::{heavy_books, hostile_books};
use second::policy::{
    balanced, beside, book_of, chained, not, sequence, set, sum, write_book, Entry, Policy,
};

pub struct Case {
    pub name: String,
    pub book: Vec<u8>,
    pub packet: Vec<u16>,
    /// It just finishes; empty where no run is let through.
    pub schedule: Vec<u8>,
    /// N
    pub steps: u64,
    pub room: u64,
}

impl Case {
    fn new(name: &str, book: Vec<u8>, packet: &[u16]) -> Case {
        let (code, [_, steps, _, _, room]) = (PLAIN.evaluate)(&book, packet, &mut [0; 128]);
        assert_eq!(code, 0, "{name}: refused");
        let schedule = if room > 160 { Vec::new() } else { random_bytes(steps) };
        Case { name: name.to_string(), schedule, book, packet: packet.to_vec(), steps, room }
    }

    /// A book on which no run is made.
    fn without_run(name: &str, book: Vec<u8>, packet: &[u16]) -> Case {
        let (packet, schedule) = (packet.to_vec(), Vec::new());
        Case { name: name.to_string(), book, packet, schedule, steps: 0, room: u64::MAX }
    }
}

fn random_bytes(count: u64) -> Vec<u8> {
    let mut x = 0x9e37_79b9_7f4a_7c15 ^ count;
    let mut next = || {
        x ^= x << 13;
        x ^= x >> 7;
        x ^= x << 17;
        (x >> 32) as u8
    };
    (0..count).map(|_| next()).collect()
}

/// The rows of the table.
pub fn cases() -> Vec<Case> {
    let sixteen = chained(sequence, &repeat(4, |field| fan(field as u8, 2)));
    let one_table = |times, table: &Policy| uses(times, chained, 2, table);
    vec![
        Case::new("document 01's 17 bytes", book_of(2, &beside(1, 2, set(0, 1), set(1, 2))), &[5, 9]),
        Case::new("47 parts", book_of(6, &balanced(sum, &repeat(8, rule))), &[1, 2, 5, 6, 80, 0]),
        Case::new("16 packets", book_of(5, &sixteen), &[7; 5]),
        Case::new("4 nested concurrent parts", book_of(8, &nested()), &[9; 8]),
        Case::new("n 1,023", book_of(4, &balanced(sequence, &repeat(32, stage))), &[1, 2, 3, 4]),
        Case::new("a table used 50 times", uses(50, balanced, 8, &of_18_parts()), &PACKET),
        Case::new(
            "room 3",
            one_table(15, &chained(sequence, &repeat(32, |i| set((i % 2) as u8, i)))),
            &[5, 9],
        ),
        Case::new("room 20", one_table(31, &wide(10)), &[5, 9]),
        Case::new("room 160", one_table(6, &wide(80)), &[5, 9]),
    ]
}

/// A family's books differ in one size, which is their name.
pub struct Family {
    pub name: &'static str,
    pub size: &'static str,
    pub cases: Vec<Case>,
}

pub fn families() -> Vec<Family> {
    let family = |name, size, cases| Family { name, size, cases };
    let of = |size: u16, main: Policy| Case::new(&size.to_string(), book_of(8, &main), &PACKET);
    let of_parts =
        |parts: fn(u16) -> Policy, sizes: &[u16]| sizes.iter().map(|n| of(2 * n - 1, parts(*n))).collect();
    let leaves = [16, 32, 64, 128, 256, 512];
    let packets =
        |main: fn(u16) -> Policy| [1, 2, 4, 8, 16].map(|n| of(n, sequence(fan(7, n), main(n)))).into();
    vec![
        family("Rooms: a table of sets in sequence (3), or of sums of 3 to 80 sets", "room", rooms()),
        family("Chains to the right, 16 deep", "n", of_parts(|n| sixteens(n, to_the_right), &leaves)),
        family("Chains to the left, 16 deep", "n", of_parts(|n| sixteens(n, to_the_left), &leaves)),
        family("Levels of sequences to the left above 511 parts", "levels", nestings()),
        family("A balanced sequence", "n", of_parts(|n| balanced(sequence, &repeat(n, leaf)), &leaves)),
        family("Uses of a table of 18 parts", "uses", repeated_table()),
        family("Packets through 30 tests and sets", "count", packets(|_| to_the_right(&repeat(28, leaf)))),
        family("Packets through a concurrent part", "count", packets(|_| beside(1, 2, set(0, 1), set(1, 2)))),
    ]
}

/// Books made to keep accept busy.
pub fn hostile_cases() -> Vec<Case> {
    hostile_books().into_iter().map(|h| Case::without_run(h.name, h.book, &[])).collect()
}

/// Books with the most steps that we know of.
pub fn heavy_cases() -> Vec<Case> {
    heavy_books().into_iter().map(|h| Case::without_run(h.name, h.book, &h.packet)).collect()
}

/// 200 random accepted books with packets and schedules: for each the length of a run printer's input (4 bytes, high byte
/// first) and that input.
pub fn random_cases() -> Vec<Case> {
    let (mut rest, mut all) = (&include_bytes!("../books/random.bin")[..], Vec::new());
    while let Some((length, after)) = rest.split_first_chunk::<4>() {
        let (input, after) = after.split_at(u32::from_be_bytes(*length) as usize);
        rest = after;
        let (length, input) = input.split_first_chunk::<2>().expect("a book's length");
        let (book, input) = input.split_at(u16::from_be_bytes(*length) as usize);
        let (packet, schedule) = input.split_at(2 * book[0] as usize);
        let packet: Vec<u16> = packet.chunks(2).map(|word| u16::from_be_bytes([word[0], word[1]])).collect();
        let name = format!("random book {}", all.len());
        all.push(Case { schedule: schedule.to_vec(), ..Case::new(&name, book.to_vec(), &packet) });
    }
    all
}

/// The tests of `leaf` hold on it.
const PACKET: [u16; 8] = [0, 3, 6, 9, 9, 9, 9, 9];

fn repeat(count: u16, part: impl Fn(u16) -> Policy) -> Vec<Policy> {
    (0..count).map(part).collect()
}

/// A test that holds, or a set of another field.
fn leaf(i: u16) -> Policy {
    match i % 3 {
        0 => Policy::Test((i % 4) as u8, i % 4 * 3),
        other => set(4 + other as u8, i),
    }
}

fn rule(i: u16) -> Policy {
    chained(sequence, &[Policy::Test(2, i), Policy::Test(4, 80), set(5, 10 + i)])
}

/// A lookup of 8 rules: 31 parts.
fn stage(i: u16) -> Policy {
    let field = (i % 3) as u8;
    let entry = |value| sequence(Policy::Test(field, value), set(field + 1, (value + i) % 8));
    balanced(sum, &repeat(8, entry))
}

/// The field set to each of so many values.
fn fan(field: u8, values: u16) -> Policy {
    balanced(sum, &repeat(values, |value| set(field, value)))
}

/// Four concurrent parts, one in the other; each is handed two packets, told apart by a field that is set again after it.
fn nested() -> Policy {
    let inside = sequence(not(Policy::Test(3, 77)), set(0, 1));
    (0..4).fold(inside, |below, i: u8| {
        let (left, right) = ((2u8 << i) - 1 | ((1u8 << i) - 1) << 4, 16u8 << i);
        chained(sequence, &[fan(i, 2), beside(left, right, below, set(4 + i, 1)), set(i, 0)])
    })
}

/// Both sides of every sum stay live: a room of twice the leaves under a sequence.
fn wide(leaves: u16) -> Policy {
    balanced(sum, &repeat(leaves, |i| set(0, i % 2)))
}

fn of_18_parts() -> Policy {
    balanced(sequence, &[vec![not(Policy::Test(0, 77))], repeat(8, leaf)].concat())
}

type Joined = fn(fn(Policy, Policy) -> Policy, &[Policy]) -> Policy;

/// A main policy of so many uses of one table, in sequence.
fn uses(times: usize, joined: Joined, fields: u8, table: &Policy) -> Vec<u8> {
    let main = joined(sequence, &vec![Policy::Table(1); times]);
    write_book(fields, &[&main, table].map(|body| Entry::new(0, 0xff >> (8 - fields), body)))
}

/// As many uses of each table as n and the depth allow.
fn rooms() -> Vec<Case> {
    let sums = |leaves: u16| uses((1024 / (2 * leaves as usize + 1)).min(31), chained, 2, &wide(leaves));
    let case = |leaves: &u16| Case::new(&(2 * leaves).to_string(), sums(*leaves), &[5, 9]);
    let narrow = cases().into_iter().filter(|case| case.name == "room 3");
    let narrow = narrow.map(|case| Case { name: "3".to_string(), ..case });
    narrow.chain([3, 5, 10, 20, 40, 80].iter().map(case)).collect()
}

fn repeated_table() -> Vec<Case> {
    let book = |times| uses(times, balanced, 8, &of_18_parts());
    [1, 10, 20, 30, 40, 50].map(|times| Case::new(&times.to_string(), book(times), &PACKET)).into()
}

fn to_the_right(parts: &[Policy]) -> Policy {
    chained(sequence, parts)
}

/// The parts joined as ((a ; b) ; c) ; ..
fn to_the_left(parts: &[Policy]) -> Policy {
    let (first, after) = parts.split_first().expect("a chain has a part");
    after.iter().fold(first.clone(), |before, part| sequence(before, part.clone()))
}

/// So many leaves in chains of 16.
fn sixteens(leaves: u16, chain: fn(&[Policy]) -> Policy) -> Policy {
    balanced(sequence, &repeat(leaves / 16, |_| chain(&repeat(16, leaf))))
}

/// So many sequences, each the first part of the one above, and a balanced sequence below them all.
fn nestings() -> Vec<Case> {
    let inside = balanced(sequence, &repeat(256, leaf));
    let below = |levels| to_the_left(&[vec![inside.clone()], vec![Policy::Id; levels]].concat());
    [0, 5, 10, 15, 20]
        .map(|levels| Case::new(&levels.to_string(), book_of(8, &below(levels)), &PACKET))
        .into()
}
