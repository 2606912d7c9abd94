//! Times of accept, evaluate and run; and the books of the hostile and the heavy rows of `bench/`.

use crate::answers::*;
use crate::generate::steps_of;
use crate::policy::*;
use crate::{accept, evaluate, run};
use std::hint::black_box;
use std::time::Instant;

/// A book, a packet and a schedule that just finishes.
pub struct Case {
    pub name: &'static str,
    pub book: Vec<u8>,
    pub packet: Vec<u16>,
    pub schedule: Vec<u8>,
    /// N
    pub steps: u64,
}

impl Case {
    fn new(name: &'static str, book: Vec<u8>, packet: &[u16]) -> Case {
        let steps = steps_of(&book, packet).expect("the cases are not refused");
        let schedule = (0..steps).map(|i| (i * 167 + (i >> 3) * 29) as u8).collect();
        Case { name, book, packet: packet.to_vec(), schedule, steps }
    }
}

/// One measured time.
pub struct Row {
    pub name: String,
    pub nanoseconds: f64,
    pub unit: &'static str,
}

/// Books for accept and evaluate.
pub fn cases() -> Vec<Case> {
    vec![
        Case::new("small typical book", small_book(), &[5, 9, 1, 2]),
        Case::new("16 packets", book_of(5, &sixteen_packets()), &[5, 9, 1, 2, 3]),
        Case::new("nested concurrent parts", book_of(8, &nested_concurrent()), &[9; 8]),
        Case::new("n near 1,023", many_parts(), &[5, 9, 1, 2]),
    ]
}

/// Books for run, by the room they take.
pub fn run_cases() -> Vec<Case> {
    vec![
        Case::new("room 3", room_3(), &[5, 9]),
        Case::new("room 20", room_of_sums(10, 31), &[5, 9]),
        Case::new("room 160", room_of_sums(80, 6), &[5, 9]),
    ]
}

/// A book made to keep the reader busy.
pub struct Hostile {
    pub name: &'static str,
    pub book: Vec<u8>,
}

/// Books for accept alone: the longest ways to an answer, accepted or refused.
pub fn hostile_books() -> Vec<Hostile> {
    let nest = |name, leaf| Hostile { name, book: nests_in_unused_tables(leaf) };
    vec![
        nest("nests in unused tables", Policy::Id),
        nest("nests, the last not right", set(0, 1)),
        Hostile { name: "uses over the limit", book: uses_over_the_limit() },
        Hostile { name: "unknown code at the end", book: unknown_code_at_the_end() },
    ]
}

/// A book and a packet that keep the evaluator busy.
pub struct Heavy {
    pub name: &'static str,
    pub book: Vec<u8>,
    pub packet: Vec<u16>,
}

/// Accepted books with the most work that we know of, N over 60 million: on no packets, and on 16 packets that are told
/// apart by the last of 8 fields.
pub fn heavy_books() -> Vec<Heavy> {
    let dropped = balanced(sequence, &vec![Policy::Drop; 475]);
    let joined = sequence(sixteen_in_the_last_fields(), balanced(sum, &vec![Policy::Id; 467]));
    let heavy =
        |name, inside| Heavy { name, book: book_of(8, &sixteen_four_times(inside)), packet: vec![9; 8] };
    vec![heavy("65,536 times on none", dropped), heavy("65,536 times on 16", joined)]
}

/// Fields 4 to 7 each (to 0 + to 1), in sequence.
fn sixteen_in_the_last_fields() -> Policy {
    let fields: Vec<Policy> = (4..8).map(|field| sum(set(field, 0), set(field, 1))).collect();
    chained(sequence, &fields)
}

/// Four concurrent parts one in the other, each handed 16 packets: what is inside is worked through 16 to the fourth
/// times.
fn sixteen_four_times(inside: Policy) -> Policy {
    let again = |below| sequence(sixteen_in_the_last_fields(), beside(0xF0, 0, below, Policy::Id));
    (0..4).fold(inside, |below, _| again(below))
}

/// Two unused tables, each 22 concurrent parts one in the other above a full tree of 9 levels; `leaf` ends the last.
fn nests_in_unused_tables(leaf: Policy) -> Vec<u8> {
    let apart = |p, q| beside(0, 0, p, q);
    let nest = |last: Policy| {
        let mut leaves = vec![Policy::Id; 462];
        leaves.push(last);
        (0..22).fold(balanced(apart, &leaves), |below, _| apart(Policy::Id, below))
    };
    let entries = [&Policy::Id, &nest(Policy::Id), &nest(leaf)].map(|body| Entry::new(0, 1, body));
    write_book(1, &entries)
}

/// A main policy of 512 uses of a table of 1,500 parts: the count stops at the limit.
fn uses_over_the_limit() -> Vec<u8> {
    let main = balanced(sequence, &vec![Policy::Table(1); 512]);
    let table = balanced(sequence, &vec![Policy::Id; 750]);
    write_book(1, &[Entry::new(0, 1, &main), Entry::new(0, 1, &table)])
}

/// Nearly 4,096 bytes of sequences, the last code unknown.
fn unknown_code_at_the_end() -> Vec<u8> {
    let mut book = book_of(1, &balanced(sequence, &vec![Policy::Id; 2045]));
    *book.last_mut().expect("a book has bytes") = 9;
    book
}

/// An access rule, a rewriting table and an audit table beside it.
fn small_book() -> Vec<u8> {
    let allowed = sequence(Policy::Test(0, 5), not(Policy::Test(1, 7)));
    let main = sequence(allowed, beside(0b0100, 0b1000, Policy::Table(1), Policy::Table(2)));
    let rewrite = sum(sequence(Policy::Test(0, 5), set(2, 80)), sequence(Policy::Test(0, 6), set(2, 81)));
    let audit = sequence(not(Policy::Test(1, 8)), set(3, 1));
    let entries = [
        Entry::new(0b0011, 0b1100, &main),
        Entry::new(0b0001, 0b0100, &rewrite),
        Entry::new(0b0010, 0b1000, &audit),
    ];
    write_book(4, &entries)
}

fn sixteen_packets() -> Policy {
    let spread = crate::edges::spread(4);
    let later = [set(4, 1), not(Policy::Test(4, 2)), sum(set(4, 3), Policy::Test(0, 9))];
    sequence(spread, chained(sequence, &later))
}

fn nested_concurrent() -> Policy {
    let both = |field: u8| sum(set(field, 0), set(field, 1));
    let two = |left: u8| beside(1 << left, 2 << left, both(left), set(left + 1, 3));
    let four = |left: u8| beside(3 << left, 12 << left, two(left), two(left + 2));
    sequence(both(0), beside(0x0F, 0xF0, four(0), four(4)))
}

fn many_parts() -> Vec<u8> {
    let step = |i: usize| match i % 4 {
        0 => set(i as u8 / 4 % 4, i as u16),
        1 => not(Policy::Test(0, i as u16)),
        2 => sum(set(1, 1), set(1, 2)),
        _ => Policy::Id,
    };
    let steps: Vec<Policy> = (0..365).map(step).collect();
    book_of(4, &balanced(sequence, &steps))
}

/// A chain of tables, each a chain of leaves: nearly a thousand parts, never more than 3 positions.
fn room_3() -> Vec<u8> {
    let leaves: Vec<Policy> = (0..32).map(|i| set(i % 2, i as u16)).collect();
    chain_of_tables(15, &chained(sequence, &leaves))
}

/// Sums of so many leaves, so many times in sequence: the room is twice the leaves.
fn room_of_sums(leaves: u16, times: usize) -> Vec<u8> {
    let leaves: Vec<Policy> = (0..leaves).map(|i| set(0, i % 2)).collect();
    chain_of_tables(times, &balanced(sum, &leaves))
}

fn chain_of_tables(times: usize, table: &Policy) -> Vec<u8> {
    let main = chained(sequence, &vec![Policy::Table(1); times]);
    write_book(2, &[Entry::new(0, 3, &main), Entry::new(0, 3, table)])
}

/// Nanoseconds a call: the best of several batches of about 10 ms.
pub fn nanoseconds_a_call(mut call: impl FnMut()) -> f64 {
    let mut calls = 1_u64;
    loop {
        let time = time_of(&mut call, calls);
        if time > 5e6 {
            calls = (calls as f64 * 1e7 / time) as u64 + 1;
            break;
        }
        calls *= 2;
    }
    let batch = |call: &mut _| time_of(call, calls) / calls as f64;
    (0..15).map(|_| batch(&mut call)).fold(f64::INFINITY, f64::min)
}

fn time_of(call: &mut impl FnMut(), calls: u64) -> f64 {
    let start = Instant::now();
    for _ in 0..calls {
        call();
    }
    start.elapsed().as_nanos() as f64
}

pub fn time_accept(book: &[u8]) -> f64 {
    nanoseconds_a_call(|| {
        black_box(accept(black_box(book)));
    })
}

pub fn time_evaluate(case: &Case) -> f64 {
    let mut result = [0; 16 * MOST_FIELDS];
    nanoseconds_a_call(|| {
        black_box(evaluate(black_box(&case.book), &case.packet, &mut result));
    })
}

/// The time of a run under the first `steps` bytes of the schedule.
pub fn time_run(case: &Case, steps: usize) -> f64 {
    let mut result = [0; 16 * MOST_FIELDS];
    let mut work = vec![0; WORK_WORDS];
    nanoseconds_a_call(|| {
        black_box(run(black_box(&case.book), &case.packet, &case.schedule[..steps], &mut result, &mut work));
    })
}

/// All times of this program. "The steps alone" is the difference of two measured times, and so less
/// steady than the others on a busy machine.
pub fn rows() -> Vec<Row> {
    let mut rows = Vec::new();
    let mut add = |name: String, nanoseconds: f64, unit| rows.push(Row { name, nanoseconds, unit });
    for case in cases() {
        add(format!("accept, {}", case.name), time_accept(&case.book), "ns a call");
        add(format!("evaluate, {}", case.name), time_evaluate(&case), "ns a call");
    }
    for Hostile { name, book } in hostile_books() {
        add(format!("accept, {name}"), time_accept(&book), "ns a call");
    }
    for case in run_cases() {
        let whole = time_run(&case, case.schedule.len());
        let without_steps = time_run(&case, 0);
        let steps = case.steps as f64;
        add(format!("run, {}, {} steps, whole call", case.name, case.steps), whole / steps, "ns a step");
        add(format!("run, {}, the steps alone", case.name), (whole - without_steps) / steps, "ns a step");
    }
    rows
}
