//! The two programs under one signature, each call behind a function that is not inlined.

use crate::books::Case;
use hamstedew::{AREA_WORDS, RESULT_WORDS};
use std::hint::black_box;

/// A code and its values, as `include/hamstedew.h` has them.
pub type Answer = (u64, [u64; 5]);

const RUNNING: u64 = 100;

pub struct Program {
    pub accept: fn(&[u8]) -> Answer,
    pub evaluate: fn(&[u8], &[u16], &mut [u16]) -> Answer,
    pub run: fn(&[u8], &[u16], &[u8], &mut [u16], &mut [u16]) -> Answer,
}

pub const OURS: Program = Program { accept: our_accept, evaluate: our_evaluate, run: our_run };
pub const PLAIN: Program = Program { accept: plain_accept, evaluate: plain_evaluate, run: plain_run };

/// A program with the buffers that it is lent.
pub struct Caller {
    pub program: Program,
    pub result: [u16; RESULT_WORDS],
    pub area: Vec<u16>,
}

impl Caller {
    pub fn new(program: Program) -> Caller {
        Caller { program, result: [0xabcd; RESULT_WORDS], area: vec![0; AREA_WORDS] }
    }

    pub fn accept(&mut self, case: &Case) {
        black_box((self.program.accept)(black_box(&case.book)));
    }

    pub fn evaluate(&mut self, case: &Case) {
        black_box((self.program.evaluate)(black_box(&case.book), black_box(&case.packet), &mut self.result));
    }

    pub fn run(&mut self, case: &Case) {
        black_box(self.answer_run(black_box(case), &case.schedule));
    }

    /// A run without a step.
    pub fn start(&mut self, case: &Case) {
        black_box(self.answer_run(black_box(case), &[]));
    }

    pub fn answer_run(&mut self, case: &Case, schedule: &[u8]) -> Answer {
        (self.program.run)(&case.book, &case.packet, schedule, &mut self.result, &mut self.area)
    }
}

fn refused(number: u8, place: u64) -> Answer {
    (number as u64, [place, 0, 0, 0, 0])
}

#[inline(never)]
fn our_accept(book: &[u8]) -> Answer {
    match hamstedew::accept(book) {
        Ok(s) => (0, [s.fields as u64, s.tables as u64, s.parts as u64, s.deep as u64, 0]),
        Err(r) => refused(r.number, r.place as u64),
    }
}

#[inline(never)]
fn our_evaluate(book: &[u8], packet: &[u16], result: &mut [u16]) -> Answer {
    match hamstedew::evaluate(book, packet, result) {
        Ok(o) => (0, [o.count as u64, o.steps, o.parts as u64, o.deep as u64, o.room]),
        Err(r) => refused(r.number, r.place as u64),
    }
}

#[inline(never)]
fn our_run(book: &[u8], packet: &[u16], schedule: &[u8], result: &mut [u16], area: &mut [u16]) -> Answer {
    use hamstedew::Ran::*;
    match hamstedew::run(book, packet, schedule, result, area) {
        Ok(Finished { steps, count }) => (0, [steps as u64, count as u64, 0, 0, 0]),
        Ok(Running { steps, live, ready }) => (RUNNING, [steps as u64, live as u64, ready as u64, 0, 0]),
        Err(r) => refused(r.number, r.place as u64),
    }
}

#[inline(never)]
fn plain_accept(book: &[u8]) -> Answer {
    match plain::accept(book) {
        Ok(s) => (0, [s.fields as u64, s.tables as u64, s.parts as u64, s.deep as u64, 0]),
        Err(r) => refused(r.number, r.place as u64),
    }
}

#[inline(never)]
fn plain_evaluate(book: &[u8], packet: &[u16], result: &mut [u16]) -> Answer {
    match plain::evaluate(book, packet, result) {
        Ok(o) => (0, [o.count as u64, o.steps as u64, o.parts as u64, o.deep as u64, o.room as u64]),
        Err(r) => refused(r.number, r.place as u64),
    }
}

#[inline(never)]
fn plain_run(book: &[u8], packet: &[u16], schedule: &[u8], result: &mut [u16], area: &mut [u16]) -> Answer {
    use plain::Ran::*;
    match plain::run(book, packet, schedule, result, area) {
        Ok(Finished { steps, count }) => (0, [steps as u64, count as u64, 0, 0, 0]),
        Ok(Running { steps, live, ready }) => (RUNNING, [steps as u64, live as u64, ready as u64, 0, 0]),
        Err(r) => refused(r.number, r.place as u64),
    }
}
