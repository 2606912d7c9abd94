//! Calls of both programs timed in turn, batch by batch: what disturbs the machine disturbs all of them.

use crate::books::Case;
use crate::programs::{Caller, OURS, PLAIN};
use std::time::Instant;

/// A batch takes about this long.
const BATCH_NANOSECONDS: f64 = 1e5;

pub type Call = fn(&mut Caller, &Case);

/// Nanoseconds of ours and of the plain program.
pub type Pair = (f64, f64);

/// The least time of each program, and three quartiles of the rounds' ratios.
pub struct Times {
    pub least: Pair,
    pub quartiles: [f64; 3],
}

impl Times {
    pub fn of(pairs: impl Iterator<Item = Pair> + Clone) -> Times {
        let mut ratios: Vec<f64> = pairs.clone().map(|(ours, plain)| ours / plain).collect();
        ratios.sort_by(f64::total_cmp);
        let least = |a: Pair, b: Pair| (a.0.min(b.0), a.1.min(b.1));
        let last = ratios.len() - 1;
        Times {
            least: pairs.fold((f64::INFINITY, f64::INFINITY), least),
            quartiles: [ratios[last / 4], ratios[last / 2], ratios[last - last / 4]],
        }
    }
}

/// For each round the times of each call by both programs, one call on every case after the other.
pub fn timed(rounds: usize, cases: &[Case], calls: &[Call]) -> Vec<Vec<Pair>> {
    let mut callers = [OURS, PLAIN].map(Caller::new);
    let mut job = |i: usize| {
        let caller = &mut callers[i % 2];
        cases.iter().for_each(|case| calls[i / 2](caller, case));
    };
    let jobs = 2 * calls.len();
    let batches: Vec<u64> = (0..jobs).map(|i| calls_a_batch(|| job(i))).collect();
    let mut round = |number: usize| {
        let mut times = vec![0.0; jobs];
        for turn in 0..jobs {
            // every job comes first in its turn
            let i = (turn + number) % jobs;
            times[i] = nanoseconds(|| job(i), batches[i]);
        }
        times.chunks(2).map(|pair| (pair[0], pair[1])).collect()
    };
    (0..rounds).map(&mut round).collect()
}

/// One call by each, for calls that take long; both must leave the same words.
pub fn once(case: &Case, call: Call) -> Times {
    let mut callers = [OURS, PLAIN].map(Caller::new);
    let [ours, plain] = [0, 1].map(|i| nanoseconds(|| call(&mut callers[i], case), 1));
    assert_eq!(callers[0].result, callers[1].result, "{}: the programs differ", case.name);
    Times::of(std::iter::once((ours, plain)))
}

/// Twice as many calls until they take long enough to say how many a batch has.
fn calls_a_batch(mut call: impl FnMut()) -> u64 {
    let mut calls = 1;
    loop {
        let each = nanoseconds(&mut call, calls);
        if each * calls as f64 > BATCH_NANOSECONDS / 4.0 {
            return (BATCH_NANOSECONDS / each) as u64 + 1;
        }
        calls *= 2;
    }
}

fn nanoseconds(mut call: impl FnMut(), calls: u64) -> f64 {
    let start = Instant::now();
    for _ in 0..calls {
        call();
    }
    start.elapsed().as_nanos() as f64 / calls as f64
}
