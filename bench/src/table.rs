//! The table: for each book, or many random ones, accept, evaluate, the start of a run, and a step.

use crate::books::{cases, heavy_cases, hostile_cases, random_cases, Case};
use crate::programs::Caller;
use crate::same::agree;
use crate::timing::{once, timed, Pair, Times};

pub fn print(rounds: usize, only: &str) {
    println!(
        "| {:25} | {:16} | {:>12} | {:>12} | {:>5} | {:>14} |",
        "book", "call", "ours ns", "plain ns", "ratio", "half of rounds"
    );
    println!("|{0:-<27}|{0:-<18}|{0:->14}|{0:->14}|{0:->7}|{0:->16}|", "");
    let asked = |name: &str| name.contains(only);
    for case in cases().into_iter().filter(|case| asked(&case.name)) {
        rows(&case.name.clone(), &[case], rounds);
    }
    if asked("200 random books") {
        rows("200 random books", &random_cases(), rounds);
    }
    for case in hostile_cases().into_iter().filter(|case| asked(&case.name)) {
        agree(&case);
        one_row(&case.name.clone(), "accept", 1.0, &column(&timed(rounds, &[case], &[Caller::accept]), 0));
    }
    for case in heavy_cases().iter().filter(|case| asked(&case.name)) {
        row(&case.name, "evaluate", 1.0, once(case, Caller::evaluate));
    }
}

/// The rows of one book, or of many, each called once in its turn. The times are for one book, or for one step.
fn rows(name: &str, cases: &[Case], rounds: usize) {
    cases.iter().for_each(agree);
    let books = cases.len() as f64;
    let steps = cases.iter().map(|case| case.schedule.len() as f64).sum();
    one_row(name, "accept", books, &column(&timed(rounds, cases, &[Caller::accept]), 0));
    one_row(name, "evaluate", books, &column(&timed(rounds, cases, &[Caller::evaluate]), 0));
    let ran = timed(rounds, cases, &[Caller::start, Caller::run]);
    let (starts, wholes) = (column(&ran, 0), column(&ran, 1));
    one_row(name, "run, no step", books, &starts);
    one_row(name, "run, a step", steps, &wholes);
    row(name, "run, steps alone", steps, steps_alone(&starts, &wholes));
}

/// What a run takes more than its start. The time is a difference of two least times, for a least difference is noise.
pub fn steps_alone(starts: &[Pair], wholes: &[Pair]) -> Times {
    let less = |whole: Pair, start: Pair| (whole.0 - start.0, whole.1 - start.1);
    let quartiles = Times::of(wholes.iter().zip(starts).map(|(whole, start)| less(*whole, *start))).quartiles;
    let [start, whole] = [starts, wholes].map(|pairs| Times::of(pairs.iter().copied()).least);
    Times { least: less(whole, start), quartiles }
}

/// One call's times of all rounds.
pub fn column(rounds: &[Vec<Pair>], call: usize) -> Vec<Pair> {
    rounds.iter().map(|round| round[call]).collect()
}

fn one_row(name: &str, call: &str, shares: f64, pairs: &[Pair]) {
    row(name, call, shares, Times::of(pairs.iter().copied()));
}

fn row(name: &str, call: &str, shares: f64, times: Times) {
    let ((ours, plain), [low, middle, high]) = (times.least, times.quartiles);
    let (ours, plain) = (ours / shares, plain / shares);
    println!(
        "| {name:25} | {call:16} | {ours:12.1} | {plain:12.1} | {middle:5.2} | {low:5.2} to {high:5.2} |"
    );
}
