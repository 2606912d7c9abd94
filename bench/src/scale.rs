//! How the times grow: families of books in which one size grows and the rest stays.

use crate::books::{families, Case};
use crate::programs::Caller;
use crate::same::agree;
use crate::table::{column, steps_alone};
use crate::timing::{timed, Pair, Times};

pub fn print(rounds: usize, only: &str) {
    println!("The least times in ns, ours / the plain program; a step: of the steps alone.");
    for family in families().iter().filter(|family| family.name.contains(only)) {
        println!("\n{}\n", family.name);
        println!(
            "| {:>6} | {:>5} | {:>4} | {:>5} | {:>16} | {:>16} | {:>13} |",
            family.size, "bytes", "room", "N", "accept", "evaluate", "a step"
        );
        println!("|{0:->8}|{0:->7}|{0:->6}|{0:->7}|{0:->18}|{0:->18}|{0:->15}|", "");
        family.cases.iter().for_each(|case| line(case, rounds));
    }
}

fn line(case: &Case, rounds: usize) {
    agree(case);
    let one = std::slice::from_ref(case);
    let called = timed(rounds, one, &[Caller::accept, Caller::evaluate, Caller::start, Caller::run]);
    let of = |call| Times::of(column(&called, call).into_iter()).least;
    let (accepted, evaluated) = (pair(of(0), 0), pair(of(1), 0));
    let step = if case.schedule.is_empty() {
        String::new()
    } else {
        let (ours, plain) = steps_alone(&column(&called, 2), &column(&called, 3)).least;
        let steps = case.schedule.len() as f64;
        pair((ours / steps, plain / steps), 1)
    };
    println!(
        "| {:>6} | {:5} | {:4} | {:5} | {accepted:>16} | {evaluated:>16} | {step:>13} |",
        case.name,
        case.book.len(),
        case.room,
        case.steps
    );
}

fn pair((ours, plain): Pair, digits: usize) -> String {
    format!("{ours:.digits$} / {plain:.digits$}")
}
