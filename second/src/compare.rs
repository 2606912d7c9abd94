//! Runs another printer on fresh inputs and compares what it prints with what this one prints.

use crate::edges;
use crate::generate::{input_of, printer_input};
use crate::policy::{book_of, set, sum};
use crate::printer::print;
use crate::rng::Rng;
use crate::trials;
use std::io::{self, Write};
use std::process::{Command, Output, Stdio};
use std::sync::atomic::{AtomicU64, Ordering};
use std::sync::Mutex;
use std::thread;

/// An input on which the two printers differ.
pub struct Difference {
    pub number: u64,
    pub input: Vec<u8>,
    pub expected: Vec<u8>,
    pub found: String,
}

/// Inputs cut at each place, lengths that say too much, schedules about the longest, and document 01's
/// trials.
pub fn printer_edges() -> Vec<Vec<u8>> {
    let whole = input_of(&book_of(2, &sum(set(0, 1), set(1, 2))), &[5, 9], &[]);
    let mut inputs: Vec<Vec<u8>> = (0..=whole.len()).map(|cut| whole[..cut].to_vec()).collect();
    for stated in [[0x10, 0x00], [0x10, 0x01], [0xFF, 0xFF], [0x00, 0x00], [0x00, 0x01]] {
        inputs.push(stated.to_vec());
        inputs.push([&stated[..], &whole[2..]].concat());
    }
    for length in [8191, 8192, 8193, 9000] {
        inputs.push([&whole[..], &vec![1; length]].concat());
    }
    let trials = trials::all();
    inputs.extend(trials.iter().map(|trial| {
        let vector = &trial.vector;
        input_of(&vector.book, &vector.packet, &vector.schedule)
    }));
    inputs
}

/// Input number `number` of a seed: the edges come first.
fn input(seed: u64, number: u64, edge_inputs: &[Vec<u8>], edge_books: &[Vec<u8>]) -> Vec<u8> {
    let edge = edge_inputs.get(number as usize).cloned();
    edge.unwrap_or_else(|| printer_input(&mut Rng::for_case(seed, number), edge_books))
}

/// How often each number is printed, 0 counting what is no refusal.
pub type Tally = [u64; 15];

fn number_in(printed: &[u8]) -> usize {
    let text = String::from_utf8_lossy(printed);
    let refused = text.strip_prefix("refused ").and_then(|rest| rest.split(' ').next()?.parse().ok());
    refused.unwrap_or(0)
}

/// Runs the program on the inputs 0 to count - 1 of the seed, on all processors.
pub fn compare(program: &str, seed: u64, count: u64) -> io::Result<(Vec<Difference>, Tally)> {
    let (edge_inputs, edge_books) = (printer_edges(), edges::books());
    let tally = [const { AtomicU64::new(0) }; 15];
    let next = AtomicU64::new(0);
    let differences = Mutex::new(Vec::new());
    let work = || -> io::Result<()> {
        loop {
            let number = next.fetch_add(1, Ordering::Relaxed);
            if number >= count {
                return Ok(());
            }
            let input = input(seed, number, &edge_inputs, &edge_books);
            let expected = print(&input);
            tally[number_in(&expected)].fetch_add(1, Ordering::Relaxed);
            if let Some(difference) = compare_one(program, number, input, expected)? {
                differences.lock().expect("no thread panics").push(difference);
            }
        }
    };
    let workers = thread::available_parallelism().map_or(1, usize::from);
    thread::scope(|scope| {
        let handles: Vec<_> = (0..workers).map(|_| scope.spawn(work)).collect();
        handles.into_iter().try_for_each(|handle| handle.join().expect("no thread panics"))
    })?;
    let mut differences = differences.into_inner().expect("no thread panics");
    differences.sort_by_key(|difference| difference.number);
    Ok((differences, tally.map(AtomicU64::into_inner)))
}

fn compare_one(
    program: &str,
    number: u64,
    input: Vec<u8>,
    expected: Vec<u8>,
) -> io::Result<Option<Difference>> {
    let output = output_of(program, &input)?;
    // A program that a signal ends has no exit code: that differs, whatever it printed before.
    if output.stdout == expected && output.status.code().is_some() {
        return Ok(None);
    }
    let found = format!("{:?} ({})", String::from_utf8_lossy(&output.stdout), output.status);
    Ok(Some(Difference { number, input, expected, found }))
}

/// The inputs are shorter than what a pipe holds, so writing all before reading never waits for ever.
fn output_of(program: &str, input: &[u8]) -> io::Result<Output> {
    let mut child =
        Command::new(program).stdin(Stdio::piped()).stdout(Stdio::piped()).stderr(Stdio::null()).spawn()?;
    let mut stdin = child.stdin.take().expect("its input is a pipe");
    // A program may answer before it has read everything.
    let _ = stdin.write_all(input);
    drop(stdin);
    child.wait_with_output()
}
