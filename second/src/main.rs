//! The subcommands; README.md tells what each does.

use second::bench;
use second::compare::{compare, Difference};
use second::printer::print;
use second::vector_set::{make, tally, wrong};
use second::vectors::{read_file, write_file, Case};
use std::io::{self, Read, Write};
use std::process::ExitCode;

const USAGE: &str = "usage: second print < INPUT
       second vectors SEED COUNT > FILE
       second check FILE
       second compare PROGRAM SEED COUNT
       second bench";

fn main() -> ExitCode {
    let arguments: Vec<String> = std::env::args().skip(1).collect();
    let arguments: Vec<&str> = arguments.iter().map(String::as_str).collect();
    let outcome = match arguments[..] {
        ["print"] => print_input(),
        ["vectors", seed, count] => make_vectors(seed, count),
        ["check", file] => check_vectors(file),
        ["compare", program, seed, count] => compare_with(program, seed, count),
        ["bench"] => print_bench(),
        _ => Err(io::Error::other(USAGE)),
    };
    match outcome {
        Ok(code) => code,
        Err(error) => {
            eprintln!("{error}");
            ExitCode::from(2)
        }
    }
}

fn number(text: &str) -> io::Result<u64> {
    text.parse().map_err(|_| io::Error::other(format!("{text} is not a number\n{USAGE}")))
}

fn print_input() -> io::Result<ExitCode> {
    let mut input = Vec::new();
    io::stdin().read_to_end(&mut input)?;
    io::stdout().write_all(&print(&input))?;
    Ok(ExitCode::SUCCESS)
}

fn make_vectors(seed: &str, count: &str) -> io::Result<ExitCode> {
    let cases = make(number(seed)?, number(count)? as usize);
    io::stdout().write_all(&write_file(&cases, &wrong()))?;
    for (call, numbers) in ["accept", "evaluate", "run"].iter().zip(tally(&cases)) {
        eprint!("{call}: {} answered; refused", numbers[0]);
        for (number, times) in numbers.iter().enumerate().skip(1).filter(|(_, times)| **times > 0) {
            eprint!(" {number}: {times}");
        }
        eprintln!();
    }
    Ok(ExitCode::SUCCESS)
}

fn check_vectors(file: &str) -> io::Result<ExitCode> {
    let (right, wrong) = read_file(&std::fs::read(file)?).ok_or(io::Error::other("not a file of vectors"))?;
    let differs = |(vector, stated): &&Case| vector.answered() != *stated;
    let differing = right.iter().filter(differs).count();
    let found = wrong.iter().filter(differs).count();
    println!("{} cases, {differing} differ", right.len());
    println!("{} cases that state something wrong, {found} differ", wrong.len());
    Ok(exit_code(differing + wrong.len() - found))
}

fn compare_with(program: &str, seed: &str, count: &str) -> io::Result<ExitCode> {
    let count = number(count)?;
    let (differences, tally) = compare(program, number(seed)?, count)?;
    for difference in differences.iter().take(5) {
        print_difference(difference);
    }
    print!("{} not refused; refused", tally[0]);
    for (number, times) in tally.iter().enumerate().skip(1).filter(|(_, times)| **times > 0) {
        print!(" {number}: {times}");
    }
    println!("\n{count} inputs, {} differ", differences.len());
    Ok(exit_code(differences.len()))
}

fn print_difference(difference: &Difference) {
    let hex: String = difference.input.iter().map(|byte| format!("{byte:02x}")).collect();
    println!("input {}: {hex}", difference.number);
    println!("  expected {:?}", String::from_utf8_lossy(&difference.expected));
    println!("  found    {}", difference.found);
}

fn exit_code(differing: usize) -> ExitCode {
    if differing == 0 {
        ExitCode::SUCCESS
    } else {
        ExitCode::FAILURE
    }
}

fn print_bench() -> io::Result<ExitCode> {
    for row in bench::rows() {
        println!("{:<55} {:>10.1} {}", row.name, row.nanoseconds, row.unit);
    }
    Ok(ExitCode::SUCCESS)
}
