//! The program's subcommands, and the format of the vectors.

use second::vector_set::{make, tally, wrong};
use second::vectors::{marks, read_file, write_file};
use std::io::Write;
use std::process::{Command, Output, Stdio};

fn second(arguments: &[&str], input: &[u8]) -> Output {
    let mut child = Command::new(env!("CARGO_BIN_EXE_second"))
        .args(arguments)
        .stdin(Stdio::piped())
        .stdout(Stdio::piped())
        .stderr(Stdio::piped())
        .spawn()
        .expect("the program starts");
    child.stdin.take().expect("a pipe").write_all(input).expect("the input is read");
    child.wait_with_output().expect("the program ends")
}

#[test]
fn print_prints_the_example() {
    let book = [2, 0, 0, 0x0B, 0, 3, 7, 1, 2, 3, 0, 0, 1, 3, 1, 0, 2];
    let input = [&[0, 0x11][..], &book, &[0, 5, 0, 9, 0, 0, 0, 0]].concat();
    assert_eq!(second(&["print"], &input).stdout, b"finished 4 1\n1 2\n");
}

#[test]
fn vectors_are_the_same_for_the_same_seed_and_read_back() {
    let cases = make(7, 600);
    let file = write_file(&cases, &wrong());
    assert_eq!(file, second(&["vectors", "7", "600"], &[]).stdout);
    assert!(file.len() < 300_000, "{} bytes", file.len());
    assert_eq!(read_file(&file), Some((cases, wrong())));
    assert!(read_file(&file[..file.len() - 1]).is_none());
    assert!(read_file(&[&file[..], &[0]].concat()).is_none());
}

/// The vectors that the gate runs are those of seed 1, and hold to document 01's text and this program.
#[test]
fn the_committed_vectors_are_those_of_seed_1() {
    let committed = include_bytes!("../../crates/trials/stdin");
    assert!(write_file(&make(1, COMMITTED), &wrong()) == committed, "make them again: see README.md");
}

#[test]
fn every_wrong_case_is_found() {
    assert!(wrong().len() > 100);
    for (vector, stated) in wrong() {
        assert_ne!(vector.answered(), stated);
    }
}

/// How many cases the committed file has.
const COMMITTED: usize = 700;

#[test]
fn vectors_give_every_number_many_times() {
    let [accept, evaluate, run] = tally(&make(1, COMMITTED));
    let often = |numbers: &[usize; 15], which: &[usize]| which.iter().all(|number| numbers[*number] >= 12);
    assert!(often(&accept, &[1, 2, 3, 4, 5, 6, 7]), "{accept:?}");
    assert!(often(&evaluate, &[8, 9, 10, 12]), "{evaluate:?}");
    assert!(often(&run, &[8, 9, 10, 11, 12]), "{run:?}");
    assert_eq!(run[13] + evaluate[13] + run[14] + evaluate[14], 0);
    assert!(accept[0] > 250 && run[0] > 200, "most random books are accepted and run");
}

/// The rule as README.md tells it, with the first values worked out by hand.
#[test]
fn marks_by_rule() {
    assert_eq!(marks(3, 2), [515, 41_018, (2 * 40_503 + 515 - 65_536) as u16]);
}

#[test]
fn comparing_finds_differences_and_says_so() {
    let output = second(&["compare", "cat", "1", "20"], &[]);
    assert_eq!(output.status.code(), Some(1));
    let text = String::from_utf8(output.stdout).expect("text");
    assert!(text.ends_with("20 inputs, 20 differ\n"), "{text}");
}

#[test]
fn wrong_use_is_told() {
    assert_eq!(second(&["vectors", "x", "1"], &[]).status.code(), Some(2));
    assert_eq!(second(&[], &[]).status.code(), Some(2));
}

/// The rows of the benchmark are what their names say.
#[test]
fn benchmark_cases_have_the_rooms_and_sizes_they_name() {
    let given = |case: &second::bench::Case| {
        let mut result = [0; 128];
        match second::evaluate(&case.book, &case.packet, &mut result) {
            second::Evaluated::Given { count, parts, concurrency, room, .. } => {
                (count, parts, concurrency, room)
            }
            refused => panic!("{}: {refused:?}", case.name),
        }
    };
    let rooms: Vec<u64> = second::bench::run_cases().iter().map(|case| given(case).3).collect();
    assert_eq!(rooms, [3, 20, 160]);
    let cases = second::bench::cases();
    assert_eq!(given(&cases[0]).0, 1);
    assert_eq!(given(&cases[1]).0, 16);
    assert_eq!(given(&cases[2]).2, 3);
    assert!(given(&cases[3]).1 > 1000, "n is {}", given(&cases[3]).1);
}
