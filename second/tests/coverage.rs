//! The vectors stand on both sides of every edge that document 01 names, and say what it says.

use second::trials;
use second::vector_set::make;
use second::vectors::Case;
use std::sync::OnceLock;

fn cases() -> &'static [Case] {
    static CASES: OnceLock<Vec<Case>> = OnceLock::new();
    CASES.get_or_init(|| make(1, 700))
}

fn some(what: &str, holds: impl Fn(&Case) -> bool) {
    assert!(cases().iter().any(holds), "no vector: {what}");
}

/// This program gives every answer that document 01's text gives.
#[test]
fn document_01_and_this_program_agree_on_every_trial() {
    for trial in trials::all() {
        let (vector, stated) = trial.case();
        assert_eq!(vector.answered(), stated, "{}", trial.name);
    }
    assert_eq!(trials::all().len(), 23);
}

#[test]
fn the_trials_come_first() {
    for (trial, case) in trials::all().iter().zip(cases()) {
        assert_eq!(&trial.case(), case, "{}", trial.name);
    }
}

#[test]
fn packets_rooms_and_sizes() {
    some("16 packets", |(_, stated)| stated.evaluate[..2] == [1, 16]);
    some("17 packets", |(_, stated)| stated.evaluate[..2] == [0, 10]);
    for room in [159, 160] {
        some("a room that is run", |(_, stated)| stated.evaluate[5] == room && stated.run[0] > 0);
    }
    some("room 161", |(_, stated)| stated.evaluate[5] == 161 && stated.run[..2] == [0, 11]);
    some("n 1,023", |(_, stated)| stated.accept[0] == 1 && stated.accept[3] == 1023);
    some("n 1,024", |(vector, stated)| vector.book.len() == 1030 && stated.accept[..2] == [0, 6]);
    some("D 4", |(_, stated)| stated.accept[0] == 1 && stated.accept[4] == 4);
    some("N over 65,535", |(_, stated)| stated.evaluate[2] > 65_535);
    for fields in 1..=8 {
        some("every k", |(_, stated)| stated.accept[..2] == [1, fields]);
    }
    for tables in 0..=15 {
        some("every m", |(_, stated)| stated.accept[0] == 1 && stated.accept[2] == tables);
    }
}

#[test]
fn places_and_depths() {
    // 32 negations and an id; 32 negations in all: depth 33 at the place of the 33rd, and depth 32.
    let nots = |count: usize| [vec![2, 0, 0, count as u8 + 1, 0, 3], vec![4; count], vec![0]].concat();
    some("depth 33", |(vector, stated)| vector.book == nots(32) && stated.accept[..3] == [0, 5, 38]);
    some("depth 32", |(vector, stated)| vector.book == nots(31) && stated.accept[0] == 1);
    for number in [5, 7] {
        let places = |case: &Case| (case.1.accept[..2] == [0, number]).then_some(case.1.accept[2]);
        let mut places: Vec<u32> = cases().iter().filter_map(places).collect();
        places.sort();
        places.dedup();
        assert!(places.len() >= 12, "{number} at {places:?}");
    }
    some("a body that ends early", |(vector, stated)| stated.accept[..3] == [0, 5, vector.book.len() as u32]);
    some("a bit at k", |(vector, stated)| {
        vector.book.len() > 5 && vector.book[0] == 2 && vector.book[4] == 4 && stated.accept[..2] == [0, 4]
    });
    some("a bit below k", |(vector, stated)| {
        vector.book.len() > 5 && vector.book[0] == 2 && vector.book[4] == 3 && stated.accept[0] == 1
    });
}

#[test]
fn schedules_and_buffers_of_all_lengths() {
    for length in [0, 1, 2, 3, 4, 5, 255, 256, 257, 8191, 8192, 8193] {
        some("a schedule", |(vector, stated)| vector.schedule.len() == length && stated.run[0] > 0);
    }
    some("running at the last step but one", |(_, stated)| {
        stated.run[0] == 2 && stated.run[1] + 1 == stated.evaluate[2]
    });
    some("one choice too many", |(vector, stated)| {
        stated.run[0] == 1 && vector.schedule.len() as u32 == stated.evaluate[2] + 1
    });
    some("a working area of one word too few", |(vector, stated)| {
        vector.work_words == 21_759 && stated.run[..2] == [0, 12]
    });
    some("further words of both buffers", |(vector, stated)| {
        vector.work_words > 21_760 && vector.result_words > 16 * 8 && stated.run[0] == 1
    });
}
