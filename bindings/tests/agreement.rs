//! The proved functions against the independent second program, on books at the edges and on generated ones.

use hamstedew::{Outcome, Ran, Refusal, Sizes, AREA_WORDS};
use second::generate::{damaged, random_packet, sound_book};
use second::rng::Rng;
use second::{Evaluated, Verdict};

const BOOKS: u64 = 20_000;

fn refusal(r: second::Refusal) -> Refusal {
    Refusal { number: r.number, place: r.place }
}

/// The second program's verdict, in the words of the proved one.
fn verdict(book: &[u8]) -> Result<Sizes, Refusal> {
    match second::accept(book) {
        Verdict::Accepted(shape) => Ok(Sizes {
            fields: shape.fields,
            tables: shape.tables,
            parts: shape.parts,
            deep: shape.concurrency,
        }),
        Verdict::Refused(r) => Err(refusal(r)),
    }
}

fn outcome(book: &[u8], packet: &[u16], result: &mut [u16]) -> Result<Outcome, Refusal> {
    match second::evaluate(book, packet, result) {
        Evaluated::Given { count, steps, parts, concurrency, room } => {
            Ok(Outcome { count, steps, parts, deep: concurrency, room })
        }
        Evaluated::Refused(r) => Err(refusal(r)),
    }
}

fn ran(
    book: &[u8],
    packet: &[u16],
    schedule: &[u8],
    result: &mut [u16],
    area: &mut [u16],
) -> Result<Ran, Refusal> {
    match second::run(book, packet, schedule, result, area) {
        second::Ran::Finished { steps, count } => Ok(Ran::Finished { steps: steps as usize, count }),
        second::Ran::Running { steps, live, ready } => {
            Ok(Ran::Running { steps: steps as usize, live, ready })
        }
        second::Ran::Refused(r) => Err(refusal(r)),
    }
}

/// Mostly a sound book, and now and then one at the edges; a third of them damaged in a byte.
fn some_book(rng: &mut Rng, edges: &[Vec<u8>]) -> Vec<u8> {
    let book = if rng.chance(80) { sound_book(rng) } else { rng.pick(edges).clone() };
    if rng.chance(33) {
        return damaged(rng, &book);
    }
    book
}

/// As many words as there are fields, or now and then another number of words.
fn words_for(rng: &mut Rng, fields: usize) -> usize {
    if rng.chance(4) {
        return rng.below(10);
    }
    fields
}

/// A result of at least 16·k words, or now and then of one fewer.
fn random_words(rng: &mut Rng, fields: usize) -> Vec<u16> {
    let needed = 16 * fields;
    let words = if rng.chance(4) { needed - 1 } else { needed + rng.below(4) };
    (0..words).map(|_| rng.number() as u16).collect()
}

/// From one word too few for the working area to two more than it needs.
fn area_words(rng: &mut Rng) -> usize {
    AREA_WORDS + 2 - rng.below(4)
}

/// A schedule that finishes, mostly, or ends somewhere before.
fn some_schedule(rng: &mut Rng, book: &[u8], packet: &[u16]) -> Vec<u8> {
    let steps = outcome(book, packet, &mut [0; 128]).map_or(9, |given| given.steps.min(8192) as usize);
    let length = if rng.chance(60) { steps + rng.below(3) } else { rng.below(steps + 1) };
    rng.bytes(length)
}

/// Answers that were met: 0 for an answer, else the number of the refusal.
type Met = [u64; 15];

fn count<A>(met: &mut Met, answer: &Result<A, Refusal>) {
    let number = answer.as_ref().err().map_or(0, |r| r.number);
    met[number as usize] += 1;
}

fn for_books(seed: u64, mut judge: impl FnMut(&mut Rng, &[u8])) {
    let edges = second::edges::books();
    for number in 0..BOOKS {
        let mut rng = Rng::for_case(seed, number);
        let book = some_book(&mut rng, &edges);
        judge(&mut rng, &book);
    }
}

#[test]
fn verdicts_agree() {
    let mut met = Met::default();
    for_books(1, |_, book| {
        let ours = hamstedew::accept(book);
        assert_eq!(ours, verdict(book), "{book:02x?}");
        count(&mut met, &ours);
    });
    assert!((0..8).all(|number| met[number] > 0), "every verdict is met: {met:?}");
}

#[test]
fn packets_agree_and_every_word_of_the_result() {
    let mut met = Met::default();
    for_books(2, |rng, book| {
        let fields = book.first().map_or(1, |k| (*k as usize).clamp(1, 8));
        let packet_words = words_for(rng, fields);
        let packet = random_packet(rng, packet_words);
        let before = random_words(rng, fields);
        let (mut ours, mut theirs) = (before.clone(), before);
        let answer = hamstedew::evaluate(book, &packet, &mut ours);
        assert_eq!(answer, outcome(book, &packet, &mut theirs), "{book:02x?} on {packet:?}");
        assert_eq!(ours, theirs, "{book:02x?} on {packet:?}");
        count(&mut met, &answer);
    });
    let all = [0, 1, 2, 3, 4, 5, 6, 7, 8, 9, 10, 12];
    assert!(all.iter().all(|number| met[*number] > 0), "every answer is met: {met:?}");
}

#[test]
fn runs_agree_and_every_word_of_both_buffers() {
    let mut met = Met::default();
    let mut running = 0;
    for_books(3, |rng, book| {
        let fields = book.first().map_or(1, |k| (*k as usize).clamp(1, 8));
        let packet_words = words_for(rng, fields);
        let packet = random_packet(rng, packet_words);
        let schedule = some_schedule(rng, book, &packet);
        let result_before = random_words(rng, fields);
        let area_before = vec![rng.number() as u16 | 1; area_words(rng)];
        let (mut result, mut area) = (result_before.clone(), area_before.clone());
        let (mut their_result, mut their_area) = (result_before, area_before);
        let answer = hamstedew::run(book, &packet, &schedule, &mut result, &mut area);
        let theirs = ran(book, &packet, &schedule, &mut their_result, &mut their_area);
        assert_eq!(answer, theirs, "{book:02x?} on {packet:?} under {schedule:?}");
        assert!(result == their_result && area == their_area, "{book:02x?} on {packet:?} under {schedule:?}");
        running += matches!(answer, Ok(Ran::Running { .. })) as u64;
        count(&mut met, &answer);
    });
    let all = [0, 1, 2, 3, 4, 5, 6, 7, 8, 9, 10, 11, 12];
    assert!(all.iter().all(|number| met[*number] > 0), "every answer is met: {met:?}");
    assert!(running > 100, "{running} were running");
}

#[test]
fn the_book_of_17_bytes() {
    let book = [2, 0, 0, 11, 0, 3, 7, 1, 2, 3, 0, 0, 1, 3, 1, 0, 2];
    assert_eq!(hamstedew::accept(&book), Ok(Sizes { fields: 2, tables: 0, parts: 3, deep: 1 }));
    let mut result = [7; 33];
    let given = hamstedew::evaluate(&book, &[5, 9], &mut result);
    assert_eq!(given, Ok(Outcome { count: 1, steps: 4, parts: 3, deep: 1, room: 3 }));
    assert_eq!(result[..2], [1, 2]);
    assert_eq!(result[2..], [7; 31]);

    let mut area = [1; AREA_WORDS];
    let finished = hamstedew::run(&book, &[5, 9], &[0; 4], &mut result, &mut area);
    assert_eq!(finished, Ok(Ran::Finished { steps: 4, count: 1 }));
    assert_eq!(area, [0; AREA_WORDS]);
    let running = hamstedew::run(&book, &[5, 9], &[0; 2], &mut result, &mut area);
    assert_eq!(running, Ok(Ran::Running { steps: 2, live: 3, ready: 1 }));
}
