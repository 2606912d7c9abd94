//! Which vectors are made from a seed: document 01's trials, the edges of buffers, schedules and books,
//! then random ones; and those that state something wrong on purpose.

use crate::answers::*;
use crate::edges::{self, Edge};
use crate::generate::*;
use crate::policy::{balanced, book_of, sequence, set, sum, write_book, Entry, Policy};
use crate::rng::Rng;
use crate::run;
use crate::trials;
use crate::vectors::{marks, Case, Vector};

/// Random books are shorter than this, and so are most random schedules.
const LONG_BOOK: usize = 600;
const LONG_SCHEDULE: usize = 300;

/// The right cases of a seed: those at the edges first, then random ones up to `count`.
pub fn make(seed: u64, count: usize) -> Vec<Case> {
    let mut rng = Rng::new(seed);
    let mut cases: Vec<Case> = trials::all().iter().map(trials::Trial::case).collect();
    let mut vectors = buffer_edges(&mut rng);
    vectors.extend(schedule_edges(&mut rng));
    vectors.extend(edges::all().iter().map(|edge| edge_vector(&mut rng, edge)));
    vectors.truncate(count.saturating_sub(cases.len()));
    while cases.len() + vectors.len() < count {
        vectors.push(random_vector(&mut rng));
    }
    cases.extend(vectors.into_iter().map(|vector| (vector.clone(), vector.answered())));
    cases
}

/// Cases with one thing stated wrong in each: every number, words of packets, kept words and zeros.
pub fn wrong() -> Vec<Case> {
    let trials = trials::all();
    let named = |name: &str| trials.iter().find(|trial| trial.name == name).expect("a trial").case();
    let bases = ["the 17-byte book", "the printer's second example", "masks 01 and 01", "81 drops"];
    bases.iter().flat_map(|name| wrong_about(&named(name))).collect()
}

fn wrong_about(case: &Case) -> Vec<Case> {
    let (vector, right) = case;
    let mut cases = Vec::new();
    for number in 0..6 {
        for call in 0..3 {
            let mut stated = right.clone();
            [&mut stated.accept, &mut stated.evaluate, &mut stated.run][call][number] += 1;
            cases.push(stated);
        }
    }
    for word in 0..right.given.len().max(right.ran.len()) {
        let mut stated = right.clone();
        stated.given.get_mut(word).into_iter().for_each(|word| *word ^= 1);
        cases.push(stated);
        let mut stated = right.clone();
        stated.ran.get_mut(word).into_iter().for_each(|word| *word ^= 256);
        cases.push(stated);
    }
    cases.extend(wrong_kept_words(case));
    cases.retain(|stated| stated != right);
    cases.into_iter().map(|stated| (vector.clone(), stated)).collect()
}

/// The first kept word and the last one stated as another, a zero too few or too many.
fn wrong_kept_words(case: &Case) -> Vec<crate::vectors::Stated> {
    let (vector, right) = case;
    let before = marks(vector.result_words, vector.seed);
    let mut cases = Vec::new();
    for length in [1, before.len() - right.given.len()] {
        for evaluated in [true, false] {
            let mut stated = right.clone();
            let words = if evaluated { &mut stated.given } else { &mut stated.ran };
            let end = words.len() + length;
            words.extend(&before[words.len()..end.min(before.len())]);
            words.last_mut().into_iter().for_each(|word| *word ^= 1);
            cases.push(stated);
        }
    }
    let zeros = right.zeros;
    for zeros in [zeros.wrapping_sub(1), zeros + 1, 21_760 - zeros, vector.work_words, vector.work_words + 1]
    {
        let mut stated = right.clone();
        stated.zeros = zeros;
        cases.push(stated);
    }
    cases
}

/// A vector with the right buffers for its book.
fn vector_for(rng: &mut Rng, book: &[u8], packet: &[u16], schedule_length: usize) -> Vector {
    let fields = book.first().map_or(1, |k| (*k).clamp(1, 8) as u16);
    Vector {
        book: book.to_vec(),
        packet: packet.to_vec(),
        schedule: rng.bytes(schedule_length),
        result_words: 16 * fields,
        work_words: WORK_WORDS as u16,
        seed: rng.below(256) as u16,
    }
}

fn edge_vector(rng: &mut Rng, edge: &Edge) -> Vector {
    let steps = steps_of(&edge.book, &edge.packet);
    let length = schedule_length(rng, steps).min(LONG_SCHEDULE);
    vector_for(rng, &edge.book, &edge.packet, length)
}

/// A book that gives two packets of k fields in a few steps.
fn small_book(fields: u8) -> Vec<u8> {
    book_of(fields, &sum(set(0, 1), set(fields - 1, 2)))
}

/// Result buffers, working areas and packets of all lengths about the right ones.
fn buffer_edges(rng: &mut Rng) -> Vec<Vector> {
    let work = WORK_WORDS as u16;
    let mut vectors = Vec::new();
    for fields in [1, 2, 5, 8] {
        let book = small_book(fields);
        let packet = vec![7; fields as usize];
        let needed = 16 * fields as u16;
        let lengths = [
            (0, work),
            (needed - 1, work),
            (needed, work),
            (needed + 1, work + 1),
            (needed + 77, work + 300),
            (needed, work - 1),
            (needed, 0),
            (needed - 1, work - 1),
        ];
        for (result_words, work_words) in lengths {
            let schedule = rng.below(7);
            vectors.push(Vector { result_words, work_words, ..vector_for(rng, &book, &packet, schedule) });
        }
        for words in [0, fields as usize - 1, fields as usize + 1, 2 * fields as usize] {
            let mut vector = vector_for(rng, &book, &vec![7; words], 3);
            vector.result_words = needed - (words as u16 & 1);
            vectors.push(vector);
        }
    }
    vectors
}

/// Schedules of all lengths.
fn schedule_edges(rng: &mut Rng) -> Vec<Vector> {
    let long = book_of(2, &sequence(edges::drops(80), set(0, 3)));
    let example = book_of(2, &edges::example());
    let steps = steps_of(&long, &[5, 9]).expect("not refused") as usize;
    let mut vectors = Vec::new();
    for length in [0, 1, 2, 3, 4, 5, 255, 256, 257, 8191, 8192, 8193] {
        vectors.push(vector_for(rng, &example, &[5, 9], length));
    }
    for length in (0..=steps + 1).step_by(steps / 12).chain([steps - 1, steps, steps + 1]) {
        vectors.push(vector_for(rng, &long, &[5, 9], length));
    }
    vectors
}

fn random_vector(rng: &mut Rng) -> Vector {
    let book = match rng.below(10) {
        0 | 1 => {
            let sound = sound_book_of_moderate_length(rng);
            damaged(rng, &sound)
        }
        2 => {
            let number = *rng.pick(&[TYPING, UNPOPULATED, TOO_WIDE, TOO_ROOMY]);
            book_refused_by(rng, number)
        }
        3 if rng.chance(30) => book_about_too_large(rng),
        _ => sound_book_of_moderate_length(rng),
    };
    let fields = book.first().map_or(1, |k| (*k as usize).clamp(1, MOST_FIELDS));
    let packet = random_packet(rng, fields);
    let length = schedule_length(rng, steps_of(&book, &packet)).min(LONG_SCHEDULE);
    let mut vector = vector_for(rng, &book, &packet, length);
    if rng.chance(30) {
        vector.result_words += rng.below(40) as u16;
        vector.work_words += rng.below(40) as u16;
    }
    match rng.below(40) {
        0 => vector.result_words = vector.result_words.min(16 * fields as u16) - 1,
        1 => vector.work_words = WORK_WORDS as u16 - 1,
        2 => vector.packet.truncate(rng.below(fields)),
        3 => vector.packet.push(rng.below(65_536) as u16),
        _ => {}
    }
    vector
}

/// A table used often, with n a little under or over 1,023.
fn book_about_too_large(rng: &mut Rng) -> Vec<u8> {
    let leaves = rng.between(10, 60);
    let in_table = 2 * leaves - 1;
    // So many uses and the sequences between them make uses·(in_table + 2) - 1 parts.
    let uses = (MOST_PARTS + 1) / (in_table + 2) + rng.below(2);
    let table = balanced(sequence, &vec![set(0, 1); leaves]);
    let main = balanced(sequence, &vec![Policy::Table(1); uses]);
    write_book(1, &[Entry::new(0, 1, &main), Entry::new(0, 1, &table)])
}

/// Of many books, sound or damaged, the first that a run on the packet of zeroes refuses by this number.
fn book_refused_by(rng: &mut Rng, number: u8) -> Vec<u8> {
    loop {
        let sound = sound_book(rng);
        let book = if number == TYPING { damaged(rng, &sound) } else { sound };
        let packet = vec![0; book[0] as usize];
        let (mut result, mut work) = (vec![0; 16 * packet.len()], vec![0; WORK_WORDS]);
        let ran = run(&book, &packet, &[], &mut result, &mut work);
        if matches!(ran, Ran::Refused(refusal) if refusal.number == number) && book.len() < LONG_BOOK {
            return book;
        }
    }
}

/// Vectors are kept in a file: books of many hundred bytes are left to the comparing of programs.
fn sound_book_of_moderate_length(rng: &mut Rng) -> Vec<u8> {
    loop {
        let book = sound_book(rng);
        if book.len() < LONG_BOOK {
            return book;
        }
    }
}

/// How often accept, evaluate and run are stated to give each number; number 0 counts what is no refusal.
pub fn tally(cases: &[Case]) -> [[usize; 15]; 3] {
    let mut tally = [[0; 15]; 3];
    for (_, stated) in cases {
        for (call, numbers) in [stated.accept, stated.evaluate, stated.run].iter().enumerate() {
            let number = if numbers[0] == 0 { numbers[1] } else { 0 };
            tally[call][number as usize] += 1;
        }
    }
    tally
}
