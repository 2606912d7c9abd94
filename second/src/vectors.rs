//! Vectors: what the three calls are given, and everything that is stated of their answers and of the
//! lent words afterwards, in the binary format told in README.md.

use crate::answers::*;
use crate::{accept, evaluate, run};

/// Bytes before a vector's book.
const HEAD: usize = 90;

#[derive(Clone, Debug, PartialEq, Eq)]
pub struct Vector {
    pub book: Vec<u8>,
    pub packet: Vec<u16>,
    pub schedule: Vec<u8>,
    pub result_words: u16,
    pub work_words: u16,
    pub seed: u16,
}

/// What is stated of a vector: six numbers for each call, the words that the calls leave in front of
/// the result, and the zeros that a run leaves in front of the working area.
#[derive(Clone, Debug, PartialEq, Eq)]
pub struct Stated {
    pub accept: [u32; 6],
    pub evaluate: [u32; 6],
    pub run: [u32; 6],
    pub given: Vec<u16>,
    pub ran: Vec<u16>,
    pub zeros: u16,
}

/// The buffers' rule: before a call, word i is 40,503·i + 257·seed + 1 mod 65,536.
pub fn marks(length: u16, seed: u16) -> Vec<u16> {
    let word = |i: u16| i.wrapping_mul(40_503).wrapping_add(seed.wrapping_mul(257)).wrapping_add(1);
    (0..length).map(word).collect()
}

impl Vector {
    /// What this program answers, having checked that every other lent word is kept.
    pub fn answered(&self) -> Stated {
        let before = marks(self.result_words, self.seed);
        let idle = marks(self.work_words, self.seed);
        let (mut given, mut ran, mut work) = (before.clone(), before.clone(), idle.clone());
        let verdict = accept(&self.book);
        let evaluated = evaluate(&self.book, &self.packet, &mut given);
        let finished = run(&self.book, &self.packet, &self.schedule, &mut ran, &mut work);
        let given_count = if let Evaluated::Given { count, .. } = evaluated { count } else { 0 };
        let ran_count = if let Ran::Finished { count, .. } = finished { count } else { 0 };
        let zeros = if let Ran::Refused(_) = finished { 0 } else { WORK_WORDS };
        assert!(work[..zeros].iter().all(|word| *word == 0) && work[zeros..] == idle[zeros..]);
        Stated {
            accept: verdict_numbers(verdict),
            evaluate: evaluated_numbers(evaluated),
            run: ran_numbers(finished),
            given: front(&given, given_count * self.packet.len(), &before),
            ran: front(&ran, ran_count * self.packet.len(), &before),
            zeros: zeros as u16,
        }
    }

    /// The vector with what is stated of it, behind its length.
    pub fn write(&self, stated: &Stated, out: &mut Vec<u8>) {
        let lengths = [self.book.len(), self.packet.len(), self.schedule.len()].map(short);
        let lent = [self.result_words, self.work_words, self.seed];
        let left = [short(stated.given.len()), short(stated.ran.len()), stated.zeros];
        let mut vector = Vec::new();
        write_words(&mut vector, &[lengths, lent, left].concat());
        for number in [stated.accept, stated.evaluate, stated.run].concat() {
            vector.extend(number.to_be_bytes());
        }
        vector.extend(&self.book);
        write_words(&mut vector, &self.packet);
        vector.extend(&self.schedule);
        write_words(&mut vector, &stated.given);
        write_words(&mut vector, &stated.ran);
        out.extend(short(vector.len()).to_be_bytes());
        out.extend(vector);
    }
}

fn short(length: usize) -> u16 {
    length.try_into().expect("lengths have two bytes")
}

/// The first words of a buffer, whose others must be kept.
fn front(after: &[u16], count: usize, before: &[u16]) -> Vec<u16> {
    assert_eq!(after[count..], before[count..], "other words are kept");
    after[..count].to_vec()
}

fn write_words(out: &mut Vec<u8>, words: &[u16]) {
    for word in words {
        out.extend(word.to_be_bytes());
    }
}

/// An answer's numbers: 0 for a refusal, 1 or 2 for what is answered, then its values.
fn numbers(kind: u32, values: &[u64]) -> [u32; 6] {
    let mut numbers = [kind, 0, 0, 0, 0, 0];
    for (number, value) in numbers[1..].iter_mut().zip(values) {
        *number = (*value).try_into().expect("numbers have four bytes");
    }
    numbers
}

fn refusal_numbers(refusal: Refusal) -> [u32; 6] {
    numbers(0, &[refusal.number as u64, refusal.place as u64])
}

fn verdict_numbers(verdict: Verdict) -> [u32; 6] {
    match verdict {
        Verdict::Refused(refusal) => refusal_numbers(refusal),
        Verdict::Accepted(Shape { fields, tables, parts, concurrency }) => {
            numbers(1, &[fields as u64, tables as u64, parts as u64, concurrency as u64])
        }
    }
}

fn evaluated_numbers(evaluated: Evaluated) -> [u32; 6] {
    match evaluated {
        Evaluated::Refused(refusal) => refusal_numbers(refusal),
        Evaluated::Given { count, steps, parts, concurrency, room } => {
            numbers(1, &[count as u64, steps, parts as u64, concurrency as u64, room])
        }
    }
}

fn ran_numbers(ran: Ran) -> [u32; 6] {
    match ran {
        Ran::Refused(refusal) => refusal_numbers(refusal),
        Ran::Finished { steps, count } => numbers(1, &[steps, count as u64]),
        Ran::Running { steps, live, ready } => numbers(2, &[steps, live as u64, ready as u64]),
    }
}

/// A vector with what is stated of it.
pub type Case = (Vector, Stated);

fn write_set(cases: &[Case]) -> Vec<u8> {
    let mut out = Vec::new();
    for (vector, stated) in cases {
        vector.write(stated, &mut out);
    }
    out
}

/// The file: the length of the right cases, these, and the wrong ones.
pub fn write_file(right: &[Case], wrong: &[Case]) -> Vec<u8> {
    let right = write_set(right);
    [&(right.len() as u32).to_be_bytes()[..], &right, &write_set(wrong)].concat()
}

/// A file read back, right cases and wrong ones. None if it breaks the format.
pub fn read_file(file: &[u8]) -> Option<(Vec<Case>, Vec<Case>)> {
    let (length, rest) = file.split_at_checked(4)?;
    let (right, wrong) = rest.split_at_checked(u32::from_be_bytes(length.try_into().ok()?) as usize)?;
    Some((read_set(right)?, read_set(wrong)?))
}

fn read_set(mut bytes: &[u8]) -> Option<Vec<Case>> {
    let mut cases = Vec::new();
    while !bytes.is_empty() {
        let (length, after) = bytes.split_at_checked(2)?;
        let (vector, after) = after.split_at_checked(u16::from_be_bytes([length[0], length[1]]) as usize)?;
        cases.push(read_vector(vector)?);
        bytes = after;
    }
    Some(cases)
}

fn read_words(bytes: &[u8]) -> Vec<u16> {
    bytes.chunks_exact(2).map(|pair| u16::from_be_bytes([pair[0], pair[1]])).collect()
}

fn read_vector(bytes: &[u8]) -> Option<Case> {
    let (head, mut rest) = bytes.split_at_checked(HEAD)?;
    let words = read_words(&head[..18]);
    let number = |i: usize| u32::from_be_bytes([0, 1, 2, 3].map(|j| head[18 + 4 * i + j]));
    let numbers = |call: usize| [0, 1, 2, 3, 4, 5].map(|i| number(6 * call + i));
    let mut take = |length: usize| -> Option<Vec<u8>> {
        let (part, after) = rest.split_at_checked(length)?;
        rest = after;
        Some(part.to_vec())
    };
    let book = take(words[0] as usize)?;
    let packet = read_words(&take(2 * words[1] as usize)?);
    let schedule = take(words[2] as usize)?;
    let given = read_words(&take(2 * words[6] as usize)?);
    let ran = read_words(&take(2 * words[7] as usize)?);
    let vector =
        Vector { book, packet, schedule, result_words: words[3], work_words: words[4], seed: words[5] };
    let (accept, evaluate, run) = (numbers(0), numbers(1), numbers(2));
    rest.is_empty().then_some((vector, Stated { accept, evaluate, run, given, ran, zeros: words[8] }))
}
