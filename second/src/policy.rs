//! A policy as a tree, the bytes it is written as, and books put together from policies.

use crate::codes::*;

#[derive(Clone, Debug, PartialEq, Eq)]
pub enum Policy {
    Id,
    Drop,
    Test(u8, u16),
    Set(u8, u16),
    Not(Box<Policy>),
    Sum(Box<Policy>, Box<Policy>),
    Sequence(Box<Policy>, Box<Policy>),
    Beside(u8, u8, Box<Policy>, Box<Policy>),
    Table(u8),
}

pub fn set(field: u8, value: u16) -> Policy {
    Policy::Set(field, value)
}

pub fn not(a: Policy) -> Policy {
    Policy::Not(Box::new(a))
}

pub fn sum(p: Policy, q: Policy) -> Policy {
    Policy::Sum(Box::new(p), Box::new(q))
}

pub fn sequence(p: Policy, q: Policy) -> Policy {
    Policy::Sequence(Box::new(p), Box::new(q))
}

pub fn beside(left: u8, right: u8, p: Policy, q: Policy) -> Policy {
    Policy::Beside(left, right, Box::new(p), Box::new(q))
}

/// The parts joined two by two in a tree of least depth.
pub fn balanced(join: fn(Policy, Policy) -> Policy, parts: &[Policy]) -> Policy {
    match parts {
        [one] => one.clone(),
        _ => {
            let (first, second) = parts.split_at(parts.len() / 2);
            join(balanced(join, first), balanced(join, second))
        }
    }
}

/// The parts joined as a ; (b ; (c ; ..)).
pub fn chained(join: fn(Policy, Policy) -> Policy, parts: &[Policy]) -> Policy {
    let (last, before) = parts.split_last().expect("a chain has a part");
    before.iter().rev().fold(last.clone(), |rest, part| join(part.clone(), rest))
}

impl Policy {
    pub fn write(&self, out: &mut Vec<u8>) {
        match self {
            Policy::Id => out.push(ID),
            Policy::Drop => out.push(DROP),
            Policy::Test(field, value) => write_leaf(TEST, *field, *value, out),
            Policy::Set(field, value) => write_leaf(SET, *field, *value, out),
            Policy::Not(a) => write_parts(&[NOT], &[a], out),
            Policy::Sum(p, q) => write_parts(&[SUM], &[p, q], out),
            Policy::Sequence(p, q) => write_parts(&[SEQUENCE], &[p, q], out),
            Policy::Beside(left, right, p, q) => write_parts(&[BESIDE, *left, *right], &[p, q], out),
            Policy::Table(x) => out.extend([TABLE, *x]),
        }
    }

    pub fn bytes(&self) -> Vec<u8> {
        let mut out = Vec::new();
        self.write(&mut out);
        out
    }

    /// The policy written at `at`, and the place after it. The bytes must be well formed.
    pub fn parse(bytes: &[u8], at: usize) -> (Policy, usize) {
        let code = bytes[at];
        let below = at + 1 + OPERANDS_AND_PARTS[code as usize].0;
        match code {
            ID => (Policy::Id, below),
            DROP => (Policy::Drop, below),
            TEST => (Policy::Test(bytes[at + 1], two_bytes(bytes, at + 2)), below),
            SET => (Policy::Set(bytes[at + 1], two_bytes(bytes, at + 2)), below),
            TABLE => (Policy::Table(bytes[at + 1]), below),
            NOT => {
                let (a, after) = Policy::parse(bytes, below);
                (not(a), after)
            }
            _ => {
                let (p, between) = Policy::parse(bytes, below);
                let (q, after) = Policy::parse(bytes, between);
                let joined = match code {
                    SUM => sum(p, q),
                    SEQUENCE => sequence(p, q),
                    _ => beside(bytes[at + 1], bytes[at + 2], p, q),
                };
                (joined, after)
            }
        }
    }
}

fn write_leaf(code: u8, field: u8, value: u16, out: &mut Vec<u8>) {
    let [high, low] = value.to_be_bytes();
    out.extend([code, field, high, low]);
}

fn write_parts(head: &[u8], parts: &[&Policy], out: &mut Vec<u8>) {
    out.extend(head);
    for part in parts {
        part.write(out);
    }
}

/// An entry of a book to be written: R, W and the bytes of the body.
#[derive(Clone, Debug)]
pub struct Entry {
    pub readable: u8,
    pub writable: u8,
    pub body: Vec<u8>,
}

impl Entry {
    pub fn new(readable: u8, writable: u8, policy: &Policy) -> Entry {
        Entry { readable, writable, body: policy.bytes() }
    }

    pub fn unpopulated(readable: u8, writable: u8) -> Entry {
        Entry { readable, writable, body: Vec::new() }
    }
}

/// The book of these entries, whether it keeps the rules or not.
pub fn write_book(fields: u8, entries: &[Entry]) -> Vec<u8> {
    let mut book = vec![fields, (entries.len() - 1) as u8];
    for entry in entries {
        book.extend((entry.body.len() as u16).to_be_bytes());
        book.extend([entry.readable, entry.writable]);
    }
    for entry in entries {
        book.extend(&entry.body);
    }
    book
}

/// A book of a main policy alone, with R empty and W all fields.
pub fn book_of(fields: u8, main: &Policy) -> Vec<u8> {
    write_book(fields, &[Entry::new(0, crate::book::all_fields(fields as usize), main)])
}
