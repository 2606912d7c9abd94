//! The published meaning ("Meaning"), said as plainly as it can be: one packet in, its set out, and
//! `p beside q` gives what `p ; q` gives. No steps, no counts, no limit on the way.

use crate::book::Book;
use crate::policy::Policy;
use crate::sets::{packet_from_words, Packet};
use std::collections::BTreeSet;

/// What the policy gives for the packet; `tables[x]` is the body of table x.
pub fn meaning(policy: &Policy, tables: &[Option<Policy>], packet: &Packet) -> BTreeSet<Packet> {
    match policy {
        Policy::Id => BTreeSet::from([*packet]),
        Policy::Drop => BTreeSet::new(),
        Policy::Test(field, value) => itself_if(packet[*field as usize] == *value, packet),
        Policy::Set(field, value) => {
            let mut changed = *packet;
            changed[*field as usize] = *value;
            BTreeSet::from([changed])
        }
        Policy::Not(a) => itself_if(meaning(a, tables, packet).is_empty(), packet),
        Policy::Sum(p, q) => {
            let mut union = meaning(p, tables, packet);
            union.extend(meaning(q, tables, packet));
            union
        }
        Policy::Sequence(p, q) | Policy::Beside(_, _, p, q) => {
            meaning(p, tables, packet).iter().flat_map(|between| meaning(q, tables, between)).collect()
        }
        Policy::Table(x) => {
            let body = tables[*x as usize].as_ref().expect("the table is populated");
            meaning(body, tables, packet)
        }
    }
}

fn itself_if(passes: bool, packet: &Packet) -> BTreeSet<Packet> {
    if passes {
        BTreeSet::from([*packet])
    } else {
        BTreeSet::new()
    }
}

/// The meaning of an accepted book's main policy, which names no unpopulated table.
pub fn meaning_of_book(book: &Book, packet: &[u16]) -> BTreeSet<Packet> {
    let bodies: Vec<Option<Policy>> = (0..=book.shape.tables)
        .map(|entry| book.is_populated(entry).then(|| Policy::parse(book.bytes, book.body_start(entry)).0))
        .collect();
    let main = bodies[0].as_ref().expect("the main policy is populated");
    meaning(main, &bodies, &packet_from_words(packet))
}
