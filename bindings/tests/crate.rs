//! What the crate adds to the proved functions: constants, refusals as errors, and packets in a vector.

use hamstedew::refusal::*;
use hamstedew::{accept, packets, Refusal};
use std::collections::HashSet;
use std::error::Error;

/// Table 2 finds the origin from the source, table 3 marks the packet beside it, and table 1 rewrites the source after
/// both: the book of `examples/4-right-left-first.txt`.
const ARCHIVE: [u8; 62] = [
    3, 3, 0, 10, 0, 7, 0, 15, 0, 1, 0, 15, 1, 2, 0, 4, 0, 4, // k, m and the contents
    6, 7, 2, 4, 8, 2, 8, 3, 8, 1, // main policy
    5, 6, 2, 0, 0, 7, 3, 0, 0, 100, 4, 2, 0, 0, 7, // table 1
    5, 6, 2, 0, 0, 7, 3, 1, 2, 189, 4, 2, 0, 0, 7, // table 2
    3, 2, 0, 1, // table 3
];

#[test]
fn constants_are_those_of_the_header() {
    let header = include_str!("../../include/hamstedew.h");
    let limits = [
        ("MOST_BYTES", hamstedew::MOST_BYTES),
        ("MOST_FIELDS", hamstedew::MOST_FIELDS),
        ("MOST_TABLES", hamstedew::MOST_TABLES),
        ("MOST_DEPTH", hamstedew::MOST_DEPTH),
        ("MOST_PARTS", hamstedew::MOST_PARTS),
        ("MOST_CONCURRENT", hamstedew::MOST_CONCURRENT),
        ("MOST_PACKETS", hamstedew::MOST_PACKETS),
        ("MOST_POSITIONS", hamstedew::MOST_POSITIONS),
        ("AREA_WORDS", hamstedew::AREA_WORDS),
    ];
    for (name, value) in limits {
        assert!(header.contains(&format!("#define HAMSTEDEW_{name} {value}\n")), "{name} {value}");
    }
    let numbers = [
        ("BOOK_LENGTH", BOOK_LENGTH),
        ("COUNTS", COUNTS),
        ("LENGTHS", LENGTHS),
        ("ENTRY_MASKS", ENTRY_MASKS),
        ("FORM", FORM),
        ("LIMITS", LIMITS),
        ("TYPING", TYPING),
        ("PACKET_LENGTH", PACKET_LENGTH),
        ("UNPOPULATED", UNPOPULATED),
        ("TOO_WIDE", TOO_WIDE),
        ("POSITIONS", POSITIONS),
        ("BUFFER_LENGTH", BUFFER_LENGTH),
        ("STUCK", STUCK),
    ];
    for (name, value) in numbers {
        assert!(header.contains(&format!("    HAMSTEDEW_{name} = {value},")), "{name} {value}");
    }
}

#[test]
fn refusals_are_errors_that_tell_why_and_where() {
    let told: HashSet<&str> = (1..=14).map(|number| Refusal { number, place: 0 }.reason()).collect();
    assert_eq!(told.len(), 14, "thirteen numbers and an unknown one, each with words of its own");

    let refusal: Box<dyn Error> = Box::new(accept(&[2, 0, 0, 2, 0, 3, 4, 9]).unwrap_err());
    assert_eq!(refusal.to_string(), "refused by 5 at place 7: a byte that cannot stand there");
    let short = accept(&[2]).unwrap_err();
    assert_eq!(short.to_string(), "refused by 1: the book has fewer than 2 or more than 4,096 bytes");
}

#[test]
fn packets_come_in_a_vector() {
    assert_eq!(packets(&ARCHIVE, &[7, 0, 0]), Ok(vec![vec![100, 701, 1]]));
    assert_eq!(packets(&ARCHIVE, &[8, 0, 0]), Ok(vec![vec![8, 0, 1]]));
    assert_eq!(packets(&ARCHIVE, &[7, 0]), Err(Refusal { number: PACKET_LENGTH, place: 0 }));
    assert_eq!(packets(&ARCHIVE, &[]), Err(Refusal { number: PACKET_LENGTH, place: 0 }));

    let drop = [1, 0, 0, 1, 0, 1, 1];
    assert_eq!(packets(&drop, &[3]), Ok(vec![]));
    let sum_of_two_sets = [1, 0, 0, 9, 0, 1, 5, 3, 0, 0, 9, 3, 0, 0, 4];
    assert_eq!(packets(&sum_of_two_sets, &[3]), Ok(vec![vec![4], vec![9]]));
}
