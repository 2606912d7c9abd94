//! Every trial of document 01's "Trials at the edges", and both examples of the run printer.

use second::answers::*;
use second::policy::*;
use second::{accept, evaluate, print, run, Evaluated, Ran, Refusal, Verdict};

const ALL_OF_TWO: u8 = 0b11;
const PACKET: [u16; 2] = [5, 9];
const EXAMPLE: [u8; 17] = [2, 0, 0, 0x0B, 0, 3, 7, 1, 2, 3, 0, 0, 1, 3, 1, 0, 2];

/// A main policy over two fields, with R empty and W all fields.
fn two_fields(main: &Policy) -> Vec<u8> {
    write_book(2, &[Entry::new(0, ALL_OF_TWO, main)])
}

struct Given {
    packets: Vec<Vec<u16>>,
    steps: u64,
    parts: usize,
    concurrency: usize,
    room: u64,
}

fn given(book: &[u8], packet: &[u16]) -> Given {
    let fields = packet.len();
    let mut result = vec![0xABCD; 16 * fields + 3];
    match evaluate(book, packet, &mut result) {
        Evaluated::Given { count, steps, parts, concurrency, room } => {
            assert!(result[count * fields..].iter().all(|word| *word == 0xABCD), "other words are kept");
            let packets = result.chunks_exact(fields).take(count).map(<[u16]>::to_vec).collect();
            Given { packets, steps, parts, concurrency, room }
        }
        Evaluated::Refused(refusal) => panic!("{refusal:?}"),
    }
}

fn evaluate_refused(book: &[u8], packet: &[u16]) -> Refusal {
    let mut result = vec![0xABCD; 16 * packet.len()];
    match evaluate(book, packet, &mut result) {
        Evaluated::Refused(refusal) => {
            assert!(result.iter().all(|word| *word == 0xABCD), "a refusal keeps the result");
            refusal
        }
        other => panic!("{other:?}"),
    }
}

fn run_on(book: &[u8], packet: &[u16], schedule: &[u8]) -> Ran {
    let mut result = vec![0xABCD; 16 * packet.len() + 2];
    let mut work = vec![0x1234; WORK_WORDS + 5];
    let ran = run(book, packet, schedule, &mut result, &mut work);
    let kept_from = match ran {
        Ran::Finished { count, .. } => count * packet.len(),
        _ => 0,
    };
    assert!(result[kept_from..].iter().all(|word| *word == 0xABCD));
    let owed = if let Ran::Refused(_) = ran { 0x1234 } else { 0 };
    assert!(work[..WORK_WORDS].iter().all(|word| *word == owed));
    assert!(work[WORK_WORDS..].iter().all(|word| *word == 0x1234));
    ran
}

fn accept_refused(book: &[u8]) -> Refusal {
    match accept(book) {
        Verdict::Refused(refusal) => refusal,
        other => panic!("{other:?}"),
    }
}

fn expect_set(main: &Policy, packet: [u16; 2], packets: &[[u16; 2]], steps: u64) {
    let found = given(&two_fields(main), &packet);
    assert_eq!(found.packets, packets);
    assert_eq!(found.steps, steps);
}

#[test]
fn id_gives_the_packet_and_the_empty_schedule_finishes() {
    expect_set(&Policy::Id, PACKET, &[PACKET], 0);
    assert_eq!(run_on(&two_fields(&Policy::Id), &PACKET, &[]), Ran::Finished { steps: 0, count: 1 });
}

#[test]
fn drop_gives_nothing() {
    expect_set(&Policy::Drop, PACKET, &[], 1);
}

#[test]
fn a_test_passes_or_not() {
    expect_set(&Policy::Test(0, 5), PACKET, &[PACKET], 1);
    expect_set(&Policy::Test(0, 5), [6, 9], &[], 1);
}

#[test]
fn a_negated_test() {
    expect_set(&not(Policy::Test(0, 5)), PACKET, &[], 3);
    expect_set(&not(Policy::Test(0, 5)), [6, 9], &[[6, 9]], 3);
}

#[test]
fn a_merged_duplicate_is_one_packet() {
    expect_set(&sum(set(0, 1), set(0, 1)), PACKET, &[[1, 9]], 4);
}

#[test]
fn the_example_book() {
    let main = beside(1, 2, set(0, 1), set(1, 2));
    assert_eq!(two_fields(&main), EXAMPLE);
    let found = given(&EXAMPLE, &PACKET);
    assert_eq!(found.packets, [[1, 2]]);
    assert_eq!((found.steps, found.parts, found.concurrency, found.room), (4, 3, 1, 3));
}

#[test]
fn packets_are_never_paired_across() {
    let zeroes = sequence(set(0, 0), set(1, 0));
    let ones = sequence(set(0, 1), set(1, 1));
    let main = sequence(sum(zeroes, ones), beside(1, 2, Policy::Id, Policy::Id));
    let found = given(&two_fields(&main), &PACKET);
    assert_eq!(found.packets, [[0, 0], [1, 1]]);
    assert_eq!((found.steps, found.parts, found.room), (15, 11, 7));
    assert_eq!(run_on(&two_fields(&main), &PACKET, &[0; 15]), Ran::Finished { steps: 15, count: 2 });
}

#[test]
fn concurrent_parts_that_are_not_right() {
    let same_masks = beside(1, 1, Policy::Id, Policy::Id);
    assert_eq!(accept_refused(&two_fields(&same_masks)), Refusal::at(TYPING, 6));
    let test_beside_set = beside(0, 1, Policy::Test(0, 5), set(0, 1));
    assert_eq!(accept_refused(&two_fields(&test_beside_set)), Refusal::at(TYPING, 6));
}

#[test]
fn not_over_a_set_is_a_wrong_kind() {
    assert_eq!(accept_refused(&two_fields(&not(set(0, 1)))), Refusal::at(FORM, 7));
}

/// Fields 0 to count - 1 each (to 0 + to 1), in sequence.
fn spread(count: u8) -> Policy {
    let fields: Vec<Policy> = (0..count).map(|f| sum(set(f, 0), set(f, 1))).collect();
    chained(sequence, &fields)
}

#[test]
fn sixteen_packets_and_more() {
    let book = |count| write_book(5, &[Entry::new(0, 0b11111, &spread(count))]);
    let packet = [3, 1, 4, 1, 5];
    let found = given(&book(4), &packet);
    assert_eq!(found.packets.len(), 16);
    assert_eq!(found.steps, 19);
    assert_eq!(run_on(&book(4), &packet, &[1; 19]), Ran::Finished { steps: 19, count: 16 });
    assert_eq!(evaluate_refused(&book(5), &packet), Refusal::plain(TOO_WIDE));
    assert_eq!(run_on(&book(5), &packet, &[]), Ran::Refused(Refusal::plain(TOO_WIDE)));
}

fn drops(count: usize) -> Policy {
    balanced(sum, &vec![Policy::Drop; count])
}

#[test]
fn rooms_about_160() {
    let eighty = drops(80);
    assert_eq!(given(&two_fields(&eighty), &PACKET).room, 159);
    let then_id = two_fields(&sequence(eighty, Policy::Id));
    let found = given(&then_id, &PACKET);
    assert_eq!(found.room, 160);
    assert_eq!(run_on(&then_id, &PACKET, &[7; 300]), Ran::Finished { steps: found.steps, count: 0 });
    let eighty_one = two_fields(&drops(81));
    assert_eq!(given(&eighty_one, &PACKET).room, 161);
    assert_eq!(run_on(&eighty_one, &PACKET, &[]), Ran::Refused(Refusal::plain(TOO_ROOMY)));
}

#[test]
fn parts_up_to_1023() {
    // Of sequences and ids alone this is a predicate, so its negation has the right form.
    let ids = balanced(sequence, &vec![Policy::Id; 512]);
    assert_eq!(given(&two_fields(&ids), &PACKET).parts, 1023);
    assert_eq!(accept_refused(&two_fields(&not(ids))), Refusal::plain(TOO_LARGE));
}

fn nested_beside(count: usize) -> Policy {
    (0..count).fold(Policy::Id, |inside, _| beside(0, 0, inside, Policy::Id))
}

#[test]
fn four_nested_concurrent_parts_but_not_five() {
    assert_eq!(given(&two_fields(&nested_beside(4)), &PACKET).concurrency, 4);
    assert_eq!(accept_refused(&two_fields(&nested_beside(5))), Refusal::plain(TOO_LARGE));
}

fn example_input(schedule: &[u8]) -> Vec<u8> {
    [&[0, 0x11][..], &EXAMPLE, &[0, 5, 0, 9], schedule].concat()
}

#[test]
fn the_printer_examples() {
    assert_eq!(print(&example_input(&[0; 4])), b"finished 4 1\n1 2\n");
    assert_eq!(print(&example_input(&[0; 2])), b"running 2 3 1\n");
}
