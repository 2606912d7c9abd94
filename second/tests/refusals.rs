//! The order of the refusals and their places.

use second::answers::*;
use second::policy::*;
use second::{accept, evaluate, print, run, Evaluated, Ran, Refusal, Verdict};

fn refusal(book: &[u8]) -> (u8, usize) {
    match accept(book) {
        Verdict::Refused(Refusal { number, place }) => (number, place),
        accepted => panic!("{accepted:?}"),
    }
}

fn is_accepted(book: &[u8]) -> bool {
    matches!(accept(book), Verdict::Accepted(_))
}

/// A book of two fields with this main body.
fn with_body(body: &[u8]) -> Vec<u8> {
    write_book(2, &[Entry { readable: 0, writable: 3, body: body.to_vec() }])
}

/// A book of two fields with this main body and one table with this body.
fn with_table(main: &[u8], table: &[u8]) -> Vec<u8> {
    let main = Entry { readable: 0, writable: 3, body: main.to_vec() };
    let table = Entry { readable: 1, writable: 2, body: table.to_vec() };
    write_book(2, &[main, table])
}

#[test]
fn sizes_header_and_lengths() {
    assert_eq!(refusal(&[]), (1, 0));
    assert_eq!(refusal(&[2]), (1, 0));
    assert_eq!(refusal(&[0; 4097]), (1, 0));
    assert_eq!(refusal(&[0; 4096]), (2, 0));
    assert_eq!(refusal(&[0, 0]), (2, 0));
    assert_eq!(refusal(&[9, 0]), (2, 0));
    assert_eq!(refusal(&[8, 16]), (2, 0));
    assert_eq!(refusal(&[8, 15]), (3, 0));
    assert_eq!(refusal(&[1, 0, 0, 1, 0, 1]), (3, 0));
    assert_eq!(refusal(&[1, 0, 0, 1, 0, 1, 0, 0]), (3, 0));
    assert!(is_accepted(&[1, 0, 0, 1, 0, 1, 0]));
}

#[test]
fn masks_of_every_entry_come_before_form() {
    assert_eq!(refusal(&[1, 0, 0, 1, 1, 1, 9]), (4, 0));
    assert_eq!(refusal(&[1, 0, 0, 1, 2, 0, 9]), (4, 0));
    assert_eq!(refusal(&[1, 0, 0, 1, 0, 2, 9]), (4, 0));
    // An unpopulated table's masks count too.
    assert_eq!(refusal(&[1, 1, 0, 1, 0, 1, 0, 0, 1, 1, 0]), (4, 0));
}

#[test]
fn the_first_byte_that_cannot_stand() {
    assert_eq!(refusal(&with_body(&[])), (5, 6));
    assert_eq!(refusal(&with_body(&[9])), (5, 6));
    assert_eq!(refusal(&with_body(&[255])), (5, 6));
    assert_eq!(refusal(&with_body(&[0, 0])), (5, 7));
    assert_eq!(refusal(&with_body(&[2])), (5, 7));
    assert_eq!(refusal(&with_body(&[2, 2])), (5, 7));
    assert_eq!(refusal(&with_body(&[2, 8])), (5, 7));
    assert_eq!(refusal(&with_body(&[2, 255, 0, 0])), (5, 7));
    assert_eq!(refusal(&with_body(&[2, 1])), (5, 8));
    assert_eq!(refusal(&with_body(&[3, 1, 0])), (5, 9));
    assert_eq!(refusal(&with_body(&[4])), (5, 7));
    assert_eq!(refusal(&with_body(&[5, 0])), (5, 8));
    assert_eq!(refusal(&with_body(&[6, 0, 7])), (5, 9));
    assert_eq!(refusal(&with_body(&[7, 4, 9])), (5, 7));
    assert_eq!(refusal(&with_body(&[7, 1, 8])), (5, 8));
    assert_eq!(refusal(&with_body(&[7, 1, 2, 0])), (5, 10));
    assert_eq!(refusal(&with_body(&[8])), (5, 7));
    assert_eq!(refusal(&with_body(&[8, 0])), (5, 7));
    assert_eq!(refusal(&with_body(&[8, 1])), (5, 7));
}

#[test]
fn wrong_kinds_stand_at_their_code_byte() {
    assert_eq!(refusal(&with_body(&[4, 5, 0, 3, 0, 0, 0])), (5, 9));
    assert_eq!(refusal(&with_body(&[4, 4, 7, 0, 0, 0, 0])), (5, 8));
    assert_eq!(refusal(&with_table(&[4, 8, 1], &[0])), (5, 11));
    assert_eq!(refusal(&with_table(&[0], &[8, 1])), (5, 11));
    assert_eq!(refusal(&with_table(&[8, 2], &[0])), (5, 11));
    assert!(is_accepted(&with_table(&[8, 1], &[0])));
}

#[test]
fn bodies_are_read_in_order() {
    assert_eq!(refusal(&with_table(&[9], &[9])), (5, 10));
    assert_eq!(refusal(&with_table(&[0], &[9])), (5, 11));
    // A body that ends early is refused at its own end, though bytes follow.
    assert_eq!(refusal(&with_table(&[5, 0], &[0])), (5, 12));
}

fn not_chain(depth: usize) -> Vec<u8> {
    [vec![4; depth - 1], vec![0]].concat()
}

#[test]
fn depth_32_and_33() {
    assert!(is_accepted(&with_body(&not_chain(32))));
    assert_eq!(refusal(&with_body(&not_chain(33))), (5, 6 + 32));
    // A body that ends at depth 33 ends early; there is no byte to blame.
    assert_eq!(refusal(&with_body(&[4; 32])), (5, 6 + 32));
    assert!(is_accepted(&with_table(&[8, 1], &not_chain(32))));
    assert_eq!(refusal(&with_table(&[8, 1], &not_chain(33))), (5, 12 + 32));
}

fn nested_beside(count: usize) -> Policy {
    (0..count).fold(Policy::Id, |inside, _| beside(0, 0, inside, Policy::Id))
}

#[test]
fn five_before_six_before_seven() {
    let wrong = beside(1, 1, Policy::Id, Policy::Id);
    let deep_and_wrong = sequence(wrong.clone(), nested_beside(5));
    let wrong_bytes = deep_and_wrong.bytes();
    assert_eq!(refusal(&with_table(&wrong_bytes, &[9])).0, 5);
    assert_eq!(refusal(&with_table(&wrong_bytes, &[0])), (6, 0));
    assert_eq!(refusal(&with_table(&wrong.bytes(), &[0])), (7, 10));
}

#[test]
fn sizes_count_under_each_use() {
    let table_of = |ids: usize| balanced(sequence, &vec![Policy::Id; ids]).bytes();
    let two_uses = sequence(Policy::Table(1), Policy::Table(1)).bytes();
    // 3 and twice 509 are 1,021; 3 and twice 511 are 1,025.
    assert!(is_accepted(&with_table(&two_uses, &table_of(255))));
    assert_eq!(refusal(&with_table(&two_uses, &table_of(256))), (6, 0));
    // Never used, it has no such limit.
    assert!(is_accepted(&with_table(&[0], &table_of(1000))));
    assert!(is_accepted(&with_table(&[0], &nested_beside(9).bytes())));
    let three_above =
        |x: Policy| beside(0, 0, beside(0, 0, beside(0, 0, x, Policy::Id), Policy::Id), Policy::Id);
    let wide = |table: &Policy| {
        let main = Entry::new(0, 3, &three_above(Policy::Table(1)));
        write_book(2, &[main, Entry::new(0, 0, table)])
    };
    assert!(is_accepted(&wide(&nested_beside(1))));
    assert_eq!(refusal(&wide(&nested_beside(2))), (6, 0));
}

#[test]
fn each_condition_of_a_concurrent_part() {
    let at_main = |p: Policy| refusal(&with_body(&p.bytes()));
    assert_eq!(at_main(beside(0, 2, set(0, 1), Policy::Id)), (7, 6));
    assert_eq!(at_main(beside(1, 0, Policy::Id, set(1, 1))), (7, 6));
    assert_eq!(at_main(beside(1, 3, Policy::Id, Policy::Id)), (7, 6));
    assert_eq!(at_main(beside(1, 2, Policy::Test(1, 0), Policy::Id)), (7, 6));
    assert_eq!(at_main(beside(1, 2, Policy::Id, Policy::Test(0, 0))), (7, 6));
}

#[test]
fn the_first_in_book_order_though_judged_last() {
    let inner = beside(1, 1, Policy::Id, Policy::Id);
    let outer = beside(2, 2, inner.clone(), Policy::Id);
    assert_eq!(refusal(&with_body(&sequence(Policy::Id, outer).bytes())), (7, 8));
    let right_outer = beside(1, 2, inner, Policy::Id);
    assert_eq!(refusal(&with_body(&right_outer.bytes())), (7, 9));
}

#[test]
fn concurrent_parts_before_fits() {
    let unfit_main = |table: &Policy| {
        let main = Entry::new(1, 2, &set(0, 1));
        write_book(2, &[main, Entry::new(1, 2, table)])
    };
    assert_eq!(refusal(&unfit_main(&beside(1, 1, Policy::Id, Policy::Id))), (7, 14));
    assert_eq!(refusal(&unfit_main(&set(0, 1))), (7, 10));
    let fit_main = |table: &Policy| write_book(2, &[Entry::new(1, 2, &set(1, 1)), Entry::new(0, 2, table)]);
    assert_eq!(refusal(&fit_main(&set(0, 1))), (7, 14));
    assert_eq!(refusal(&fit_main(&Policy::Test(0, 1))), (7, 14));
    assert!(is_accepted(&fit_main(&Policy::Test(1, 1))));
}

#[test]
fn a_table_is_typed_by_its_declaration() {
    let main = beside(1, 2, Policy::Id, Policy::Table(1));
    let book = |table: Entry| write_book(2, &[Entry::new(0, 3, &main), table]);
    assert_eq!(refusal(&book(Entry::new(1, 2, &Policy::Id))), (7, 10));
    assert_eq!(refusal(&book(Entry::unpopulated(1, 2))), (7, 10));
    assert!(is_accepted(&book(Entry::unpopulated(0, 2))));
}

/// A book that is refused 9, 10 or 11 by its main policy, over one field.
fn late_refusals() -> [(Vec<u8>, u8); 3] {
    let wide = balanced(sum, &(0..17).map(|value| set(0, value)).collect::<Vec<_>>());
    let drops = balanced(sum, &vec![Policy::Drop; 81]);
    let all = sequence(sequence(Policy::Table(1), wide.clone()), drops.clone());
    let book = |main: &Policy, table| write_book(1, &[Entry::new(0, 1, main), table]);
    [
        (book(&all, Entry::unpopulated(0, 0)), 9),
        (book(&all, Entry::new(0, 0, &Policy::Id)), 10),
        (book(&drops, Entry::unpopulated(0, 0)), 11),
    ]
}

fn run_number(book: &[u8], packet: &[u16], result: usize, work: usize) -> u8 {
    let mut result = vec![7; result];
    let mut work = vec![7; work];
    match run(book, packet, &[], &mut result, &mut work) {
        Ran::Refused(Refusal { number, place: 0 }) => {
            assert!(result.iter().chain(&work).all(|word| *word == 7));
            number
        }
        other => panic!("{other:?}"),
    }
}

fn evaluate_number(book: &[u8], packet: &[u16], result: usize) -> u8 {
    let mut result = vec![7; result];
    match evaluate(book, packet, &mut result) {
        Evaluated::Refused(Refusal { number, place: 0 }) => {
            assert!(result.iter().all(|word| *word == 7));
            number
        }
        Evaluated::Given { room, .. } if room > MOST_POSITIONS => 11,
        other => panic!("{other:?}"),
    }
}

#[test]
fn packet_then_buffers_then_nine_ten_eleven() {
    for (book, number) in late_refusals() {
        assert_eq!(run_number(&book, &[], 0, 0), 8);
        assert_eq!(run_number(&book, &[1, 2], 0, 0), 8);
        assert_eq!(run_number(&book, &[1], 15, WORK_WORDS), 12);
        assert_eq!(run_number(&book, &[1], 16, WORK_WORDS - 1), 12);
        assert_eq!(run_number(&book, &[1], 16, WORK_WORDS), number);
        assert_eq!(evaluate_number(&book, &[], 0), 8);
        assert_eq!(evaluate_number(&book, &[1], 15), 12);
        assert_eq!(evaluate_number(&book, &[1], 16), number);
    }
}

fn input(book: &[u8], rest: &[u8]) -> Vec<u8> {
    [&(book.len() as u16).to_be_bytes()[..], book, rest].concat()
}

fn printed(input: &[u8]) -> String {
    String::from_utf8(print(input)).expect("the printer prints text")
}

#[test]
fn the_order_of_the_printer() {
    let book = book_of(1, &Policy::Drop);
    assert_eq!(printed(&[]), "refused 14 0\n");
    assert_eq!(printed(&[0]), "refused 14 0\n");
    assert_eq!(printed(&[0x10, 1]), "refused 1 0\n");
    assert_eq!(printed(&[0x10, 0]), "refused 14 0\n");
    assert_eq!(printed(&[0, 0]), "refused 1 0\n");
    assert_eq!(printed(&input(&book, &[])[..8]), "refused 14 0\n");
    assert_eq!(printed(&input(&[0, 0], &[0; 9000])), "refused 2 0\n");
    assert_eq!(printed(&input(&book, &[])), "refused 8 0\n");
    assert_eq!(printed(&input(&book, &[1])), "refused 8 0\n");
    assert_eq!(printed(&input(&book, &[0; 2 + 8193])), "refused 14 0\n");
    assert_eq!(printed(&input(&book, &[0; 2 + 8192])), "finished 1 0\n");
    assert_eq!(printed(&input(&book, &[0; 2])), "running 0 1 1\n");
    for (book, number) in late_refusals() {
        assert_eq!(printed(&input(&book, &[0; 2 + 8193])), "refused 14 0\n");
        assert_eq!(printed(&input(&book, &[0; 2])), format!("refused {number} 0\n"));
    }
}
