//! The inputs that `docs/FORMAT.md` shows are answered as it says.

use hamstedew::{Ran, Refusal, AREA_WORDS, RESULT_WORDS};

/// A printer's input: the book's length in two bytes, the book, the packet and the schedule.
struct Input {
    book: Vec<u8>,
    packet: Vec<u16>,
    schedule: Vec<u8>,
}

/// The inputs in hex, comments aside, that stand between lines of three backticks.
fn shown() -> Vec<Input> {
    let text = include_str!("../../docs/FORMAT.md");
    text.split("\n```\n").skip(1).step_by(2).map(input_of).collect()
}

fn input_of(hex: &str) -> Input {
    let words = hex.lines().flat_map(|line| line.split('#').next().unwrap_or("").split_whitespace());
    let bytes: Vec<u8> = words.map(|word| u8::from_str_radix(word, 16).expect("two hex digits")).collect();
    let number = |at: usize| u16::from_be_bytes([bytes[at], bytes[at + 1]]);
    let packet_at = 2 + number(0) as usize;
    let schedule_at = packet_at + 2 * bytes[2] as usize;
    Input {
        book: bytes[2..packet_at].to_vec(),
        packet: (packet_at..schedule_at).step_by(2).map(number).collect(),
        schedule: bytes[schedule_at..].to_vec(),
    }
}

fn run(input: &Input, choices: usize) -> (Result<Ran, Refusal>, [u16; RESULT_WORDS]) {
    let mut result = [0; RESULT_WORDS];
    let mut area = [0; AREA_WORDS];
    let schedule = &input.schedule[..choices];
    let ran = hamstedew::run(&input.book, &input.packet, schedule, &mut result, &mut area);
    (ran, result)
}

#[test]
fn the_book_byte_by_byte() {
    let input = &shown()[0];
    assert_eq!((input.book.len(), input.schedule.len()), (17, 4));
    let (ran, result) = run(input, 4);
    assert_eq!((ran, &result[..2]), (Ok(Ran::Finished { steps: 4, count: 1 }), &[1, 2][..]));
    assert_eq!(run(input, 2).0, Ok(Ran::Running { steps: 2, live: 3, ready: 1 }));
}

#[test]
fn the_book_of_ones_own() {
    let mut input = shown().remove(1);
    assert_eq!((input.book.len(), input.schedule.len()), (27, 9));
    let (ran, result) = run(&input, 9);
    assert_eq!((ran, &result[..4]), (Ok(Ran::Finished { steps: 9, count: 2 }), &[7, 1, 7, 2][..]));
    assert_eq!(run(&input, 5).0, Ok(Ran::Running { steps: 5, live: 1, ready: 1 }));
    input.packet[0] = 3;
    assert_eq!(run(&input, 9).0, Ok(Ran::Finished { steps: 9, count: 0 }));

    let changed = |place: usize, byte: u8| {
        let mut book = input.book.clone();
        book[place] = byte;
        hamstedew::accept(&book)
    };
    assert_eq!(changed(13, 2), Err(Refusal { number: 5, place: 13 }));
    assert_eq!(changed(9, 0), Err(Refusal { number: 7, place: 18 }));
}
