//! The run printer: bytes of standard input to bytes of standard output.

use crate::answers::*;
use crate::book;
use crate::machine::run;
use std::fmt::Write;

pub fn print(input: &[u8]) -> Vec<u8> {
    match split_input(input) {
        Ok(pieces) => print_run(&pieces),
        Err(refusal) => refusal_line(refusal),
    }
    .into_bytes()
}

struct Pieces<'a> {
    book: &'a [u8],
    packet: Vec<u16>,
    schedule: &'a [u8],
}

/// The refusals before the run, in the printer's order.
fn split_input(input: &[u8]) -> Result<Pieces<'_>, Refusal> {
    let cut = Refusal::plain(PROGRAM_INPUT);
    let (length, rest) = input.split_at_checked(2).ok_or(cut)?;
    let length = u16::from_be_bytes([length[0], length[1]]) as usize;
    if length > MOST_BOOK {
        return Err(Refusal::plain(BOOK_SIZE));
    }
    let (book, rest) = rest.split_at_checked(length).ok_or(cut)?;
    let fields = book::read(book)?.shape.fields;
    let (packet, schedule) = rest.split_at_checked(2 * fields).ok_or(Refusal::plain(PACKET_SIZE))?;
    if schedule.len() > MOST_SCHEDULE {
        return Err(cut);
    }
    let packet = packet.chunks_exact(2).map(|pair| u16::from_be_bytes([pair[0], pair[1]])).collect();
    Ok(Pieces { book, packet, schedule })
}

fn print_run(pieces: &Pieces) -> String {
    let fields = pieces.packet.len();
    let mut result = vec![0; MOST_PACKETS * fields];
    let mut work = vec![0; WORK_WORDS];
    match run(pieces.book, &pieces.packet, pieces.schedule, &mut result, &mut work) {
        Ran::Refused(refusal) => refusal_line(refusal),
        Ran::Running { steps, live, ready } => format!("running {steps} {live} {ready}\n"),
        Ran::Finished { steps, count } => {
            let mut text = format!("finished {steps} {count}\n");
            for packet in result.chunks_exact(fields).take(count) {
                write_values(&mut text, packet);
            }
            text
        }
    }
}

fn refusal_line(refusal: Refusal) -> String {
    format!("refused {} {}\n", refusal.number, refusal.place)
}

/// One line of decimal values with single blanks.
fn write_values(text: &mut String, values: &[u16]) {
    for (field, value) in values.iter().enumerate() {
        let blank = if field == 0 { "" } else { " " };
        write!(text, "{blank}{value}").expect("writing to a string never fails");
    }
    text.push('\n');
}
