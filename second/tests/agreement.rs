//! The evaluator against the plain meaning, and the machine against the evaluator, on random books.

use second::answers::*;
use second::book::{self, Book};
use second::evaluate::{work_through, Outcome};
use second::generate::{random_packet, sound_book};
use second::machine::Machine;
use second::meaning::meaning_of_book;
use second::rng::Rng;
use second::sets::Packet;
use second::{evaluate, run, Evaluated, Ran, Refusal, Verdict};
use std::collections::BTreeSet;

const BOOKS: u64 = 100_000;

/// The books of a seed that are accepted, each with a packet.
fn for_accepted_books(seed: u64, count: u64, mut judge: impl FnMut(&mut Rng, &Book, &[u16])) {
    let mut refused = 0;
    for number in 0..count {
        let mut rng = Rng::for_case(seed, number);
        let bytes = sound_book(&mut rng);
        match book::read(&bytes) {
            Ok(book) => {
                let packet = random_packet(&mut rng, book.shape.fields);
                judge(&mut rng, &book, &packet);
            }
            Err(Refusal { number: TOO_LARGE, .. }) => refused += 1,
            Err(refusal) => panic!("{refusal:?} for {bytes:02x?}"),
        }
    }
    assert!(refused < count / 50, "a sound book is too large only now and then: {refused}");
}

#[test]
fn the_evaluator_gives_the_plain_meaning() {
    let mut by_count = [0; 17];
    let mut too_wide = 0;
    for_accepted_books(1, BOOKS, |_, book, packet| match work_through(book, packet) {
        Ok(outcome) => {
            let plain: Vec<Packet> = meaning_of_book(book, packet).into_iter().collect();
            assert_eq!(outcome.set.packets(), plain, "{:02x?} on {packet:?}", book.bytes);
            by_count[plain.len()] += 1;
        }
        Err(Refusal { number, .. }) => too_wide += (number == TOO_WIDE) as u64,
    });
    assert!(by_count.iter().all(|books| *books > 20), "every count of packets is met: {by_count:?}");
    assert!(too_wide > 200, "{too_wide} were too wide");
}

/// Pick for the next step, by three kinds of schedules: leftmost, rightmost, random.
fn pick(kind: usize, rng: &mut Rng, ready: usize) -> usize {
    match kind {
        0 => 0,
        1 => ready - 1,
        _ => rng.below(ready),
    }
}

/// Steps to the finish and answers the most positions held at once.
fn step_to_the_finish(machine: &mut Machine, kind: usize, rng: &mut Rng, outcome: &Outcome) -> usize {
    let mut most_live = machine.live();
    for _ in 0..outcome.steps {
        assert!(!machine.is_finished());
        assert!(machine.ready() > 0);
        machine.step(pick(kind, rng, machine.ready())).expect("never stuck");
        most_live = most_live.max(machine.live());
    }
    assert!(machine.is_finished());
    assert_eq!((machine.live(), machine.ready()), (1, 0));
    most_live
}

#[test]
fn every_order_of_steps_leads_to_the_evaluators_answer() {
    let mut runs = 0;
    for_accepted_books(2, BOOKS / 4, |rng, book, packet| {
        let Ok(outcome) = work_through(book, packet) else { return };
        if outcome.room > MOST_POSITIONS || outcome.steps > 5_000 {
            return;
        }
        for kind in 0..4 {
            let mut machine = Machine::new(book, packet);
            let most_live = step_to_the_finish(&mut machine, kind, rng, &outcome);
            assert_eq!(machine.finished_set().packets(), outcome.set.packets());
            assert!(most_live as u64 <= outcome.room, "{most_live} live over {}", outcome.room);
            runs += 1;
        }
    });
    assert!(runs > BOOKS / 2, "{runs} runs");
}

/// The schedule that the rules give for the longest run: enter as much as can be before leaving.
fn most_live_of_any_schedule(book: &Book, packet: &[u16]) -> usize {
    let first = vec![];
    let mut seen = BTreeSet::new();
    let mut to_try = vec![first];
    let mut most = 0;
    while let Some(picks) = to_try.pop() {
        let mut machine = Machine::new(book, packet);
        for pick in &picks {
            machine.step(*pick).expect("never stuck");
        }
        most = most.max(machine.live());
        for pick in 0..machine.ready() {
            let next: Vec<usize> = picks.iter().copied().chain([pick]).collect();
            if seen.insert(next.clone()) {
                to_try.push(next);
            }
        }
    }
    most
}

#[test]
fn the_room_is_reached_by_some_schedule() {
    let mut judged = 0;
    for_accepted_books(3, 20_000, |_, book, packet| {
        let Ok(outcome) = work_through(book, packet) else { return };
        if outcome.steps > 8 {
            return;
        }
        assert_eq!(most_live_of_any_schedule(book, packet) as u64, outcome.room);
        judged += 1;
    });
    assert!(judged > 1_000, "{judged} books");
}

fn patterned(length: usize, salt: u16) -> Vec<u16> {
    (0..length).map(|i| (i as u16).wrapping_mul(31).wrapping_add(salt)).collect()
}

#[test]
fn schedules_of_all_lengths_and_the_lent_words() {
    for_accepted_books(4, 3_000, |rng, book, packet| {
        let fields = book.shape.fields;
        let result_before = patterned(16 * fields + rng.below(9), 5);
        let work_before = patterned(WORK_WORDS + rng.below(9), 77);
        let mut given = result_before.clone();
        let evaluated = evaluate(book.bytes, packet, &mut given);
        let length = match evaluated {
            Evaluated::Given { steps, .. } => rng.below(steps.min(3_000) as usize + 3),
            Evaluated::Refused(_) => 3,
        };
        let schedule = rng.bytes(length);
        let (mut result, mut work) = (result_before.clone(), work_before.clone());
        match run(book.bytes, packet, &schedule, &mut result, &mut work) {
            Ran::Finished { steps, count } => {
                let Evaluated::Given { count: c, steps: n, .. } = evaluated else { panic!() };
                assert_eq!((steps, count), (n, c));
                assert!(length as u64 >= n);
                assert_eq!(result, given);
                assert_eq!(result[count * fields..], result_before[count * fields..]);
            }
            Ran::Running { steps, live, ready } => {
                let Evaluated::Given { steps: n, room, .. } = evaluated else { panic!() };
                assert_eq!(steps, length as u64);
                assert!(steps < n && ready > 0 && ready <= live && live as u64 <= room);
                assert_eq!(result, result_before);
            }
            Ran::Refused(refusal) => {
                match evaluated {
                    Evaluated::Refused(same) => assert_eq!(refusal, same),
                    Evaluated::Given { room, .. } => {
                        assert!(room > MOST_POSITIONS);
                        assert_eq!(refusal, Refusal::plain(TOO_ROOMY));
                    }
                }
                assert_eq!((result, work), (result_before, work_before));
                return;
            }
        }
        assert!(work[..WORK_WORDS].iter().all(|word| *word == 0));
        assert_eq!(work[WORK_WORDS..], work_before[WORK_WORDS..]);
    });
}

#[test]
fn accepting_says_what_reading_found() {
    for_accepted_books(5, 1_000, |_, book, _| {
        assert_eq!(second::accept(book.bytes), Verdict::Accepted(book.shape));
    });
}

/// Steps and room of the largest book at the edges, worked out from the rules for N and the room.
#[test]
fn steps_and_rooms_far_over_65535() {
    let edges = second::edges::all();
    let largest = &edges[edges.len() - 1];
    let mut result = [0; 80];
    let evaluated = evaluate(&largest.book, &largest.packet, &mut result);
    // A level spreads by 16 sets under 15 sums, then has two sequences and the set back.
    let (mut steps, mut room) = (46 + 3 + 1, 32);
    for _ in 1..5 {
        steps = 46 + 3 + 16 * (steps + 2) + 30;
        room = 32.max(16 * (room + 2) + 15 + 1);
    }
    let Evaluated::Given { steps: found_steps, room: found_room, .. } = evaluated else {
        panic!("{evaluated:?}")
    };
    assert_eq!((found_steps, found_room), (steps, room));
}
