//! The step machine: a tree of positions, one step for each byte of the schedule.
//!
//! Ready positions stand in a list from left to right. An ancestor and a descendant are never both
//! ready, so whatever a step makes ready stands exactly where the picked position stood: the list is
//! kept in order without ever walking the tree.

use crate::answers::*;
use crate::book::{self, all_fields, Book};
use crate::codes::*;
use crate::evaluate::{check_buffer, check_packet, work_through, write_packets};
use crate::sets::{packet_from_words, without, Set, TooWide};

/// Runs the book's main policy on the packet under the schedule. A refusal alters neither buffer.
pub fn run(bytes: &[u8], packet: &[u16], schedule: &[u8], result: &mut [u16], work: &mut [u16]) -> Ran {
    match try_run(bytes, packet, schedule, result, work) {
        Ok(ran) => ran,
        Err(refusal) => Ran::Refused(refusal),
    }
}

fn try_run(
    bytes: &[u8],
    packet: &[u16],
    schedule: &[u8],
    result: &mut [u16],
    work: &mut [u16],
) -> Result<Ran, Refusal> {
    let book = book::read(bytes)?;
    check_packet(&book, packet)?;
    check_buffer(result.len() >= MOST_PACKETS * book.shape.fields && work.len() >= WORK_WORDS)?;
    // Only refusals 9, 10 and 11 are asked here; what the steps give is read from the steps.
    let room = work_through(&book, packet)?.room;
    if room > MOST_POSITIONS {
        return Err(Refusal::plain(TOO_ROOMY));
    }
    let mut machine = Machine::new(&book, packet);
    let ran = machine.follow(schedule)?;
    if let Ran::Finished { .. } = ran {
        write_packets(machine.finished_set(), book.shape.fields, result);
    }
    // The positions live in the machine's own memory: the working area is only left as it is owed.
    work[..WORK_WORDS].fill(0);
    Ok(ran)
}

/// Where the second part of each two-part code begins, by the place of the code.
fn second_parts(book: &Book) -> Vec<u16> {
    let mut second = vec![0; book.bytes.len()];
    for entry in 0..=book.shape.tables {
        if book.is_populated(entry) {
            note_second_parts(book.bytes, book.body_start(entry), &mut second);
        }
    }
    second
}

/// Notes the second parts inside the part at `at` and answers the place after it.
fn note_second_parts(bytes: &[u8], at: usize, second: &mut [u16]) -> usize {
    let (operands, parts) = OPERANDS_AND_PARTS[bytes[at] as usize];
    let mut after = at + 1 + operands;
    for part in 0..parts {
        if part == 1 {
            second[at] = after as u16;
        }
        after = note_second_parts(bytes, after, second);
    }
    after
}

type Index = u8;
const NOWHERE: Index = Index::MAX;
const ROOT: Index = 0;

#[derive(Clone, Copy, PartialEq, Eq)]
enum Stage {
    /// Not begun: the next step is made here.
    Placed,
    /// A sequence: p stands below.
    Waiting,
    /// A sum, a negation or a concurrent part with its parts below.
    Entered,
    /// A concurrent part with the lowest packet and the rest below.
    Split,
    Finished,
}

struct Position {
    /// The code byte of its part.
    part: usize,
    stage: Stage,
    /// The fields its packets have.
    fields: u8,
    above: Index,
    below: [Index; 2],
    /// The set placed, the set a negation keeps, or the finished set.
    set: Set,
}

impl Position {
    const UNUSED: Position = Position {
        part: 0,
        stage: Stage::Placed,
        fields: 0,
        above: NOWHERE,
        below: [NOWHERE; 2],
        set: Set::EMPTY,
    };
}

pub struct Machine<'a> {
    bytes: &'a [u8],
    book: &'a Book<'a>,
    second: Vec<u16>,
    positions: Vec<Position>,
    free: Vec<Index>,
    /// The ready positions from left to right.
    ready: Vec<Index>,
}

impl<'a> Machine<'a> {
    /// The first state: the main policy placed on the packet.
    pub fn new(book: &'a Book<'a>, packet: &[u16]) -> Machine<'a> {
        let room = MOST_POSITIONS as usize;
        let mut machine = Machine {
            bytes: book.bytes,
            book,
            second: second_parts(book),
            positions: Vec::with_capacity(room),
            free: Vec::with_capacity(room),
            ready: Vec::with_capacity(room),
        };
        let fields = all_fields(book.shape.fields);
        let root = machine.take_position(NOWHERE, book.body_start(0), fields);
        machine.positions[root as usize].set.become_one(packet_from_words(packet));
        let ready = machine.place(root);
        machine.ready.extend(ready);
        machine
    }

    /// One step for each byte until the finish; no byte is read after it.
    fn follow(&mut self, schedule: &[u8]) -> Result<Ran, Refusal> {
        let mut steps = 0;
        for byte in schedule {
            if self.ready.is_empty() {
                break;
            }
            self.step(*byte as usize % self.ready.len())?;
            steps += 1;
        }
        Ok(self.report(steps))
    }

    fn report(&self, steps: u64) -> Ran {
        if self.is_finished() {
            Ran::Finished { steps, count: self.finished_set().count() }
        } else {
            Ran::Running { steps, live: self.live(), ready: self.ready.len() }
        }
    }

    pub fn is_finished(&self) -> bool {
        self.positions[ROOT as usize].stage == Stage::Finished
    }

    pub fn finished_set(&self) -> &Set {
        &self.positions[ROOT as usize].set
    }

    pub fn live(&self) -> usize {
        self.positions.len() - self.free.len()
    }

    pub fn ready(&self) -> usize {
        self.ready.len()
    }

    /// Makes the step of the ready position with number `pick`, counted from the left.
    pub fn step(&mut self, pick: usize) -> Result<(), Refusal> {
        let here = self.ready[pick];
        match self.positions[here as usize].stage {
            Stage::Placed => self.begin(here, pick),
            Stage::Waiting => {
                self.take_second(here, pick);
                Ok(())
            }
            _ => {
                self.leave(here);
                self.finish(here, pick);
                Ok(())
            }
        }
    }

    /// The first step of a part.
    fn begin(&mut self, here: Index, pick: usize) -> Result<(), Refusal> {
        let part = self.positions[here as usize].part;
        match self.bytes[part] {
            DROP => {
                self.positions[here as usize].set.clear();
                self.finish(here, pick);
            }
            TEST | SET => {
                self.test_or_set(here)?;
                self.finish(here, pick);
            }
            NOT => self.enter_not(here, pick),
            SUM => self.enter_sum(here, pick),
            BESIDE => self.begin_beside(here, pick),
            _ => {
                let body = self.book.body_start(self.bytes[part + 1] as usize);
                self.place_in_own_position(here, body, pick);
            }
        }
        Ok(())
    }

    /// Refusal 13 goes by the fields of the position, not by its packets; typing shuts it out.
    fn test_or_set(&mut self, here: Index) -> Result<(), Refusal> {
        let position = &mut self.positions[here as usize];
        let field = self.bytes[position.part + 1];
        let value = two_bytes(self.bytes, position.part + 2);
        if position.fields & (1 << field) == 0 {
            return Err(Refusal::at(STUCK, position.part));
        }
        if self.bytes[position.part] == TEST {
            position.set.keep_where(field as usize, value);
        } else {
            position.set.write(field as usize, value);
        }
        Ok(())
    }

    fn enter_not(&mut self, here: Index, pick: usize) {
        let below = self.take_position_on_same_set(here, self.positions[here as usize].part + 1);
        self.stand_above(here, Stage::Entered, [below, NOWHERE]);
        self.ready[pick] = self.place(below).unwrap_or(here);
    }

    fn enter_sum(&mut self, here: Index, pick: usize) {
        let part = self.positions[here as usize].part;
        let p = self.take_position_on_same_set(here, part + 1);
        let q = self.take_position_on_same_set(here, self.second[part] as usize);
        self.stand_above(here, Stage::Entered, [p, q]);
        self.place_two(here, pick);
    }

    fn begin_beside(&mut self, here: Index, pick: usize) {
        match self.positions[here as usize].set.count() {
            0 => self.finish(here, pick),
            1 => self.enter_beside(here, pick),
            _ => self.split_beside(here, pick),
        }
    }

    fn enter_beside(&mut self, here: Index, pick: usize) {
        let Position { part, fields, ref set, .. } = self.positions[here as usize];
        let packet = set.packets()[0];
        let (left, right) = (self.bytes[part + 1], self.bytes[part + 2]);
        let p = self.take_position(here, part + 3, fields & !right);
        let q = self.take_position(here, self.second[part] as usize, fields & !left);
        self.positions[p as usize].set.become_one(without(&packet, right));
        self.positions[q as usize].set.become_one(without(&packet, left));
        self.stand_above(here, Stage::Entered, [p, q]);
        self.place_two(here, pick);
    }

    /// Splits into the lowest packet and the rest, both under this same part.
    fn split_beside(&mut self, here: Index, pick: usize) {
        let Position { part, fields, .. } = self.positions[here as usize];
        let lowest = self.take_position(here, part, fields);
        let rest = self.take_position_on_same_set(here, part);
        let packet = self.positions[rest as usize].set.take_lowest();
        self.positions[lowest as usize].set.become_one(packet);
        self.stand_above(here, Stage::Split, [lowest, rest]);
        self.place_two(here, pick);
    }

    /// A sequence whose p is finished puts q on p's set in its own position.
    fn take_second(&mut self, here: Index, pick: usize) {
        let Position { part, below: [p, _], .. } = self.positions[here as usize];
        self.copy_set(p, here);
        self.free.push(p);
        self.place_in_own_position(here, self.second[part] as usize, pick);
    }

    /// Leaves or joins: the set is put together from those below, which are then gone.
    fn leave(&mut self, here: Index) {
        let Position { part, stage, below: [p, q], .. } = self.positions[here as usize];
        let code = self.bytes[part];
        if code == NOT {
            let [kept, given] = self.two_sets(here, p);
            kept.remove_all(given);
            self.free.push(p);
            return;
        }
        let together = if code == BESIDE && stage == Stage::Entered {
            self.pair_up(here, p, q, self.bytes[part + 2])
        } else {
            self.copy_set(p, here);
            let [union, given_by_q] = self.two_sets(here, q);
            union.add_all(given_by_q)
        };
        together.expect("the policy is not too wide for the packet");
        self.free.extend([p, q]);
    }

    /// Every pairing of a packet of p and one of q.
    fn pair_up(&mut self, here: Index, p: Index, q: Index, right: u8) -> Result<(), TooWide> {
        let distinct = [here as usize, p as usize, q as usize];
        let [here, p, q] = self.positions.get_disjoint_mut(distinct).expect("three positions");
        here.set.clear();
        here.set.add_pairings(&p.set, &q.set, right)
    }

    /// Marks the position finished; the position above takes its place in the list if it is now ready.
    fn finish(&mut self, here: Index, pick: usize) {
        self.positions[here as usize].stage = Stage::Finished;
        let above = self.positions[here as usize].above;
        if above != NOWHERE && self.all_below_finished(above) {
            self.ready[pick] = above;
        } else {
            self.ready.remove(pick);
        }
    }

    fn all_below_finished(&self, here: Index) -> bool {
        let below = self.positions[here as usize].below;
        below.iter().all(|&b| b == NOWHERE || self.positions[b as usize].stage == Stage::Finished)
    }

    /// Puts the part at `part` into the position, on the set it holds.
    fn place_in_own_position(&mut self, here: Index, part: usize, pick: usize) {
        self.positions[here as usize].part = part;
        match self.place(here) {
            Some(ready) => self.ready[pick] = ready,
            None => self.finish(here, pick),
        }
    }

    /// Places the part of a new or changed position on its set, and answers the one position in or
    /// below it that is ready; none if it is finished at once.
    fn place(&mut self, here: Index) -> Option<Index> {
        let part = self.positions[here as usize].part;
        match self.bytes[part] {
            ID => {
                self.positions[here as usize].stage = Stage::Finished;
                None
            }
            SEQUENCE => {
                let p = self.take_position_on_same_set(here, part + 1);
                self.stand_above(here, Stage::Waiting, [p, NOWHERE]);
                Some(self.place(p).unwrap_or(here))
            }
            _ => {
                self.positions[here as usize].stage = Stage::Placed;
                Some(here)
            }
        }
    }

    /// Places both parts below the position; if both are finished at once, it is ready itself.
    fn place_two(&mut self, here: Index, pick: usize) {
        let [p, q] = self.positions[here as usize].below;
        match (self.place(p), self.place(q)) {
            (Some(first), Some(second)) => {
                self.ready[pick] = first;
                self.ready.insert(pick + 1, second);
            }
            (Some(only), None) | (None, Some(only)) => self.ready[pick] = only,
            (None, None) => self.ready[pick] = here,
        }
    }

    fn stand_above(&mut self, here: Index, stage: Stage, below: [Index; 2]) {
        let position = &mut self.positions[here as usize];
        position.stage = stage;
        position.below = below;
    }

    /// A new position below `above`; its set is left for the caller to give.
    fn take_position(&mut self, above: Index, part: usize, fields: u8) -> Index {
        let index = self.free.pop().unwrap_or_else(|| {
            self.positions.push(Position::UNUSED);
            (self.positions.len() - 1) as Index
        });
        let position = &mut self.positions[index as usize];
        position.part = part;
        position.fields = fields;
        position.above = above;
        index
    }

    fn take_position_on_same_set(&mut self, above: Index, part: usize) -> Index {
        let index = self.take_position(above, part, self.positions[above as usize].fields);
        self.copy_set(above, index);
        index
    }

    fn copy_set(&mut self, from: Index, to: Index) {
        let [from, to] = self.two_sets(from, to);
        to.copy_from(from);
    }

    fn two_sets(&mut self, first: Index, second: Index) -> [&mut Set; 2] {
        let two = self.positions.get_disjoint_mut([first as usize, second as usize]);
        two.expect("two positions").map(|position| &mut position.set)
    }
}
