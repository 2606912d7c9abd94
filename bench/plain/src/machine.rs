//! The step machine: a tree of at most 160 positions in the working area, and beside it the ready positions in a list from
//! left to right. A ready position has no ready one above or below it, so that what a step makes ready (itself, one or two
//! below it, or the one above it) stands in the list where it stood: byte b picks ready\[b mod r\] at once.
//!
//! Every position owns one slot of 16 packets. A set passes to the position above by exchanging slot numbers.

use crate::book::*;
use crate::packets::*;
use crate::Ran;

pub const MOST_POSITIONS: usize = 160;
/// Words lent to a run, 136 for each position; the machine uses 4 for its header and 128 for its slot.
pub const AREA_WORDS: usize = MOST_POSITIONS * 136;
const HEADER_WORDS: usize = 4;

// What a position is: codes 1 to 8 as placed, a sequence while its first part runs, 0 finished, and those that are entered.
const DONE: u64 = 0;
const JOIN: u64 = 9; // a sum, or a concurrent part split by packets: left by union
const PAIR: u64 = 10; // a concurrent part on one packet
const UNDER: u64 = 11; // a negation

/// A position's header in one number, written and read whole: what it is and how many below it are not finished, 4 bits
/// each; the position above, the two below, the slot and the count, a byte each; the place of the code byte, 16 bits.
#[derive(Clone, Copy)]
struct Header(u64);

const WAIT: u32 = 4;
const UP: u32 = 8;
const LEFT: u32 = 16;
const RIGHT: u32 = 24;
const SLOT: u32 = 32;
const COUNT: u32 = 40;
const AT: u32 = 48;

impl Header {
    #[inline(always)]
    fn kind(self) -> u64 {
        self.0 & 15
    }

    #[inline(always)]
    fn at(self) -> usize {
        (self.0 >> AT) as usize
    }

    #[inline(always)]
    fn byte(self, shift: u32) -> usize {
        (self.0 >> shift) as u8 as usize
    }

    /// What an entered position keeps: the one above it.
    #[inline(always)]
    fn kept(self) -> u64 {
        self.0 & 0xff << UP
    }
}

const ROOT: usize = 0;
const NOWHERE: usize = 255;

type Slot = [[u16; 8]; MOST_PACKETS];

struct Machine<'a> {
    book: &'a [u8],
    start: &'a [u16; 16],
    seconds: &'a Seconds,
    headers: &'a mut [[u16; HEADER_WORDS]; MOST_POSITIONS],
    slots: &'a mut [Slot; MOST_POSITIONS],
    /// Positions that are gone, each with its slot.
    spare: [(u8, u8); MOST_POSITIONS],
    spares: usize,
    fresh: usize,
    ready: [u8; MOST_POSITIONS],
    readies: usize,
}

/// A position that a step is at: its number, its index in the list of the ready ones, and its header.
#[derive(Clone, Copy)]
struct Picked {
    p: usize,
    i: usize,
    header: Header,
}

/// Runs an accepted book that the evaluator found neither too wide nor over 160 positions. Finished, the set is in `out`.
pub fn run(
    book: &[u8],
    start: &[u16; 16],
    seconds: &Seconds,
    x: Packet,
    schedule: &[u8],
    area: &mut [u16; AREA_WORDS],
    out: &mut [Raw; MOST_PACKETS],
) -> Ran {
    let mut machine = Machine::new(book, start, seconds, area, x);
    let mut steps = 0;
    for byte in schedule {
        if machine.readies == 0 {
            break;
        }
        machine.step(pick(*byte, machine.readies));
        steps += 1;
    }
    if machine.readies > 0 {
        return Ran::Running { steps, live: machine.fresh - machine.spares, ready: machine.readies };
    }
    let root = machine.get(ROOT);
    let (slot, count) = (&machine.slots[root.byte(SLOT)], root.byte(COUNT));
    for i in 0..count.min(MOST_PACKETS) {
        out[i].put(slot[i].get());
    }
    Ran::Finished { steps, count }
}

/// 2^16 / r, rounded up: for b and r below 256 the quotient b / r is then (b · that) >> 16 exactly.
const PER: [u32; MOST_POSITIONS + 1] = {
    let mut per = [0; MOST_POSITIONS + 1];
    let mut r = 1;
    while r <= MOST_POSITIONS {
        per[r] = 65536u32.div_ceil(r as u32);
        r += 1;
    }
    per
};

/// b mod r.
#[inline(always)]
fn pick(b: u8, r: usize) -> usize {
    if r == 1 {
        return 0;
    }
    let b = b as u32;
    (b - (b * PER[r] >> 16) * r as u32) as usize
}

#[cold]
fn rare() {}

impl<'a> Machine<'a> {
    #[inline(always)]
    fn new(
        book: &'a [u8],
        start: &'a [u16; 16],
        seconds: &'a Seconds,
        area: &'a mut [u16; AREA_WORDS],
        x: Packet,
    ) -> Machine<'a> {
        let (headers, rest) = area.split_at_mut(MOST_POSITIONS * HEADER_WORDS);
        let headers = headers.as_chunks_mut().0.try_into().unwrap();
        let rows = rest[..MOST_POSITIONS * MOST_PACKETS * 8].as_chunks_mut().0;
        let slots = rows.as_chunks_mut().0.try_into().unwrap();
        let (spare, ready) = ([(0, 0); MOST_POSITIONS], [0; MOST_POSITIONS]);
        let mut machine =
            Machine { book, start, seconds, headers, slots, spare, spares: 0, fresh: 0, ready, readies: 0 };
        let (root, slot) = machine.opened();
        machine.slots[slot][0].put(x);
        if let Some(p) = machine.place(start[0] as usize, root, NOWHERE, slot, 1) {
            machine.ready[0] = p as u8;
            machine.readies = 1;
        }
        machine
    }

    #[inline(always)]
    fn get(&self, p: usize) -> Header {
        Header(join(self.headers[p]))
    }

    #[inline(always)]
    fn put(&mut self, p: usize, header: u64) {
        self.headers[p] = part(header);
    }

    /// A position not in use, and its slot.
    #[inline(always)]
    fn opened(&mut self) -> (usize, usize) {
        if self.spares > 0 {
            self.spares -= 1;
            let (p, slot) = self.spare[self.spares];
            (p as usize, slot as usize)
        } else {
            let p = self.fresh;
            self.fresh += 1;
            (p, p)
        }
    }

    #[inline(always)]
    fn closed(&mut self, p: usize, slot: usize) {
        self.spare[self.spares] = (p as u8, slot as u8);
        self.spares += 1;
    }

    #[inline(always)]
    fn two_slots(&mut self, p: usize, q: usize) -> (&mut Slot, &mut Slot) {
        let [a, b] = self.slots.get_disjoint_mut([p, q]).unwrap();
        (a, b)
    }

    /// Copies the first packets of a slot, from one of them on, to the front of another.
    #[inline(always)]
    fn copy(&mut self, from: usize, first: usize, count: usize, to: usize) {
        let (a, b) = self.two_slots(from, to);
        for i in first..count.min(MOST_PACKETS) {
            b[i - first] = a[i];
        }
    }

    /// Puts the part on the set in the slot, at position p below `up`. The answer is the position that is ready now, or
    /// none if p is finished. Down a chain of sequences the slot is handed on, and each position takes that of the one
    /// below it.
    #[inline(always)]
    fn place(
        &mut self,
        mut at: usize,
        mut p: usize,
        mut up: usize,
        slot: usize,
        count: usize,
    ) -> Option<usize> {
        let top = p;
        loop {
            let code = self.book[at];
            let header = code as u64 | 1 << WAIT | (up as u64) << UP | (at as u64) << AT;
            if code == SEQUENCE {
                let (q, own) = self.opened();
                self.put(p, header | (q as u64) << LEFT | (own as u64) << SLOT);
                at += 1;
                up = p;
                p = q;
                continue;
            }
            self.put(p, header | (slot as u64) << SLOT | (count as u64) << COUNT);
            if code == ID {
                // foreseen as rare, and so a branch: the next step need not wait for the code byte
                rare();
                return if p == top { None } else { Some(up) };
            }
            return Some(p);
        }
    }

    /// The picked position is finished with the set in the slot.
    #[inline(always)]
    fn done(&mut self, at: Picked, slot: usize, count: usize) {
        self.put(at.p, DONE | (slot as u64) << SLOT | (count as u64) << COUNT);
        self.finished(at);
    }

    /// The one above a finished position becomes ready in its place, or waits for another.
    #[inline(always)]
    fn finished(&mut self, at: Picked) {
        let up = at.header.byte(UP);
        if up != NOWHERE {
            let header = self.get(up).0 - (1 << WAIT);
            self.put(up, header);
            if header >> WAIT & 15 == 0 {
                self.ready[at.i] = up as u8;
                return;
            }
        }
        self.ready.copy_within(at.i + 1..self.readies, at.i);
        self.readies -= 1;
    }

    /// The picked position has been entered or split: a and b became ready below it.
    #[inline(always)]
    fn entered(&mut self, at: Picked, header: u64, a: Option<usize>, b: Option<usize>) {
        self.put(at.p, header | (a.is_some() as u64 + b.is_some() as u64) << WAIT);
        self.ready[at.i] = a.or(b).unwrap_or(at.p) as u8;
        if let (Some(_), Some(b)) = (a, b) {
            self.ready.copy_within(at.i + 1..self.readies, at.i + 2);
            self.ready[at.i + 1] = b as u8;
            self.readies += 1;
        }
    }

    /// The part takes over the picked position.
    #[inline(always)]
    fn instead(&mut self, part: usize, at: Picked, slot: usize, count: usize) {
        match self.place(part, at.p, at.header.byte(UP), slot, count) {
            Some(q) => self.ready[at.i] = q as u8,
            None => self.finished(at),
        }
    }

    #[inline(always)]
    fn step(&mut self, i: usize) {
        let p = self.ready[i] as usize;
        let header = self.get(p);
        let at = Picked { p, i, header };
        let (count, own) = (header.byte(COUNT), header.byte(SLOT));
        match header.kind() {
            1 => self.done(at, own, 0),
            2 | 3 => self.test_or_set(at),
            4 => self.enter_negation(at),
            5 => self.enter_sum(at),
            6 => self.advance(at),
            7 => match count {
                0 => self.done(at, own, 0),
                1 => self.enter_sides(at),
                _ => self.split(at),
            },
            8 => {
                let body = self.start[(self.book[header.at() + 1] & 15) as usize];
                self.instead(body as usize, at, own, count);
            }
            UNDER => self.leave_negation(at),
            kind => self.leave_both(at, kind),
        }
    }

    #[inline(always)]
    fn test_or_set(&mut self, at: Picked) {
        let (count, own) = (at.header.byte(COUNT), at.header.byte(SLOT));
        let bytes = &self.book[at.header.at()..at.header.at() + 4];
        let put = Put::new(bytes[1], bytes[2], bytes[3]);
        let set = at.header.kind() == SET as u64;
        let slot = &mut self.slots[own];
        let count = if count == 1 {
            // no branch on what a schedule makes unforeseeable
            let x = slot[0].get();
            let off = put.off(x);
            slot[0].put(x ^ if set { off } else { 0 });
            (set | (off == 0)) as usize
        } else if set {
            assign(slot, count, put)
        } else {
            filter(slot, count, put)
        };
        self.done(at, own, count);
    }

    #[inline(always)]
    fn enter_negation(&mut self, at: Picked) {
        let (count, own) = (at.header.byte(COUNT), at.header.byte(SLOT));
        let (q, slot) = self.opened();
        self.copy(own, 0, count, slot);
        let below = self.place(at.header.at() + 1, q, at.p, slot, count);
        let set = (own as u64) << SLOT | (count as u64) << COUNT;
        self.entered(at, UNDER | at.header.kept() | (q as u64) << LEFT | set, below, None);
    }

    #[inline(always)]
    fn enter_sum(&mut self, at: Picked) {
        let (count, own, place) = (at.header.byte(COUNT), at.header.byte(SLOT), at.header.at());
        let ((l, spare), (r, right)) = (self.opened(), self.opened());
        self.copy(own, 0, count, right);
        let a = self.place(place + 1, l, at.p, own, count);
        let b = self.place(self.seconds.of(place), r, at.p, right, count);
        self.entered(at, JOIN | at.header.kept() | below(l, r, spare), a, b);
    }

    /// A concurrent part on one packet: each side lacks what the other may write.
    #[inline(always)]
    fn enter_sides(&mut self, at: Picked) {
        let (own, place) = (at.header.byte(SLOT), at.header.at());
        let (left_mask, right_mask) = (self.book[place + 1], self.book[place + 2]);
        let ((l, spare), (r, right)) = (self.opened(), self.opened());
        let (a, b) = self.two_slots(own, right);
        let x = a[0].get();
        a[0].put(x & !spread(right_mask));
        b[0].put(x & !spread(left_mask));
        let a = self.place(place + 3, l, at.p, own, 1);
        let b = self.place(self.seconds.of(place), r, at.p, right, 1);
        self.entered(at, PAIR | at.header.kept() | below(l, r, spare), a, b);
    }

    /// A concurrent part on several packets: the lowest to the left, the others to the right.
    #[inline(always)]
    fn split(&mut self, at: Picked) {
        let (count, own) = (at.header.byte(COUNT), at.header.byte(SLOT));
        let ((l, spare), (r, right)) = (self.opened(), self.opened());
        self.copy(own, 1, count, right);
        let both = BESIDE as u64 | (at.p as u64) << UP | (at.header.at() as u64) << AT;
        self.put(l, both | (own as u64) << SLOT | 1 << COUNT);
        self.put(r, both | (right as u64) << SLOT | (count as u64 - 1) << COUNT);
        self.entered(at, JOIN | at.header.kept() | below(l, r, spare), Some(l), Some(r));
    }

    /// A sequence goes on to its second part.
    #[inline(always)]
    fn advance(&mut self, at: Picked) {
        let q = at.header.byte(LEFT);
        let first = self.get(q);
        let (slot, count) = (first.byte(SLOT), first.byte(COUNT));
        let next = self.seconds.of(at.header.at());
        if self.book[next] == SEQUENCE {
            // again a sequence here: the position below is gone, and a new one takes its place and its set
            self.put(at.p, at.header.0 & 0xffff_ffff_ff0f | 1 << WAIT | (next as u64) << AT);
            self.ready[at.i] = self.place(next + 1, q, at.p, slot, count).unwrap_or(at.p) as u8;
            return;
        }
        self.closed(q, at.header.byte(SLOT));
        self.instead(next, at, slot, count);
    }

    #[inline(always)]
    fn leave_negation(&mut self, at: Picked) {
        let (count, own, q) = (at.header.byte(COUNT), at.header.byte(SLOT), at.header.byte(LEFT));
        let under = self.get(q);
        let (a, b) = self.two_slots(own, under.byte(SLOT));
        let count = minus(a, count, b, under.byte(COUNT));
        self.closed(q, under.byte(SLOT));
        self.done(at, own, count);
    }

    /// The set stays in the left one's slot, which the position takes for its own.
    #[inline(always)]
    fn leave_both(&mut self, at: Picked, kind: u64) {
        let (l, r) = (at.header.byte(LEFT), at.header.byte(RIGHT));
        let (left, right) = (self.get(l), self.get(r));
        let (lefts, rights) = (left.byte(COUNT), right.byte(COUNT));
        let (a, b) = self.two_slots(left.byte(SLOT), right.byte(SLOT));
        let count = if kind == JOIN { union(a, lefts, b, rights) } else { pair(a, lefts, b, rights) };
        self.closed(l, at.header.byte(SLOT));
        self.closed(r, right.byte(SLOT));
        self.done(at, left.byte(SLOT), count.expect("not too wide"));
    }
}

/// The header's bits for the two positions below and the slot that is owned meanwhile.
#[inline(always)]
fn below(l: usize, r: usize, slot: usize) -> u64 {
    (l as u64) << LEFT | (r as u64) << RIGHT | (slot as u64) << SLOT
}
