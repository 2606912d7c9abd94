//! The evaluator: a walk down the bytes of an accepted book. Three walks share it out by how many packets a part is
//! handed: none (only steps and room are left to count), one (kept in registers), more (a set changed in place). What a
//! negation's part gives is one bit for each packet.

use crate::book::*;
use crate::packets::*;
use std::num::NonZeroU64;

pub struct Set {
    pub packets: [Raw; MOST_PACKETS],
    pub count: usize,
}

impl Set {
    #[inline(always)]
    pub fn new() -> Set {
        Set { packets: [const { Raw::new() }; MOST_PACKETS], count: 0 }
    }

    #[inline(always)]
    fn copy(&self) -> Set {
        Set { packets: self.packets, count: self.count }
    }

    /// The packet, or nothing.
    #[inline(always)]
    fn one_if(&mut self, kept: bool, x: Packet) {
        self.packets[0].put(x);
        self.count = kept as usize;
    }

    /// Keeps packet i where bit i is set.
    #[inline(always)]
    fn keep(&mut self, bits: u32) {
        let mut kept = 0;
        for i in 0..self.count.min(MOST_PACKETS) {
            self.packets[kept & 15] = self.packets[i];
            kept += (bits >> i & 1) as usize;
        }
        self.count = kept;
    }
}

/// Where a part ends, its steps and its room: two words, so that they come back in registers.
#[derive(Clone, Copy)]
pub struct Cost {
    steps: u64,
    // room in the high half, at least 1, and the place in the low one
    rest: NonZeroU64,
}

impl Cost {
    #[inline(always)]
    fn new(at: usize, steps: u32, room: u32) -> Cost {
        let rest = NonZeroU64::new((room as u64) << 32 | at as u64).unwrap_or(NonZeroU64::MAX);
        Cost { steps: steps as u64, rest }
    }

    #[inline(always)]
    fn at(self) -> usize {
        self.rest.get() as u32 as usize
    }

    #[inline(always)]
    pub fn steps(self) -> u32 {
        self.steps as u32
    }

    #[inline(always)]
    pub fn room(self) -> u32 {
        (self.rest.get() >> 32) as u32
    }
}

/// Steps and room of what came before in a chain of sequences.
#[derive(Clone, Copy)]
struct Chain {
    steps: u32,
    room: u32,
}

impl Chain {
    #[inline(always)]
    fn new() -> Chain {
        Chain { steps: 0, room: 0 }
    }

    /// After a first part, which is left for the second by one step.
    #[inline(always)]
    fn first(&mut self, steps: u32, room: u32) {
        self.steps += steps + 1;
        self.room = self.room.max(room + 1);
    }

    #[inline(always)]
    fn last(self, at: usize, steps: u32, room: u32) -> Cost {
        Cost::new(at, self.steps + steps, self.room.max(room))
    }

    #[inline(always)]
    fn end(self, c: Cost) -> Cost {
        self.last(c.at(), c.steps(), c.room())
    }

    /// A negation: entered and left.
    #[inline(always)]
    fn negated(self, c: Cost) -> Cost {
        self.last(c.at(), c.steps() + 2, c.room() + 1)
    }

    /// A sum or a concurrent part on one packet: entered and left, both sides at once.
    #[inline(always)]
    fn both(self, c: Cost, d: Cost) -> Cost {
        self.last(d.at(), c.steps() + d.steps() + 2, c.room() + d.room() + 1)
    }

    /// The use of a table.
    #[inline(always)]
    fn table(self, at: usize, c: Cost) -> Cost {
        self.last(at + 2, c.steps() + 1, c.room())
    }
}

#[derive(Clone, Copy)]
pub struct Walk<'a> {
    pub book: &'a [u8],
    pub start: &'a [u16; 16],
}

impl<'a> Walk<'a> {
    #[inline(always)]
    fn operand(&self, at: usize) -> Put {
        let bytes = &self.book[at..at + 4];
        Put::new(bytes[1], bytes[2], bytes[3])
    }

    #[inline(always)]
    fn table(&self, at: usize) -> usize {
        self.start[(self.book[at + 1] & 15) as usize] as usize
    }

    /// The place after the part.
    fn skip(&self, mut at: usize) -> usize {
        let mut need = 1;
        while need > 0 {
            let (length, parts) = SHAPE[self.book[at] as usize];
            need = need + parts as usize - 1;
            at += length as usize;
        }
        at
    }

    /// As `none`, with the smallest parts done on the spot.
    #[inline(always)]
    fn none_here(&self, at: usize) -> Cost {
        match self.book[at] {
            TEST | SET => Cost::new(at + 4, 1, 1),
            _ => self.none(at),
        }
    }

    /// A part on no packet: it gives none. A concurrent part is then one step, whatever its sides.
    fn none(&self, mut at: usize) -> Cost {
        let mut chain = Chain::new();
        loop {
            match self.book[at] {
                ID => return chain.last(at + 1, 0, 1),
                DROP => return chain.last(at + 1, 1, 1),
                TEST | SET => return chain.last(at + 4, 1, 1),
                NOT => return chain.negated(self.none(at + 1)),
                SUM => {
                    let c = self.none_here(at + 1);
                    return chain.both(c, self.none_here(c.at()));
                }
                SEQUENCE => {
                    let c = self.none_here(at + 1);
                    chain.first(c.steps(), c.room());
                    at = c.at();
                }
                BESIDE => return chain.last(self.skip(self.skip(at + 3)), 1, 1),
                _ => return chain.table(at, self.none(self.table(at))),
            }
        }
    }

    /// A negation's part on one packet: does it give the packet?
    fn holds(&self, mut at: usize, x: Packet) -> (bool, Cost) {
        let mut chain = Chain::new();
        let mut yes = true;
        loop {
            match self.book[at] {
                ID => return (yes, chain.last(at + 1, 0, 1)),
                DROP => return (false, chain.last(at + 1, 1, 1)),
                TEST => return (yes & (self.operand(at).off(x) == 0), chain.last(at + 4, 1, 1)),
                NOT => {
                    let (p, c) = self.holds(at + 1, x);
                    return (yes & !p, chain.negated(c));
                }
                SUM => {
                    let (p, c) = self.holds(at + 1, x);
                    let (q, d) = self.holds(c.at(), x);
                    return (yes & (p | q), chain.both(c, d));
                }
                _ => {
                    let (p, c) = self.holds(at + 1, x);
                    chain.first(c.steps(), c.room());
                    at = c.at();
                    yes &= p;
                }
            }
        }
    }

    /// A negation's part on a set: bit i is set where it gives packet i.
    fn mask(&self, mut at: usize, s: &Set) -> (u32, Cost) {
        let mut chain = Chain::new();
        let mut yes = 0xffff;
        loop {
            match self.book[at] {
                ID => return (yes, chain.last(at + 1, 0, 1)),
                DROP => return (0, chain.last(at + 1, 1, 1)),
                TEST => {
                    let test = self.operand(at);
                    let mut p = 0;
                    for (i, x) in s.packets[..s.count.min(MOST_PACKETS)].iter().enumerate() {
                        p |= ((test.off(x.get()) == 0) as u32) << i;
                    }
                    return (yes & p, chain.last(at + 4, 1, 1));
                }
                NOT => {
                    let (p, c) = self.mask(at + 1, s);
                    return (yes & !p, chain.negated(c));
                }
                SUM => {
                    let (p, c) = self.mask(at + 1, s);
                    let (q, d) = self.mask(c.at(), s);
                    return (yes & (p | q), chain.both(c, d));
                }
                _ => {
                    let (p, c) = self.mask(at + 1, s);
                    chain.first(c.steps(), c.room());
                    at = c.at();
                    yes &= p;
                }
            }
        }
    }

    /// As `one`, with the smallest parts done on the spot.
    #[inline(always)]
    fn one_here(&self, at: usize, x: Packet, out: &mut Set) -> Option<Cost> {
        match self.book[at] {
            ID => {
                out.one_if(true, x);
                Some(Cost::new(at + 1, 0, 1))
            }
            TEST => {
                out.one_if(self.operand(at).off(x) == 0, x);
                Some(Cost::new(at + 4, 1, 1))
            }
            SET => {
                out.one_if(true, x ^ self.operand(at).off(x));
                Some(Cost::new(at + 4, 1, 1))
            }
            _ => self.one(at, x, out),
        }
    }

    /// A part on one packet; what it gives goes to `out`. None if too wide.
    pub fn one(&self, mut at: usize, mut x: Packet, out: &mut Set) -> Option<Cost> {
        let mut chain = Chain::new();
        loop {
            match self.book[at] {
                ID | TEST | SET => return Some(chain.end(self.one_here(at, x, out)?)),
                DROP => {
                    out.count = 0;
                    return Some(chain.last(at + 1, 1, 1));
                }
                NOT => {
                    let (p, c) = self.holds(at + 1, x);
                    out.one_if(!p, x);
                    return Some(chain.negated(c));
                }
                SUM => {
                    let c = self.one_here(at + 1, x, out)?;
                    let mut other = Set::new();
                    let d = self.one_here(c.at(), x, &mut other)?;
                    out.count = union(&mut out.packets, out.count, &other.packets, other.count)?;
                    return Some(chain.both(c, d));
                }
                SEQUENCE => match self.first(at + 1, x, &mut chain, out)? {
                    (next, Some(y)) => (at, x) = (next, y),
                    (next, None) if out.count == 0 => return Some(chain.end(self.none_here(next))),
                    (next, None) => return Some(chain.end(self.more(next, out)?)),
                },
                BESIDE => return Some(chain.end(self.sides(at, x, out)?)),
                _ => return Some(chain.table(at, self.one(self.table(at), x, out)?)),
            }
        }
    }

    /// The first part of a sequence on one packet: the place of the second, and the packet if it gives one; no packet or
    /// more are left in `out`.
    #[inline(always)]
    fn first(
        &self,
        at: usize,
        x: Packet,
        chain: &mut Chain,
        out: &mut Set,
    ) -> Option<(usize, Option<Packet>)> {
        match self.book[at] {
            ID => {
                chain.first(0, 1);
                Some((at + 1, Some(x)))
            }
            TEST => {
                chain.first(1, 1);
                let kept = self.operand(at).off(x) == 0;
                out.count = 0;
                Some((at + 4, if kept { Some(x) } else { None }))
            }
            SET => {
                chain.first(1, 1);
                Some((at + 4, Some(x ^ self.operand(at).off(x))))
            }
            _ => {
                let c = self.one(at, x, out)?;
                chain.first(c.steps(), c.room());
                Some((c.at(), if out.count == 1 { Some(out.packets[0].get()) } else { None }))
            }
        }
    }

    /// A concurrent part on one packet.
    fn sides(&self, at: usize, x: Packet, out: &mut Set) -> Option<Cost> {
        let (left, right) = (self.book[at + 1], self.book[at + 2]);
        let c = self.one_here(at + 3, x & !spread(right), out)?;
        let mut other = Set::new();
        let d = self.one_here(c.at(), x & !spread(left), &mut other)?;
        out.count = pair(&mut out.packets, out.count, &other.packets, other.count)?;
        Some(Chain::new().both(c, d))
    }

    /// A part on any number of packets, in place. None if too wide.
    fn more(&self, mut at: usize, s: &mut Set) -> Option<Cost> {
        let mut chain = Chain::new();
        loop {
            match s.count {
                0 => return Some(chain.end(self.none(at))),
                1 => return Some(chain.end(self.one(at, s.packets[0].get(), s)?)),
                _ => {}
            }
            match self.book[at] {
                ID => return Some(chain.last(at + 1, 0, 1)),
                DROP => {
                    s.count = 0;
                    return Some(chain.last(at + 1, 1, 1));
                }
                TEST => {
                    s.count = filter(&mut s.packets, s.count, self.operand(at));
                    return Some(chain.last(at + 4, 1, 1));
                }
                SET => {
                    s.count = assign(&mut s.packets, s.count, self.operand(at));
                    return Some(chain.last(at + 4, 1, 1));
                }
                NOT => {
                    let (p, c) = self.mask(at + 1, s);
                    s.keep(!p);
                    return Some(chain.negated(c));
                }
                SUM => return Some(chain.end(self.sum(at, s)?)),
                SEQUENCE => {
                    let c = self.more(at + 1, s)?;
                    chain.first(c.steps(), c.room());
                    at = c.at();
                }
                BESIDE => return Some(chain.end(self.each(at, s)?)),
                _ => return Some(chain.table(at, self.more(self.table(at), s)?)),
            }
        }
    }

    /// A sum on two packets or more.
    #[inline(always)]
    fn sum(&self, at: usize, s: &mut Set) -> Option<Cost> {
        let mut other = s.copy();
        let c = self.more(at + 1, s)?;
        let d = self.more(c.at(), &mut other)?;
        s.count = union(&mut s.packets, s.count, &other.packets, other.count)?;
        Some(Chain::new().both(c, d))
    }

    /// A concurrent part on two packets or more: one at a time, lowest first. Every split costs two steps and one
    /// position.
    fn each(&self, at: usize, s: &mut Set) -> Option<Cost> {
        let splits = s.count as u32 - 1;
        let (mut end, mut steps, mut room) = (0, 2 * splits, splits);
        let mut part = Set::new();
        let from = s.copy();
        s.count = 0;
        for x in &from.packets[..from.count.min(MOST_PACKETS)] {
            let c = self.sides(at, x.get(), &mut part)?;
            (end, steps, room) = (c.at(), steps + c.steps(), room + c.room());
            s.count = union(&mut s.packets, s.count, &part.packets, part.count)?;
        }
        Some(Cost::new(end, steps, room))
    }
}
