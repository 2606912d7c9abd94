//! Reading, counting and typing a book in one pass over its bytes, without recursion.

use crate::{Refusal, Sizes};
use std::mem::MaybeUninit;

pub const ID: u8 = 0;
pub const DROP: u8 = 1;
pub const TEST: u8 = 2;
pub const SET: u8 = 3;
pub const NOT: u8 = 4;
pub const SUM: u8 = 5;
pub const SEQUENCE: u8 = 6;
pub const BESIDE: u8 = 7;
pub const TABLE: u8 = 8;

/// Length with operands, and number of parts, by code.
pub const SHAPE: [(u8, u8); 9] = [(1, 0), (1, 0), (4, 0), (4, 0), (1, 1), (1, 2), (1, 2), (3, 2), (2, 0)];

const MOST_BYTES: usize = 4096;
const MOST_DEPTH: u32 = 32;
/// Deeper than any part: no negation is above.
const NOWHERE: u32 = 64;

/// The place of the second part for each code byte of a sum, a sequence or a concurrent part of a book that was read
/// with it. Other entries are never read, and so never cleared.
pub struct Seconds([MaybeUninit<u16>; MOST_BYTES]);

impl Seconds {
    #[inline(always)]
    pub fn new() -> Seconds {
        Seconds([const { MaybeUninit::uninit() }; MOST_BYTES])
    }

    #[inline(always)]
    fn put(&mut self, at: u16, second: usize) {
        self.0[at as usize & (MOST_BYTES - 1)].write(second as u16);
    }

    #[inline(always)]
    pub fn of(&self, at: usize) -> usize {
        // Safety: reading a body puts an entry for every such byte.
        unsafe { self.0[at & (MOST_BYTES - 1)].assume_init() as usize }
    }
}

/// What is known of an accepted book.
pub struct Book {
    pub sizes: Sizes,
    /// Does the main policy name an unpopulated table?
    pub names_blank: bool,
    /// First byte of each body.
    pub start: [u16; 16],
}

/// An entry of the contents, what its body was found to be, and its uses in the main body.
#[derive(Clone, Copy)]
struct Entry {
    length: u16,
    read: u8,
    write: u8,
    tested: u8,
    written: u8,
    deep: u8,
    use_deep: u8,
    parts: u32,
    uses: u32,
}

const BLANK: Entry =
    Entry { length: 0, read: 0, write: 0, tested: 0, written: 0, deep: 0, use_deep: 0, parts: 0, uses: 0 };

/// A concurrent part whose sides are being read.
#[derive(Clone, Copy)]
struct Open {
    depth: u32,
    at: u16,
    left: u8,
    right: u8,
    // masks gathered before this part, within the same side of the one above
    tested_before: u8,
    written_before: u8,
    // masks of the finished left side
    tested_left: u8,
    written_left: u8,
}

const CLOSED: Open = Open {
    depth: 0,
    at: 0,
    left: 0,
    right: 0,
    tested_before: 0,
    written_before: 0,
    tested_left: 0,
    written_left: 0,
};

/// Where the reading of one body stands.
struct Spot {
    at: usize,
    depth: u32,
    /// Bit d: a second part at depth d is still to come. After a part without parts the highest is the next one's depth.
    pending: u64,
    /// Depth of the outermost negation above here.
    not: u32,
    tested: u8,
    written: u8,
    parts: u32,
    deep: usize,
    opened: usize,
    /// Depth of the sides of the innermost open concurrent part.
    edge: u32,
}

struct Reader<'a> {
    book: &'a [u8],
    fields: u8,
    tables: u8,
    entry: [Entry; 16],
    /// Place of the first concurrent part that is not right.
    wrong: usize,
}

#[cold]
fn no(number: u8, place: usize) -> Refusal {
    Refusal { number, place: place as u16 }
}

/// Numbers 1 to 7 in their order, or what the book is; with `MARK` the places of second parts are noted.
pub fn read<const MARK: bool>(book: &[u8], seconds: &mut Seconds) -> Result<Book, Refusal> {
    let (fields, tables) = header(book)?;
    let mut reader = Reader { book, fields, tables, entry: [BLANK; 16], wrong: usize::MAX };
    let mut start = [0u16; 16];
    reader.contents(&mut start)?;
    let mut open = [CLOSED; 32];
    reader.body::<MARK, true>(0, start[0] as usize, seconds, &mut open)?;
    for x in 1..=tables as usize & 15 {
        if reader.entry[x].length != 0 {
            reader.body::<MARK, false>(x, start[x] as usize, seconds, &mut open)?;
        }
    }
    let main = reader.entry[0];
    let (mut parts, mut deep, mut names_blank) = (main.parts, main.deep, false);
    for entry in &reader.entry[1..] {
        if entry.uses != 0 {
            parts += entry.uses * entry.parts;
            deep = deep.max(entry.use_deep + entry.deep);
            names_blank |= entry.length == 0;
        }
    }
    if parts > 1023 || deep > 4 {
        return Err(no(6, 0));
    }
    reader.typed(&start)?;
    Ok(Book { sizes: Sizes { fields, tables, parts: parts as u16, deep }, names_blank, start })
}

/// Numbers 1 and 2: k and m.
#[inline(always)]
fn header(book: &[u8]) -> Result<(u8, u8), Refusal> {
    if book.len() < 2 || book.len() > MOST_BYTES {
        return Err(no(1, 0));
    }
    let (fields, tables) = (book[0], book[1]);
    if fields.wrapping_sub(1) > 7 || tables > 15 {
        return Err(no(2, 0));
    }
    Ok((fields, tables))
}

impl Reader<'_> {
    /// Numbers 3 and 4: the contents, and the first byte of each body.
    #[inline(always)]
    fn contents(&mut self, start: &mut [u16; 16]) -> Result<(), Refusal> {
        let head = 2 + 4 * (self.tables as usize + 1);
        let Some(contents) = self.book.get(2..head) else { return Err(no(3, 0)) };
        let over = self.over();
        let (mut sum, mut bad) = (head, false);
        for (i, bytes) in contents.as_chunks::<4>().0.iter().enumerate().take(16) {
            let [high, low, read, write] = *bytes;
            let length = (high as u16) << 8 | low as u16;
            self.entry[i].length = length;
            self.entry[i].read = read;
            self.entry[i].write = write;
            start[i] = sum as u16;
            sum += length as usize;
            bad |= read & write != 0 || (read | write) & over != 0;
        }
        if sum != self.book.len() {
            return Err(no(3, 0));
        }
        if bad {
            return Err(no(4, 0));
        }
        Ok(())
    }

    /// The bits of fields that are not there.
    #[inline(always)]
    fn over(&self) -> u8 {
        !(0xffu8 >> (8 - self.fields))
    }

    /// Number 7: the first concurrent part that is not right, then the first body that does not fit its masks. An
    /// unpopulated body has both masks empty.
    #[inline(always)]
    fn typed(&self, start: &[u16; 16]) -> Result<(), Refusal> {
        if self.wrong != usize::MAX {
            return Err(no(7, self.wrong));
        }
        for (entry, at) in self.entry.iter().zip(start) {
            if entry.tested & !(entry.read | entry.write) | entry.written & !entry.write != 0 {
                return Err(no(7, *at as usize));
            }
        }
        Ok(())
    }

    /// Number 5 in one body; notes its masks, parts and concurrent depth.
    #[inline]
    fn body<const MARK: bool, const MAIN: bool>(
        &mut self,
        x: usize,
        start: usize,
        seconds: &mut Seconds,
        open: &mut [Open; 32],
    ) -> Result<(), Refusal> {
        let end = start + self.entry[x].length as usize;
        let body = &self.book[..end];
        let mut s = Spot::new(start);
        let mut above = [0u16; 64]; // place of the two-part code above each depth
        loop {
            match s.code(body)? {
                ID | DROP => s.at += 1,
                code @ (TEST | SET) => self.field(code, body, &mut s)?,
                TABLE => self.table::<MAIN>(body, &mut s)?,
                NOT => {
                    s.negation();
                    continue;
                }
                SUM | SEQUENCE => {
                    s.two_parts::<MARK>(1, &mut above);
                    continue;
                }
                BESIDE => {
                    self.beside(body, &mut s, open)?;
                    s.two_parts::<MARK>(3, &mut above);
                    continue;
                }
                _ => return Err(no(5, s.at)),
            }
            self.ended(&mut s, open);
            if s.depth == 0 {
                return self.note(x, &s, end);
            }
            if MARK {
                seconds.put(above[(s.depth & 63) as usize], s.at);
            }
        }
    }

    /// The body is read: nothing may stand after it.
    #[inline(always)]
    fn note(&mut self, x: usize, s: &Spot, end: usize) -> Result<(), Refusal> {
        if s.at != end {
            return Err(no(5, s.at));
        }
        let entry = &mut self.entry[x];
        (entry.tested, entry.written, entry.parts, entry.deep) = (s.tested, s.written, s.parts, s.deep as u8);
        Ok(())
    }

    #[inline(always)]
    fn field(&self, code: u8, body: &[u8], s: &mut Spot) -> Result<(), Refusal> {
        let Some(&[_, field, _, _]) = body[s.at..].first_chunk::<4>() else {
            return Err(no(5, self.cut_field(code, body, s)));
        };
        if code == SET {
            if s.depth > s.not {
                return Err(no(5, s.at));
            }
            s.written |= 1 << (field & 7);
        } else {
            s.tested |= 1 << (field & 7);
        }
        if field >= self.fields {
            return Err(no(5, s.at + 1));
        }
        s.at += 4;
        Ok(())
    }

    /// The place of number 5 where the body ends within the operands.
    #[cold]
    fn cut_field(&self, code: u8, body: &[u8], s: &Spot) -> usize {
        if code == SET && s.depth > s.not {
            s.at
        } else if body.get(s.at + 1).is_some_and(|field| *field >= self.fields) {
            s.at + 1
        } else {
            body.len()
        }
    }

    #[inline(always)]
    fn table<const MAIN: bool>(&mut self, body: &[u8], s: &mut Spot) -> Result<(), Refusal> {
        if !MAIN || s.depth > s.not {
            return Err(no(5, s.at));
        }
        let Some(&table) = body.get(s.at + 1) else { return Err(no(5, body.len())) };
        if table == 0 || table > self.tables {
            return Err(no(5, s.at + 1));
        }
        let entry = &mut self.entry[(table & 15) as usize];
        entry.uses += 1;
        entry.use_deep = entry.use_deep.max(s.opened as u8);
        s.tested |= entry.read | entry.write;
        s.written |= entry.write;
        s.at += 2;
        Ok(())
    }

    #[inline(always)]
    fn beside(&self, body: &[u8], s: &mut Spot, open: &mut [Open; 32]) -> Result<(), Refusal> {
        if s.depth > s.not {
            return Err(no(5, s.at));
        }
        let Some(&left) = body.get(s.at + 1) else { return Err(no(5, body.len())) };
        if left & self.over() != 0 {
            return Err(no(5, s.at + 1));
        }
        let Some(&right) = body.get(s.at + 2) else { return Err(no(5, body.len())) };
        if right & self.over() != 0 {
            return Err(no(5, s.at + 2));
        }
        let (tested_before, written_before) = (s.tested, s.written);
        open[s.opened & 31] =
            Open { depth: s.depth, at: s.at as u16, left, right, tested_before, written_before, ..CLOSED };
        s.opened += 1;
        s.deep = s.deep.max(s.opened);
        (s.tested, s.written) = (0, 0);
        s.edge = s.depth + 1;
        Ok(())
    }

    /// A part without parts has ended, and all that ended with it: on to the next second part, or to depth 0.
    #[inline(always)]
    fn ended(&mut self, s: &mut Spot, open: &mut [Open; 32]) {
        s.depth = 63 - (s.pending | 1).leading_zeros();
        s.pending &= !(1 << s.depth);
        if s.depth <= s.not {
            s.not = NOWHERE;
        }
        if s.depth > s.edge {
            return;
        }
        while s.opened > 0 && s.depth <= open[(s.opened - 1) & 31].depth {
            s.opened -= 1;
            self.close(s, &open[s.opened & 31]);
        }
        s.edge = 0;
        if s.opened > 0 {
            let side = &mut open[(s.opened - 1) & 31];
            s.edge = side.depth + 1;
            if s.depth == s.edge {
                (side.tested_left, side.written_left) = (s.tested, s.written);
                (s.tested, s.written) = (0, 0);
            }
        }
    }

    /// Both sides of a concurrent part are read: is it right, and what does it add to the masks above?
    #[inline(always)]
    fn close(&mut self, s: &mut Spot, o: &Open) {
        let beyond = s.written & !o.right | o.written_left & !o.left;
        if beyond | o.left & o.right | o.tested_left & o.right | s.tested & o.left != 0 {
            self.wrong = self.wrong.min(o.at as usize);
        }
        s.tested |= o.tested_before | o.tested_left;
        s.written = o.written_before | o.left | o.right;
    }
}

impl Spot {
    #[inline(always)]
    fn new(at: usize) -> Spot {
        Spot {
            at,
            depth: 1,
            pending: 0,
            not: NOWHERE,
            tested: 0,
            written: 0,
            parts: 0,
            deep: 0,
            opened: 0,
            edge: 0,
        }
    }

    /// The code here, if one may stand here.
    #[inline(always)]
    fn code(&mut self, body: &[u8]) -> Result<u8, Refusal> {
        let Some(&code) = body.get(self.at) else { return Err(no(5, body.len())) };
        if self.depth > MOST_DEPTH {
            return Err(no(5, self.at));
        }
        self.parts += 1;
        Ok(code)
    }

    #[inline(always)]
    fn negation(&mut self) {
        self.not = self.not.min(self.depth);
        self.depth += 1;
        self.at += 1;
    }

    #[inline(always)]
    fn two_parts<const MARK: bool>(&mut self, length: usize, above: &mut [u16; 64]) {
        self.depth += 1;
        self.pending |= 1 << self.depth;
        if MARK {
            above[(self.depth & 63) as usize] = self.at as u16;
        }
        self.at += length;
    }
}
