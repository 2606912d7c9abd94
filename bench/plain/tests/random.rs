//! Random books, right and damaged: every long enough schedule ends as the evaluator says, and a refusal leaves every word.

use plain::*;

struct Random(u64);

/// What a part may do: fields to test and to write, levels and concurrent parts below it, and whether it is negated.
#[derive(Clone, Copy)]
struct Scope {
    test: u8,
    write: u8,
    levels: usize,
    concurrent: usize,
    negated: bool,
}

impl Random {
    fn next(&mut self) -> u64 {
        self.0 ^= self.0 << 13;
        self.0 ^= self.0 >> 7;
        self.0 ^= self.0 << 17;
        self.0
    }

    fn below(&mut self, n: usize) -> usize {
        (self.next() >> 33) as usize % n
    }

    /// A test (code 2) or a set (code 3) of one of the fields; the part that passes all where there is none.
    fn leaf(&mut self, fields: u8, code: u8, out: &mut Vec<u8>) {
        let fields: Vec<u8> = (0..8).filter(|field| fields >> field & 1 == 1).collect();
        if fields.is_empty() {
            out.push(0);
        } else {
            out.extend([code, fields[self.below(fields.len())], 0, self.below(3) as u8]);
        }
    }

    fn policy(&mut self, scope: Scope, tables: &[(u8, u8)], out: &mut Vec<u8>) {
        if scope.levels == 0 {
            return self.small(scope, out);
        }
        let below = Scope { levels: scope.levels - 1, ..scope };
        let least = if scope.levels > 2 && self.below(4) > 0 { 4 } else { 0 };
        match least + self.below(12 - least) {
            0..4 => self.small(scope, out),
            4 => {
                out.push(4);
                self.policy(Scope { negated: true, ..below }, tables, out);
            }
            kind @ 5..10 => {
                out.push(if kind < 8 { 5 } else { 6 });
                self.policy(below, tables, out);
                self.policy(below, tables, out);
            }
            10 if scope.concurrent > 0 && !scope.negated => self.beside(below, tables, out),
            11 if !scope.negated && !tables.is_empty() => self.table(scope, tables, out),
            _ => self.small(scope, out),
        }
    }

    fn small(&mut self, scope: Scope, out: &mut Vec<u8>) {
        match self.below(4) {
            0 => out.push((self.below(8) == 0) as u8),
            1 => self.leaf(scope.test, 2, out),
            _ if scope.negated => self.leaf(scope.test, 2, out),
            _ => self.leaf(scope.write, 3, out),
        }
    }

    fn beside(&mut self, below: Scope, tables: &[(u8, u8)], out: &mut Vec<u8>) {
        let left = below.write & self.next() as u8;
        let right = below.write & !left;
        out.extend([7, left, right]);
        for (write, other) in [(left, right), (right, left)] {
            let side = Scope { test: below.test & !other, write, concurrent: below.concurrent - 1, ..below };
            self.policy(side, tables, out);
        }
    }

    /// The use of a table that fits, or the part that passes all.
    fn table(&mut self, scope: Scope, tables: &[(u8, u8)], out: &mut Vec<u8>) {
        let x = self.below(tables.len());
        let (read, write) = tables[x];
        if (read | write) & !scope.test == 0 && write & !scope.write == 0 {
            out.extend([8, x as u8 + 1]);
        } else {
            out.push(0);
        }
    }
}

/// A random book of k fields, whose bodies fit their masks; damaged, one byte is another.
fn book(r: &mut Random, k: u8, damaged: bool) -> Vec<u8> {
    let all = 0xffu8 >> (8 - k);
    let masks = |r: &mut Random| {
        let write = all & r.next() as u8 & r.next() as u8;
        (all & !write & r.next() as u8, write)
    };
    let tables: Vec<(u8, u8)> = (0..r.below(4)).map(|_| masks(r)).collect();
    let mut bodies = vec![vec![]];
    for (read, write) in &tables {
        let (mut body, levels) = (vec![], r.below(4));
        if r.below(12) > 0 {
            let scope = Scope { test: read | write, write: *write, levels, concurrent: 1, negated: false };
            r.policy(scope, &[], &mut body);
        }
        bodies.push(body);
    }
    let levels = 1 + r.below(8);
    let scope = Scope { test: all, write: all, levels, concurrent: 4, negated: false };
    r.policy(scope, &tables, &mut bodies[0]);
    let mut book = vec![k, tables.len() as u8];
    for (body, (read, write)) in bodies.iter().zip([(0, all)].iter().chain(&tables)) {
        book.extend([(body.len() >> 8) as u8, body.len() as u8, *read, *write]);
    }
    book.extend(bodies.concat());
    if damaged {
        let (at, below) = (r.below(book.len()), [10, 256][r.below(2)]);
        book[at] = r.below(below) as u8;
    }
    book
}

const MARK: u16 = 7;

/// Evaluates and runs one book; the answer's number (16 if still running) and the packets' count.
fn agree(book: &[u8], packet: &[u16], schedule: &[u8]) -> (usize, usize) {
    let words = 16 * packet.len();
    let (mut result, mut again, mut area) = (vec![MARK; words], vec![MARK; words], vec![MARK; AREA_WORDS]);
    let evaluated = evaluate(book, packet, &mut result);
    let ran = run(book, packet, schedule, &mut again, &mut area);
    let kept = again.iter().chain(&area).all(|word| *word == MARK);
    match (evaluated, ran) {
        (Err(x), Err(y)) => {
            assert_eq!(x, y);
            assert_eq!(accept(book).err(), if x.number <= 7 { Some(x) } else { None });
            assert!(kept && result.iter().all(|word| *word == MARK));
            (x.number as usize, 0)
        }
        (Ok(given), Err(y)) => {
            assert!(y.number == 11 && given.room > 160 && kept);
            (11, given.count)
        }
        (Ok(given), Ok(Ran::Finished { steps, count })) => {
            assert_eq!((steps, count), (given.steps as usize, given.count));
            assert_eq!(again, result);
            (0, count)
        }
        (Ok(given), Ok(Ran::Running { steps, live, .. })) => {
            assert!(steps == schedule.len() && given.steps as usize > steps && live <= 160);
            (16, given.count)
        }
        other => panic!("{other:?}"),
    }
}

#[test]
fn all_schedules_end_alike() {
    let mut r = Random(0x1234_5678_9abc_def1);
    let (mut numbers, mut widest) = ([0u32; 17], 0);
    for case in 0..40_000 {
        let k = 1 + r.below(8) as u8;
        let book = book(&mut r, k, case % 4 == 0);
        let packet: Vec<u16> = (0..k).map(|_| r.below(3) as u16).collect();
        let schedule: Vec<u8> = (0..20_000).map(|_| r.next() as u8).collect();
        let (number, count) = agree(&book, &packet, &schedule);
        numbers[number] += 1;
        widest = widest.max(count);
    }
    assert!(numbers[0] > 10_000 && numbers[11] > 20 && numbers[10] > 10 && widest == 16, "{numbers:?}");
}
