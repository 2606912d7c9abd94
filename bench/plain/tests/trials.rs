//! Document 01's trials at the edges, and the rules for the lent words.

use plain::*;

type Part = Vec<u8>;
fn test(f: u8, v: u16) -> Part {
    vec![2, f, (v >> 8) as u8, v as u8]
}
fn set(f: u8, v: u16) -> Part {
    vec![3, f, (v >> 8) as u8, v as u8]
}
fn op(code: u8, p: Part, q: Part) -> Part {
    [vec![code], p, q].concat()
}
fn not(p: Part) -> Part {
    [vec![4], p].concat()
}
fn beside(wp: u8, wq: u8, p: Part, q: Part) -> Part {
    [vec![7, wp, wq], p, q].concat()
}
fn balanced(code: u8, p: &Part, n: usize) -> Part {
    if n == 1 {
        p.clone()
    } else {
        op(code, balanced(code, p, n.div_ceil(2)), balanced(code, p, n / 2))
    }
}
fn book_with(k: u8, main: Part, r: u8, w: u8, tables: &[(u8, u8, Part)]) -> Vec<u8> {
    let mut b = vec![k, tables.len() as u8, (main.len() >> 8) as u8, main.len() as u8, r, w];
    for (r, w, t) in tables {
        b.extend([(t.len() >> 8) as u8, t.len() as u8, *r, *w]);
    }
    b.extend(main);
    tables.iter().for_each(|t| b.extend(&t.2));
    b
}
fn book(k: u8, main: Part) -> Vec<u8> {
    book_with(k, main, 0, 0xff >> (8 - k), &[])
}
fn no<T>(number: u8, place: u16) -> Result<T, Refusal> {
    Err(Refusal { number, place })
}

const MARK: u16 = 0xa5a5;

/// Evaluates and runs to the finish under three schedules; both must agree and keep the other words.
fn gives(b: &[u8], packet: &[u16]) -> (Vec<Vec<u16>>, Outcome) {
    let k = packet.len();
    let mut result = vec![MARK; 16 * k + 3];
    let g = evaluate(b, packet, &mut result).unwrap();
    assert!(result[g.count * k..].iter().all(|w| *w == MARK));
    let answer: Vec<Vec<u16>> = result.chunks(k).take(g.count).map(|p| p.to_vec()).collect();
    assert!(answer.windows(2).all(|w| w[0] < w[1]));
    for step in [0usize, 1, 97] {
        if g.room > 160 {
            assert_eq!(run(b, packet, &[], &mut vec![0; 16 * k], &mut [0; AREA_WORDS]), no(11, 0));
            continue;
        }
        let schedule: Vec<u8> =
            (0..g.steps as usize + 5).map(|i| (i * step * 31 + i / 7 * step) as u8).collect();
        let (mut again, mut work) = (vec![MARK; 16 * k + 3], vec![MARK; AREA_WORDS + 2]);
        let o = run(b, packet, &schedule, &mut again, &mut work);
        assert_eq!(o, Ok(Ran::Finished { steps: g.steps as usize, count: g.count }));
        assert_eq!(again, result);
        assert!(work[..AREA_WORDS].iter().all(|w| *w == 0) && work[AREA_WORDS..] == [MARK; 2]);
        if g.steps > 0 {
            let (mut kept, mut work) = (vec![MARK; 16 * k], vec![MARK; AREA_WORDS + 2]);
            let o = run(b, packet, &schedule[..g.steps as usize - 1], &mut kept, &mut work);
            assert!(matches!(o, Ok(Ran::Running { steps, ready: 1, .. }) if steps == g.steps as usize - 1));
            assert!(kept.iter().all(|w| *w == MARK));
            assert!(work[..AREA_WORDS].iter().all(|w| *w == 0) && work[AREA_WORDS..] == [MARK; 2]);
        }
    }
    (answer, g)
}
/// k = 2, the packet (5, 9): the set and N.
fn small(main: Part) -> (Vec<Vec<u16>>, u32) {
    let (s, g) = gives(&book(2, main), &[5, 9]);
    (s, g.steps)
}

#[test]
fn atoms() {
    assert_eq!(small(vec![0]), (vec![vec![5, 9]], 0));
    assert_eq!(
        run(&book(2, vec![0]), &[5, 9], &[], &mut [0; 32], &mut [0; AREA_WORDS]),
        Ok(Ran::Finished { steps: 0, count: 1 })
    );
    assert_eq!(small(vec![1]), (vec![], 1));
    assert_eq!(small(test(0, 5)), (vec![vec![5, 9]], 1));
    assert_eq!(small(test(0, 6)), (vec![], 1));
    assert_eq!(small(not(test(0, 5))), (vec![], 3));
    assert_eq!(small(not(test(0, 6))), (vec![vec![5, 9]], 3));
    assert_eq!(small(op(5, set(0, 1), set(0, 1))), (vec![vec![1, 9]], 4));
}

#[test]
fn concurrent() {
    let b = [2, 0, 0, 0x0b, 0, 3, 7, 1, 2, 3, 0, 0, 1, 3, 1, 0, 2];
    let (s, g) = gives(&b, &[5, 9]);
    assert_eq!(s, [[1, 2]]);
    assert_eq!(g, Outcome { count: 1, steps: 4, parts: 3, deep: 1, room: 3 });
    let o = run(&b, &[5, 9], &[0, 0], &mut [0; 32], &mut [0; AREA_WORDS]);
    assert_eq!(o, Ok(Ran::Running { steps: 2, live: 3, ready: 1 }));
    let two = op(5, op(6, set(0, 0), set(1, 0)), op(6, set(0, 1), set(1, 1)));
    let (s, g) = gives(&book(2, op(6, two, beside(1, 2, vec![0], vec![0]))), &[5, 9]);
    assert_eq!(s, [[0, 0], [1, 1]]);
    assert_eq!((g.steps, g.parts, g.room), (15, 11, 7));
}

#[test]
fn refused_books() {
    assert_eq!(accept(&book(2, beside(1, 1, vec![0], vec![0]))), no(7, 6));
    assert_eq!(accept(&book(2, beside(0, 1, test(0, 5), set(0, 1)))), no(7, 6));
    assert_eq!(accept(&book(2, not(set(0, 1)))), no(5, 7));
    assert_eq!(accept(&[2]), no(1, 0));
    assert_eq!(accept(&[0; 4097]), no(1, 0));
    assert_eq!(accept(&[0, 0]), no(2, 0));
    assert_eq!(accept(&[9, 0]), no(2, 0));
    assert_eq!(accept(&[1, 16]), no(2, 0));
    assert_eq!(accept(&[1, 0]), no(3, 0));
    assert_eq!(accept(&[1, 0, 0, 2, 0, 1, 0]), no(3, 0));
    assert_eq!(accept(&[1, 0, 0, 1, 1, 1, 9]), no(4, 0));
    assert_eq!(accept(&[1, 0, 0, 1, 0, 2, 9]), no(4, 0));
    assert_eq!(accept(&[1, 0, 0, 1, 0, 1, 9]), no(5, 6));
    assert_eq!(accept(&[1, 0, 0, 0, 0, 1]), no(5, 6));
    assert_eq!(accept(&book(2, vec![0, 0])), no(5, 7));
    assert_eq!(accept(&book(2, vec![3])), no(5, 7));
    assert_eq!(accept(&book(2, vec![3, 2])), no(5, 7));
    assert_eq!(accept(&book(2, vec![3, 1])), no(5, 8));
    assert_eq!(accept(&book(2, vec![3, 1, 0])), no(5, 9));
    assert_eq!(accept(&book(2, vec![4, 3, 2])), no(5, 7));
    assert_eq!(accept(&book(2, vec![4, 2, 2])), no(5, 8));
    assert_eq!(accept(&book(2, vec![7, 4])), no(5, 7));
    assert_eq!(accept(&book(2, vec![7, 1, 4])), no(5, 8));
    assert_eq!(accept(&book(2, vec![7, 1, 2, 0])), no(5, 10));
    assert_eq!(accept(&book(2, vec![8, 1])), no(5, 7));
    assert_eq!(accept(&book_with(2, vec![8, 1], 0, 3, &[(0, 0, vec![8, 1])])), no(5, 12));
    // typing: the first wrong concurrent part in book order, then the first body that does not fit
    let bad = beside(1, 1, vec![0], vec![0]);
    assert_eq!(accept(&book(2, op(6, vec![0], beside(1, 2, bad.clone(), vec![0])))), no(7, 11));
    assert_eq!(accept(&book(2, op(6, vec![0], beside(2, 1, bad.clone(), vec![0])))), no(7, 8));
    assert_eq!(accept(&book_with(2, set(0, 1), 0, 0, &[(0, 3, bad)])), no(7, 14));
    assert_eq!(accept(&book_with(2, vec![0], 0, 0, &[(2, 1, test(1, 1)), (2, 1, set(1, 1))])), no(7, 19));
    assert_eq!(accept(&book_with(2, vec![8, 1], 3, 0, &[(2, 1, vec![0])])), no(7, 10));
}

#[test]
fn depth() {
    for n in [31usize, 32, 33] {
        let want = if n > 32 { no(5, 6 + 32) } else { Ok(()) };
        assert_eq!(accept(&book(1, [vec![4; n - 1], vec![0]].concat())).map(|_| ()), want);
    }
}

#[test]
fn widths() {
    let two = |f| op(5, set(f, 0), set(f, 1));
    let four = op(6, op(6, two(0), two(1)), op(6, two(2), two(3)));
    for v in [0, 7] {
        let (s, g) = gives(&book(5, four.clone()), &[v; 5]);
        assert_eq!((s.len(), g.steps), (16, 19));
        assert_eq!(s[5], [0, 1, 0, 1, v]);
    }
    let five = book(5, op(6, four, two(4)));
    let (mut result, mut work) = ([MARK; 80], [MARK; AREA_WORDS]);
    assert_eq!(evaluate(&five, &[0; 5], &mut result), no(10, 0));
    assert_eq!(run(&five, &[0; 5], &[], &mut result, &mut work), no(10, 0));
    assert!(result.iter().chain(&work).all(|w| *w == MARK));
    let pairs = |a: Part, b: Part| evaluate(&book(5, beside(3, 28, a, b)), &[9; 5], &mut [0; 80]);
    let ab = op(6, two(0), two(1));
    let cd = op(6, two(2), two(3));
    assert_eq!(pairs(ab.clone(), cd.clone()).unwrap().count, 16);
    assert_eq!(pairs(ab, op(6, cd, two(4))), no(10, 0));
}

#[test]
fn rooms() {
    let drops = |n| balanced(5, &vec![1], n);
    assert_eq!(gives(&book(2, drops(80)), &[5, 9]).1.room, 159);
    assert_eq!(gives(&book(2, op(6, drops(80), vec![0])), &[5, 9]).1.room, 160);
    assert_eq!(gives(&book(2, drops(81)), &[5, 9]).1.room, 161);
}

#[test]
fn counts() {
    let ids = balanced(6, &vec![0], 512);
    assert_eq!(accept(&book(2, ids.clone())).unwrap().parts, 1023);
    gives(&book(2, ids.clone()), &[5, 9]);
    assert_eq!(accept(&book(2, not(ids))), no(6, 0));
    let mut nest = vec![0];
    for n in 1..=5 {
        nest = beside(0, 0, nest, vec![0]);
        assert_eq!(accept(&book(2, nest.clone())).map(|c| c.deep), if n < 5 { Ok(n) } else { no(6, 0) });
    }
    // a table's body counts under each use, and its depth under the use's
    let b = |n| book_with(1, balanced(6, &vec![8, 1], n), 0, 1, &[(0, 1, balanced(6, &vec![0], 50))]);
    assert_eq!(accept(&b(10)).unwrap().parts, 10 * 100 + 9);
    assert_eq!(accept(&b(11)), no(6, 0));
}

#[test]
fn tables_and_order() {
    let b = book_with(2, vec![8, 1], 0, 3, &[(1, 2, vec![])]);
    let (mut result, mut work) = ([MARK; 32], [MARK; AREA_WORDS]);
    assert_eq!(evaluate(&b, &[1], &mut []), no(8, 0));
    assert_eq!(evaluate(&b, &[1, 2], &mut result[..31]), no(12, 0));
    assert_eq!(evaluate(&b, &[1, 2], &mut result), no(9, 0));
    assert_eq!(run(&b, &[1], &[], &mut [], &mut []), no(8, 0));
    assert_eq!(run(&b, &[1, 2], &[], &mut result, &mut work[1..]), no(12, 0));
    assert_eq!(run(&b, &[1, 2], &[], &mut result[1..], &mut work), no(12, 0));
    assert_eq!(run(&b, &[1, 2], &[], &mut result, &mut work), no(9, 0));
    assert!(result.iter().chain(&work).all(|w| *w == MARK));
    let twice = book_with(2, op(6, vec![8, 1], vec![8, 1]), 0, 3, &[(1, 2, set(1, 8))]);
    let (s, g) = gives(&twice, &[1, 2]);
    assert_eq!((s, g.steps, g.parts), (vec![vec![1, 8]], 5, 5));
    // typed by the declared masks: the table might write field 1 and test 0
    assert_eq!(
        accept(&book_with(2, beside(2, 1, vec![8, 1], set(0, 4)), 0, 3, &[(1, 2, vec![0])])),
        no(7, 10)
    );
}

#[test]
fn packet_by_packet() {
    // on two packets the negation keeps the one that does not pass
    let two = op(5, set(0, 0), set(0, 1));
    assert_eq!(small(op(6, two.clone(), not(test(0, 0)))).0, [[1, 9]]);
    // a merged duplicate is one packet
    let eight = (1..8).fold(set(0, 0), |p, v| op(5, p, set(0, v)));
    assert_eq!(small(op(6, op(5, eight.clone(), eight), two)).0, [[0, 9], [1, 9]]);
}
