//! Both programs give the same answers and leave the same words, on a case and on its book damaged.

use crate::books::Case;
use crate::programs::{Caller, OURS, PLAIN};

const DAMAGES: usize = 32;

/// Stops the benchmark where the programs differ.
pub fn agree(case: &Case) {
    let (differs, finished) = compare(case);
    assert!(differs.is_none(), "{}: the programs differ in {differs:?}", case.name);
    assert!(finished || case.room > 160, "{}: the schedule does not finish", case.name);
    for book in damaged(&case.book) {
        let schedule = case.schedule[..case.schedule.len().min(64)].to_vec();
        let changed = Case { name: String::new(), packet: case.packet.clone(), book, schedule, ..*case };
        let (differs, _) = compare(&changed);
        assert!(differs.is_none(), "{}, damaged: {differs:?} of {:?}", case.name, changed.book);
    }
}

/// The first call in which the programs differ, if any; and whether the run on the whole schedule finishes.
fn compare(case: &Case) -> (Option<&'static str>, bool) {
    let [mut ours, mut plain] = [OURS, PLAIN].map(Caller::new);
    if (ours.program.accept)(&case.book) != (plain.program.accept)(&case.book) {
        return (Some("accept"), false);
    }
    let evaluated =
        [&mut ours, &mut plain].map(|c| (c.program.evaluate)(&case.book, &case.packet, &mut c.result));
    if evaluated[0] != evaluated[1] || ours.result != plain.result {
        return (Some("evaluate"), false);
    }
    let mut finished = false;
    for schedule in [&[], &case.schedule[..case.schedule.len() / 2], &case.schedule[..]] {
        let [mut ours, mut plain] = [OURS, PLAIN].map(Caller::new);
        let ran = [&mut ours, &mut plain].map(|c| c.answer_run(case, schedule));
        if ran[0] != ran[1] || ours.result != plain.result || ours.area != plain.area {
            return (Some("run"), false);
        }
        finished = ran[0].0 == 0;
    }
    (None, finished)
}

/// The book with one to three bytes changed, to a code or in one bit: mostly it is refused.
fn damaged(book: &[u8]) -> Vec<Vec<u8>> {
    let mut x = book.iter().fold(0x2545_f491_4f6c_dd1d_u64, |x, byte| x.rotate_left(9) ^ *byte as u64);
    let mut random = || {
        x ^= x << 13;
        x ^= x >> 7;
        x ^= x << 17;
        x >> 16
    };
    let mut change = |mut book: Vec<u8>| {
        for _ in 0..1 + random() % 3 {
            let at = random() as usize % book.len();
            book[at] = if random() % 2 == 0 { (random() % 10) as u8 } else { book[at] ^ 1 << (random() % 8) };
        }
        book
    };
    (0..DAMAGES).map(|_| change(book.to_vec())).collect()
}
