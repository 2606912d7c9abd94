//! Document 01's "Trials at the edges" and its two printer examples, by name. What the document says of
//! each is typed in from its text and stands in the vectors instead of what this program answers.

use crate::answers::*;
use crate::edges::{drops, example, nested_beside, spread};
use crate::policy::*;
use crate::vectors::{Case, Stated, Vector};

/// One thing that document 01 says of a trial.
pub enum Says {
    /// The set, in its order.
    Packets(Vec<Vec<u16>>),
    Count(u32),
    /// N
    Steps(u32),
    /// n
    Parts(u32),
    /// D
    Concurrency(u32),
    Room(u32),
    /// The book is refused by this number at this place, so every call is.
    Refused(u8, usize),
    /// Evaluator and run refuse.
    NotGiven(u8),
    /// The run alone refuses.
    NotRun(u8),
    Finished(u32, u32),
    Running(u32, u32, u32),
}

use Says::*;

pub struct Trial {
    pub name: &'static str,
    pub vector: Vector,
    pub says: Vec<Says>,
}

fn trial(name: &'static str, book: Vec<u8>, packet: &[u16], schedule: usize, says: Vec<Says>) -> Trial {
    let vector = Vector {
        book,
        packet: packet.to_vec(),
        schedule: vec![0; schedule],
        result_words: 16 * packet.len() as u16 + 3,
        work_words: WORK_WORDS as u16 + 40,
        seed: 7,
    };
    Trial { name, vector, says }
}

/// k = 2, main masks R empty and W all fields, and the packet (5, 9).
fn plain(name: &'static str, main: &Policy, schedule: usize, says: Vec<Says>) -> Trial {
    trial(name, book_of(2, main), &[5, 9], schedule, says)
}

pub fn all() -> Vec<Trial> {
    [starred(), refused(), edges(), printer_examples()].into_iter().flatten().collect()
}

fn starred() -> Vec<Trial> {
    let test = Policy::Test(0, 5);
    let zeroes = sequence(set(0, 0), set(1, 0));
    let ones = sequence(set(0, 1), set(1, 1));
    let crossing = sequence(sum(zeroes, ones), beside(1, 2, Policy::Id, Policy::Id));
    let itself = |packet: [u16; 2]| Packets(vec![packet.to_vec()]);
    let example_book = vec![2, 0, 0, 0x0B, 0, 3, 7, 1, 2, 3, 0, 0, 1, 3, 1, 0, 2];
    vec![
        plain("id", &Policy::Id, 0, vec![itself([5, 9]), Steps(0), Finished(0, 1)]),
        plain("drop", &Policy::Drop, 1, vec![Packets(vec![]), Steps(1)]),
        plain("test 0 = 5", &test, 1, vec![itself([5, 9]), Steps(1)]),
        trial("test 0 = 5 on (6,9)", book_of(2, &test), &[6, 9], 1, vec![Packets(vec![]), Steps(1)]),
        plain("not of it", &not(test.clone()), 3, vec![Packets(vec![]), Steps(3)]),
        trial("not of it on (6,9)", book_of(2, &not(test)), &[6, 9], 3, vec![itself([6, 9])]),
        plain("set 0 to 1, + the same", &sum(set(0, 1), set(0, 1)), 4, vec![Count(1), Steps(4)]),
        trial(
            "the 17-byte book",
            example_book,
            &[5, 9],
            4,
            vec![itself([1, 2]), Steps(4), Parts(3), Concurrency(1), Room(3)],
        ),
        plain(
            "never four",
            &crossing,
            15,
            vec![Packets(vec![vec![0, 0], vec![1, 1]]), Steps(15), Parts(11), Room(7)],
        ),
    ]
}

fn refused() -> Vec<Trial> {
    let test_beside_set = beside(0, 1, Policy::Test(0, 5), set(0, 1));
    vec![
        plain("masks 01 and 01", &beside(1, 1, Policy::Id, Policy::Id), 0, vec![Refused(7, 6)]),
        plain("test of 0 beside set of 0", &test_beside_set, 0, vec![Refused(7, 6)]),
        plain("not over a set", &not(set(0, 1)), 0, vec![Refused(5, 7)]),
    ]
}

fn edges() -> Vec<Trial> {
    let ids = balanced(sequence, &vec![Policy::Id; 512]);
    let five = [3, 1, 4, 1, 5];
    vec![
        trial("16 packets", book_of(5, &spread(4)), &five, 19, vec![Count(16), Steps(19)]),
        trial("field 4 too", book_of(5, &spread(5)), &five, 19, vec![NotGiven(10)]),
        plain("80 drops", &drops(80), 300, vec![Room(159)]),
        plain("80 drops ; id", &sequence(drops(80), Policy::Id), 300, vec![Room(160), Count(0)]),
        plain("81 drops", &drops(81), 300, vec![NotRun(11)]),
        plain("512 ids", &ids, 600, vec![Parts(1023)]),
        plain("their negation", &not(ids), 600, vec![Refused(6, 0)]),
        plain("four nested", &nested_beside(4, Policy::Id), 20, vec![Concurrency(4)]),
        plain("five nested", &nested_beside(5, Policy::Id), 20, vec![Refused(6, 0)]),
    ]
}

fn printer_examples() -> Vec<Trial> {
    let finished = vec![Packets(vec![vec![1, 2]]), Finished(4, 1)];
    vec![
        plain("the printer's first example", &example(), 4, finished),
        plain("the printer's second example", &example(), 2, vec![Running(2, 3, 1)]),
    ]
}

impl Trial {
    /// What this program answers, with everything that document 01 says put in its place.
    pub fn case(&self) -> Case {
        let mut stated = self.vector.answered();
        for said in &self.says {
            said.put(&mut stated);
        }
        (self.vector.clone(), stated)
    }
}

impl Says {
    fn put(&self, stated: &mut Stated) {
        let finished = stated.run[0] == 1;
        match self {
            Packets(packets) => {
                Count(packets.len() as u32).put(stated);
                stated.given = packets.concat();
                stated.ran = if finished { packets.concat() } else { vec![] };
            }
            Count(count) => {
                stated.evaluate[..2].copy_from_slice(&[1, *count]);
                stated.run[2] = if finished { *count } else { stated.run[2] };
            }
            Steps(steps) => {
                stated.evaluate[2] = *steps;
                stated.run[1] = if finished { *steps } else { stated.run[1] };
            }
            Parts(parts) => (stated.accept[3], stated.evaluate[3]) = (*parts, *parts),
            Concurrency(most) => (stated.accept[4], stated.evaluate[4]) = (*most, *most),
            Room(room) => stated.evaluate[5] = *room,
            Refused(number, place) => {
                stated.accept = [0, *number as u32, *place as u32, 0, 0, 0];
                (stated.evaluate, stated.given) = (stated.accept, vec![]);
                (stated.run, stated.ran, stated.zeros) = (stated.accept, vec![], 0);
            }
            NotGiven(number) => {
                (stated.evaluate, stated.given) = ([0, *number as u32, 0, 0, 0, 0], vec![]);
                NotRun(*number).put(stated);
            }
            NotRun(number) => {
                (stated.run, stated.ran, stated.zeros) = ([0, *number as u32, 0, 0, 0, 0], vec![], 0)
            }
            Finished(steps, count) => stated.run = [1, *steps, *count, 0, 0, 0],
            Running(steps, live, ready) => {
                (stated.run, stated.ran) = ([2, *steps, *live, *ready, 0, 0], vec![])
            }
        }
    }
}
