//! An independent second program of the policy books, written from document 01 alone.
//!
//! `accept` reads and types a book, `evaluate` gives its set of packets, `run` steps it under a
//! schedule, `print` is the run printer. `meaning` says the published meaning a second time, plainly,
//! so that this program is also compared with itself.

pub mod answers;
pub mod bench;
pub mod book;
pub mod codes;
pub mod compare;
pub mod edges;
pub mod evaluate;
pub mod generate;
pub mod machine;
pub mod meaning;
pub mod policy;
pub mod printer;
pub mod rng;
pub mod sets;
pub mod trials;
pub mod typing;
pub mod vector_set;
pub mod vectors;

pub use answers::{Evaluated, Ran, Refusal, Shape, Verdict};
pub use book::accept;
pub use evaluate::evaluate;
pub use machine::run;
pub use printer::print;
