//! Cases for the tests and the benchmark, made from a seed: the same seed gives
//! the same cases.

pub mod cases;
pub mod chains;
pub mod damage;
mod marks;
pub mod metres;
pub mod mutations;
pub mod neighbours;
pub mod offences;
pub mod on_failure;
pub mod padding;
pub mod random;
pub mod ranking;
pub mod registers;
mod rule_writer;
pub mod scraps;
pub mod tally;
pub mod texts;
pub mod tokens;
pub mod written;
