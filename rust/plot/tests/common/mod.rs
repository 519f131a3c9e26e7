//! Answer arrays of the library, for all tests.

use generate::random::Random;
use plot::lent::{self, Answer};
use reference::refusal::Refusal;

/// An answer array full of rubbish.
pub fn any_answer(random: &mut Random) -> Answer {
    std::array::from_fn(|_| random.number())
}

/// The number and the answer array of a refusal.
pub fn refused(refusal: Refusal) -> (u32, Answer) {
    let mut answer = Answer::default();
    answer[lent::LINE] = refusal.line as u64;
    (refusal.reason.number(), answer)
}

/// A refusal number, for counting.
pub fn refusal_name(number: u32) -> String {
    format!("refusal {number:>2}")
}
