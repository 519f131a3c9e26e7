//! Pairs of a refused input and the nearest one that passes, for each refusal
//! number: what is refused, and at which line, is known by how the pair is made.

mod expressions;
mod form;
mod limits;
mod line;
mod lower;
mod place;
mod plan;
pub mod registers;

pub use lower::lower;
pub use plan::full_step;

use crate::random::Random;
use crate::registers as sizes_of;
use crate::texts::{self, Shape};
use reference::register::Sizes;
use reference::text::{MAX_BYTES, read_text};

/// A refused text and its nearest neighbour that passes.
#[derive(Clone, Debug)]
pub struct Pair {
    /// The refused text.
    pub refused: Vec<u8>,
    /// The line of the refusal.
    pub line: usize,
    /// The text that passes.
    pub accepted: Vec<u8>,
}

impl Pair {
    /// The pair of one text with two different pieces in one place.
    fn replacing(
        text: &[u8],
        place: std::ops::Range<usize>,
        refused: &[u8],
        accepted: &[u8],
    ) -> Pair {
        let with = |piece| [&text[..place.start], piece, &text[place.end..]].concat();
        Pair {
            refused: with(refused),
            line: line_of(text, place.start),
            accepted: with(accepted),
        }
    }
}

/// A pair for a refusal number from 6 to 15, 24 or 25, and the sizes of a register. But
/// for 6 the refused text is not so long that 6 would come first.
pub fn pair(random: &mut Random, number: u32) -> (Sizes, Pair) {
    pair_of_shape(random, number, texts::shape)
}

/// The same in texts with expressions.
pub fn expression_pair(random: &mut Random, number: u32) -> (Sizes, Pair) {
    pair_of_shape(random, number, texts::right_expression_shape)
}

fn pair_of_shape(
    random: &mut Random,
    number: u32,
    shape: fn(&mut Random) -> Shape,
) -> (Sizes, Pair) {
    loop {
        let sizes = sizes_of::sizes(random);
        let shape = shape(random);
        let text = texts::text(random, sizes, shape);
        if let Some(pair) = try_pair(random, number, sizes, &text)
            && (number == 6 || pair.refused.len() <= MAX_BYTES)
            && read_text(&pair.accepted, &sizes).is_ok()
        {
            return (sizes, pair);
        }
    }
}

/// A pair made from a text; none if the text has no place for it. Its neighbour
/// may still be refused for something else in the text.
fn try_pair(random: &mut Random, number: u32, sizes: Sizes, text: &[u8]) -> Option<Pair> {
    match number {
        6 => limits::length(random, sizes, text),
        7 if random.percent(50) => expressions::form(random, text),
        7 => form::form(random, text),
        8 => place::place(random, sizes, text),
        9 => line::field(random, sizes, text),
        10 => line::kind(random, sizes, text),
        11 => line::hops(random, sizes, text),
        12 => line::number(random, text),
        13 => limits::counts(random, sizes, text),
        14 => limits::sorts(random, sizes, text),
        15 => plan::lines(random, sizes, text),
        24 => expressions::groups(random, sizes, text),
        25 => expressions::operators(random, sizes, text),
        _ => panic!("no text is refused by {number}"),
    }
}

/// The line of a place, counted from 1.
fn line_of(text: &[u8], place: usize) -> usize {
    1 + text[..place].iter().filter(|&&byte| byte == b'\n').count()
}

/// One of the places of a text that are wanted.
fn some_place(random: &mut Random, text: &[u8], wanted: impl Fn(usize) -> bool) -> Option<usize> {
    let places: Vec<usize> = (0..text.len()).filter(|&place| wanted(place)).collect();
    match places[..] {
        [] => None,
        _ => Some(random.pick(&places)),
    }
}

/// Where one of the numbers of a text stands.
fn some_number(random: &mut Random, text: &[u8]) -> Option<std::ops::Range<usize>> {
    let is_figure = |place: usize| matches!(text[place], b'0'..=b'9' | b'.');
    let begins = |place: usize| is_figure(place) && !is_figure(place - 1);
    let digits = some_place(random, text, |place| place > 0 && begins(place))?;
    let end = (digits..text.len()).find(|&place| !is_figure(place))?;
    let minus = usize::from(text[digits - 1] == b'-');
    Some(digits - minus..end)
}

/// One of these pairs of numbers, a refused and an accepted one, in place of a
/// number of a text.
fn with_numbers(random: &mut Random, text: &[u8], pairs: &[(&str, &str)]) -> Option<Pair> {
    let place = some_number(random, text)?;
    let (refused, accepted) = random.pick(pairs);
    let (refused, accepted) = (refused.as_bytes(), accepted.as_bytes());
    Some(Pair::replacing(text, place, refused, accepted))
}

/// Where the rules of one of the steps stand, by the lines of a text from 0: from
/// the line behind `step` to that of `end`.
fn some_step(random: &mut Random, lines: &[Vec<u8>]) -> Option<std::ops::Range<usize>> {
    let is = |word: &'static [u8]| move |line: &Vec<u8>| line == word;
    let steps = lines.iter().filter(|line| is(b"step\n")(line)).count();
    let chosen = random.below(steps.max(1));
    let mut begins = (0..lines.len()).filter(|&line| is(b"step\n")(&lines[line]));
    let begin = begins.nth(chosen)? + 1;
    let rules = lines[begin..].iter().position(is(b"end\n"))?;
    Some(begin..begin + rules)
}
