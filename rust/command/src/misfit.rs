//! Where a line no longer fits the forms, and what to do about it.

use crate::nearest;
use crate::scan::Scan;

/// What some programs put before the first line.
pub const BYTE_ORDER_MARK: &[u8] = b"\xef\xbb\xbf";

/// The words that begin a line, those that make up the structure first.
const WORDS: [&str; 6] = ["step", "end", "done", "loop", "if", "remote"];
const STRUCTURE: usize = 4;

/// What to do about what is no chain.
const CHAIN: &str = "A chain is u, or a field letter and a chain in square brackets: M[A[u]].";

/// The place where a line fits no form any more.
#[derive(Clone, Copy, Debug, Default, PartialEq, Eq, PartialOrd, Ord)]
pub struct Misfit {
    /// The byte, from 0 to the length of the line.
    pub at: usize,
    /// What has to stand there.
    pub wanted: Wanted,
}

/// What has to stand where a line does not fit.
#[derive(Clone, Copy, Debug, Default, PartialEq, Eq, PartialOrd, Ord)]
pub enum Wanted {
    /// A word or sign of a line.
    #[default]
    Line,
    /// The end of the line.
    End,
    /// The space behind a word.
    Space,
    /// A chain, a number or a group.
    Operand,
    /// The digits of a minus.
    Digits,
    /// A bracket or letter of a chain.
    Chain,
    /// The square bracket that closes one.
    Square,
    /// An operator, or the bracket that closes a group.
    Closing,
    /// The sign of a test, or the colon behind it.
    Test,
}

/// The word of the structure of a text that a line without a form begins with, or was
/// meant to.
pub fn structure(line: &[u8]) -> Option<&'static str> {
    let word = first_word(line);
    let meant = nearest::word(&word, &WORDS).filter(|_| word.len() > 1);
    meant.filter(|meant| WORDS[..STRUCTURE].contains(meant))
}

/// The letters that a line begins with.
fn first_word(line: &[u8]) -> String {
    let letters = line.iter().take_while(|byte| byte.is_ascii_alphabetic());
    letters.map(|&byte| char::from(byte)).collect()
}

/// What to do about a chain that stands alone and has no form.
pub fn chain_advice(line: &[u8]) -> String {
    let misfit = Scan::chain_alone(line).err();
    let advice = misfit.and_then(|misfit| misfit.letter_advice(line));
    match misfit.map(|misfit| misfit.wanted) {
        Some(Wanted::Square) => SQUARE.to_owned(),
        _ => advice.unwrap_or(CHAIN).to_owned(),
    }
}

const SQUARE: &str = "Here a ] is missing: every [ has one that closes it.";

impl Misfit {
    /// What to do about it, if more can be told than for every line.
    pub fn advice(self, line: &[u8]) -> Option<String> {
        if line.starts_with(BYTE_ORDER_MARK) {
            let told =
                "The text begins with a byte order mark (BOM). Save it as UTF-8 without one.";
            return Some(told.to_owned());
        }
        self.word_advice(line).or_else(|| {
            let advice = self.sign_advice(line).or_else(|| self.letter_advice(line));
            advice
                .or_else(|| self.plain_advice(line))
                .map(str::to_owned)
        })
    }

    /// The place to point at: the start of a word that is nearly one of the language.
    pub fn place(self, line: &[u8]) -> usize {
        match self.meant(line) {
            Some(meant) if first_word(line) != meant => 0,
            _ => self.at,
        }
    }

    /// The word of the language that the first word of a line is or was meant to be,
    /// where it fits no further than that.
    fn meant(self, line: &[u8]) -> Option<&'static str> {
        let word = first_word(line);
        let is_it = word.len() > 1 && self.at <= word.len() && self.wanted != Wanted::Space;
        nearest::word(&word, &WORDS).filter(|_| is_it)
    }

    /// Where the first word is nearly one of the language, or too much stands behind it.
    fn word_advice(self, line: &[u8]) -> Option<String> {
        let word = first_word(line);
        match self.meant(line)? {
            meant if meant != word => Some(format!(
                "Did you mean {meant}? The words are step, end, loop, done, if and remote, in small letters."
            )),
            "step" | "end" | "done" if !self.is_space_at_an_end(line) => {
                Some(format!("Behind {word} the line ends."))
            }
            _ => None,
        }
    }

    /// Where a test has a sign that other languages know.
    fn sign_advice(self, line: &[u8]) -> Option<&'static str> {
        let behind = &line[self.at..];
        let sign = &line[self.at.saturating_sub(1)..];
        let in_test = line.starts_with(b"if ") && !line[..self.at].contains(&b':');
        if !in_test || !matches!(self.wanted, Wanted::Test | Wanted::Operand) {
            return None;
        }
        match (sign, behind) {
            ([b'<', b'=', ..] | [b'=', b'<', ..], _) => Some(
                "There is no <=. Of measures write X < Y + 1 instead of X <= Y; or two rules, one with < and one with ==.",
            ),
            ([b'<', b'>', ..], _) => Some("There is no <>. Write != instead."),
            ([b'=', b'>', ..], _) | (_, [b'>', b'=', ..]) => Some(
                "There is no >=. Of measures write Y < X + 1 instead of X >= Y; or two rules, one with Y < X and one with ==.",
            ),
            (_, [b'>', ..]) => Some("There is no >. Write Y < X instead of X > Y."),
            _ => None,
        }
    }

    /// Where a letter is small and should be a capital, or the other way round.
    fn letter_advice(self, line: &[u8]) -> Option<&'static str> {
        match (line[..self.at].last(), &line[self.at..]) {
            (_, [b'a'..=b'z', b'[', ..]) => {
                Some("The letters of fields are capitals: A to H, M to T.")
            }
            (Some(b'U'), [b']', ..]) | (_, [b'U', b']', ..]) => {
                Some("The record itself is a small u.")
            }
            _ => None,
        }
    }

    fn plain_advice(self, line: &[u8]) -> Option<&'static str> {
        let byte = line.get(self.at);
        let advice = match self.wanted {
            _ if line.is_empty() => "There are no empty lines.",
            _ if self.is_space_at_an_end(line) => "No space stands at the ends of a line.",
            _ if matches!(byte, Some(b'\t' | 0xa0 | 0xc2)) => {
                "Between words and signs stand plain spaces, or none."
            }
            Wanted::Space => "if, remote and loop keep a space behind them.",
            Wanted::Operand => {
                "Here has to stand a chain, as M[A[u]], a number, or a group in round brackets."
            }
            Wanted::Digits => {
                "A minus that begins a term belongs to the digits straight after it: 1 - -5, not - 5 or -(5)."
            }
            Wanted::Chain => CHAIN,
            Wanted::Square => SQUARE,
            Wanted::Closing if byte.is_none() => "A round bracket is not closed.",
            Wanted::Closing => {
                "Behind a term stands +, - or <? and a further one, or a bracket that closes the group."
            }
            Wanted::End if matches!(byte, Some(b')' | b']')) => "This bracket closes none.",
            Wanted::End => "Behind a term stands +, - or <? and a further one, or the line ends.",
            Wanted::Test => "A test is if X < Y: with <, == or != in it and : behind it.",
            Wanted::Line => return None,
        };
        Some(advice)
    }

    fn is_space_at_an_end(self, line: &[u8]) -> bool {
        let behind = &line[self.at..];
        let last = !behind.is_empty() && behind.iter().all(|byte| *byte == b' ');
        self.at == 0 && behind.starts_with(b" ") || last
    }
}
