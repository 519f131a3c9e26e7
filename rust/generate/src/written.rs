//! Expressions as they are written, by their tokens, and what is counted of them.

use crate::tokens::tokens;

/// What stands around the expressions of a line.
const ENDS: [&[u8]; 8] = [b":=", b"<?=", b"+=", b"if", b"<", b"==", b"!=", b":"];

/// An expression by its tokens.
pub struct Written<'a> {
    /// The tokens from left to right.
    pub tokens: Vec<&'a [u8]>,
}

/// The expressions of a line that has a form; none of other lines.
pub fn expressions(line: &[u8]) -> Vec<Written<'_>> {
    let spelled: Vec<&[u8]> = tokens(line).into_iter().map(|token| &line[token]).collect();
    let written = [b":=" as &[u8], b"<?=", b"+="];
    let writes = spelled.iter().any(|token| written.contains(token));
    let parts = spelled.split(|token| ENDS.contains(token));
    let parts: Vec<Written<'_>> = parts
        .map(|tokens| Written {
            tokens: tokens.to_vec(),
        })
        .collect();
    // Before `if` stands nothing, before the sign of a write what is written.
    let places: &[usize] = match (parts.len(), writes) {
        (2, true) => &[1],
        (5, true) => &[1, 2, 4],
        _ => &[],
    };
    let all = parts.into_iter().enumerate();
    all.filter(|(place, _)| places.contains(place))
        .map(|(_, part)| part)
        .collect()
}

impl Written<'_> {
    /// How deep its groups stand in each other.
    pub fn depth(&self) -> usize {
        let mut open = 0_usize;
        let depths = self.tokens.iter().map(|token| {
            open += usize::from(*token == b"(");
            open -= usize::from(*token == b")");
            open
        });
        depths.max().unwrap_or(0)
    }

    /// How many operators it has.
    pub fn operators(&self) -> usize {
        let signs = [b"+" as &[u8], b"-", b"<?"];
        let all = self.tokens.iter();
        all.filter(|token| signs.contains(token)).count()
    }

    /// Whether a group holds nothing but a number or `u`.
    pub fn has_spare_brackets(&self) -> bool {
        let spare = |three: &[&[u8]]| three[0] == b"(" && three[2] == b")";
        self.tokens.windows(3).any(spare)
    }

    /// Whether its first term is a reference.
    pub fn is_reference(&self) -> bool {
        let first = self.tokens.iter().find(|token| **token != b"(");
        matches!(first, Some([b'u' | b'A'..=b'H']))
    }
}
