//! A line with a caret under a place of it.

use crate::oneline::escaped;
use crate::style::{Look, Style};

/// The most characters that are shown before the place, and from it on.
const SHOWN: usize = 50;

/// A line and a place in it.
#[derive(Clone, Copy, Debug)]
pub struct Place<'a> {
    /// The number of the line.
    pub number: u64,
    /// The line without its line break.
    pub line: &'a [u8],
    /// The byte, from 0 to the length of the line.
    pub at: usize,
}

impl Place<'_> {
    /// The line, and below it the caret.
    pub fn print(&self, style: Style) -> String {
        let before = readable(&self.line[..self.at]);
        let behind: String = readable(&self.line[self.at..])
            .chars()
            .take(SHOWN)
            .collect();
        let before = shortened(&before);
        let margin = " ".repeat(self.number.to_string().len());
        let space = " ".repeat(before.chars().count());
        let caret = style.paint(Look::Wrong, "^");
        let number = self.number;
        format!("  {number} | {before}{behind}\n  {margin} | {space}{caret}\n")
    }
}

/// The end of a text that is longer than can be shown.
fn shortened(text: &str) -> String {
    let length = text.chars().count();
    match length <= SHOWN {
        true => text.to_owned(),
        false => format!(
            "...{}",
            text.chars().skip(length - SHOWN).collect::<String>()
        ),
    }
}

/// Bytes as characters of a terminal.
fn readable(bytes: &[u8]) -> String {
    escaped(&String::from_utf8_lossy(bytes))
}
