//! Texts of others, as they can stand in a line of a message.

/// The most characters of a cell that a message shows.
pub const SHOWN: usize = 40;

/// The text with its control characters written out, as `\n`.
pub fn escaped(text: &str) -> String {
    let escaped = text.chars().map(|character| match character.is_control() {
        true => character.escape_default().to_string(),
        false => character.to_string(),
    });
    escaped.collect()
}

/// The text in quotes, cut behind its first forty characters.
pub fn quoted(text: &str) -> String {
    let clipped = clipped(text);
    format!("{clipped:?}")
}

/// The text, cut behind its first forty characters.
pub fn clipped(text: &str) -> String {
    match text.char_indices().nth(SHOWN) {
        Some((end, _)) => format!("{}..", &text[..end]),
        None => text.to_owned(),
    }
}
