//! Colours of the terminal, used only where the output goes to one.

use std::env;
use std::io::IsTerminal;

/// How a piece of text looks on a terminal.
#[derive(Clone, Copy, Debug, PartialEq, Eq)]
pub enum Look {
    /// As it is.
    Plain,
    /// A gap: less bright.
    Gap,
    /// Something new or good.
    New,
    /// Something wrong.
    Wrong,
    /// A heading.
    Head,
}

/// Whether to use colours.
#[derive(Clone, Copy, Debug)]
pub struct Style {
    coloured: bool,
}

impl Style {
    /// Colours if this goes to a terminal and `NO_COLOR` is not set.
    pub fn of(stream: &impl IsTerminal) -> Style {
        let coloured = stream.is_terminal() && env::var_os("NO_COLOR").is_none();
        Style { coloured }
    }

    /// The text with this look.
    pub fn paint(self, look: Look, text: &str) -> String {
        let code = match look {
            Look::Plain => return text.to_owned(),
            Look::Gap => "2;33",
            Look::New => "32",
            Look::Wrong => "1;31",
            Look::Head => "1",
        };
        match self.coloured {
            true => format!("\x1b[{code}m{text}\x1b[0m"),
            false => text.to_owned(),
        }
    }
}
