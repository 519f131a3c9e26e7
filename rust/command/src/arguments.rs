//! The arguments of a command.

use crate::failure::Failure;
use crate::files::{self, STANDARD};
use crate::oneline::escaped;
use crate::{explain, faulty, nearest};
use plot::Register;

/// The most bytes of a rules text; the library refuses one that is longer.
const RULES_BYTES: usize = 8192;

/// The mark of the last operand where it may stand several times.
const SEVERAL: &str = "..]";

/// What a command takes.
pub struct Form {
    /// The operands by name; those in brackets may be left out.
    pub operands: &'static [&'static str],
    /// The options that stand alone.
    pub flags: &'static [&'static str],
    /// The options that are followed by a value.
    pub valued: &'static [&'static str],
}

/// The operands that are names of files.
const FILES: [&str; 7] = [
    "REGISTER",
    "RULES",
    "[RULES]",
    "CHAIN or RULES",
    "SHEET.csv",
    "OLD",
    "NEW",
];

/// The arguments of a command, taken apart.
#[derive(Debug, Default)]
pub struct Arguments {
    operands: Vec<String>,
    options: Vec<(String, String)>,
    names: &'static [&'static str],
}

impl Arguments {
    /// The arguments as the form has them.
    pub fn parse(form: &Form, given: &[String]) -> Result<Arguments, Failure> {
        let mut arguments = Arguments {
            names: form.operands,
            ..Arguments::default()
        };
        let mut given = given.iter();
        let mut only_operands = false;
        while let Some(word) = given.next() {
            if only_operands || !is_option(word) {
                arguments.operands.push(word.clone());
            } else if word == "--" {
                only_operands = true;
            } else {
                let option = option(form, word, || given.next().cloned())?;
                arguments.add(option)?;
            }
        }
        arguments.counted(form)
    }

    fn add(&mut self, option: (String, String)) -> Result<(), Failure> {
        if self.has(&option.0) {
            return Err(Failure::Usage(format!("{} is given twice", option.0)));
        }
        self.options.push(option);
        Ok(())
    }

    fn counted(self, form: &Form) -> Result<Arguments, Failure> {
        let given = self.operands.len();
        let several = form
            .operands
            .last()
            .is_some_and(|name| name.ends_with(SEVERAL));
        match self.operands.get(form.operands.len()) {
            Some(extra) if !several => {
                return Err(Failure::Usage(format!("there is no place for {extra:?}")));
            }
            _ => {}
        }
        let missing = form.operands.iter().skip(given);
        match missing.clone().find(|name| !name.starts_with('[')) {
            Some(name) => Err(Failure::Usage(format!("{name} is missing"))),
            None => self.one_standard_input(),
        }
    }

    fn one_standard_input(self) -> Result<Arguments, Failure> {
        let standard = self.files().filter(|name| *name == STANDARD);
        match standard.count() {
            0 | 1 => Ok(self),
            _ => Err(Failure::Usage("standard input can be read once".to_owned())),
        }
    }

    /// The operands that are names of files.
    fn files(&self) -> impl Iterator<Item = &str> {
        let operands = self.operands.iter().zip(self.names);
        operands.filter_map(|(operand, name)| FILES.contains(name).then_some(operand.as_str()))
    }

    /// Whether an option is given.
    pub fn has(&self, option: &str) -> bool {
        self.value(option).is_some()
    }

    /// The value of an option.
    pub fn value(&self, option: &str) -> Option<&str> {
        let given = self.options.iter().find(|(name, _)| name == option);
        given.map(|(_, value)| value.as_str())
    }

    /// The file that an option says to write, which is none of those that are read.
    pub fn output(&self, option: &str) -> Result<Option<&str>, Failure> {
        let Some(name) = self.value(option) else {
            return Ok(None);
        };
        match !files::is_standard_output(name) && self.reads(name) {
            true => Err(Failure::Usage(format!(
                "{} is read here, and {option} does not write over it",
                escaped(name)
            ))),
            false => Ok(Some(name)),
        }
    }

    /// Whether an operand is this file.
    pub fn reads(&self, name: &str) -> bool {
        let is_read = |operand: &str| operand != STANDARD && files::same(operand, name);
        self.files().any(is_read)
    }

    /// The operands from this place on.
    pub fn rest(&self, place: usize) -> &[String] {
        self.operands.get(place..).unwrap_or_default()
    }

    /// An operand, counted from 0, that has to be there.
    pub fn operand(&self, place: usize) -> &str {
        &self.operands[place]
    }

    /// An operand that is a number; none where it is left out.
    pub fn number<N: Number>(&self, place: usize, what: &str) -> Result<Option<N>, Failure> {
        let given = self.operands.get(place);
        given.map(|word| number(what, word)).transpose()
    }

    /// An operand that may be left out.
    pub fn given(&self, place: usize) -> Option<&str> {
        self.operands.get(place).map(String::as_str)
    }

    /// The register that the first operand names.
    pub fn register(&self) -> Result<Register, Failure> {
        self.register_at(0)
    }

    /// The register that an operand names.
    pub fn register_at(&self, place: usize) -> Result<Register, Failure> {
        let name = self.operand(place);
        let bytes = files::read(name, faulty::MOST_BYTES)?;
        Register::from_bytes(bytes.as_slice())
            .map_err(|refusal| explain::register(&files::shown(name), &bytes, refusal))
    }

    /// The name of the rules text, and the text.
    pub fn rules(&self) -> Result<(String, Vec<u8>), Failure> {
        let name = self.operand(1);
        Ok((files::shown(name), files::read(name, RULES_BYTES)?))
    }
}

/// A number that can be asked for.
pub trait Number: std::str::FromStr {
    /// Its range, in words.
    const RANGE: &str;
}

impl Number for usize {
    const RANGE: &str = "from 0 on";
}

impl Number for u16 {
    const RANGE: &str = "from 0 to 65535";
}

/// A number that is written in digits.
pub fn number<N: Number>(what: &str, word: &str) -> Result<N, Failure> {
    let digits = !word.is_empty() && word.bytes().all(|byte| byte.is_ascii_digit());
    let number = if digits { word.parse().ok() } else { None };
    let range = N::RANGE;
    number.ok_or_else(|| Failure::Usage(format!("{what} is a number {range}, not {word:?}")))
}

/// Whether a word is an option: it begins with a dash, and is neither a dash alone nor
/// a number.
fn is_option(word: &str) -> bool {
    word.strip_prefix('-')
        .is_some_and(|rest| !rest.is_empty() && !rest.starts_with(|c: char| c.is_ascii_digit()))
}

/// An option and its value, which is empty for one that stands alone.
fn option(
    form: &Form,
    word: &str,
    next: impl FnOnce() -> Option<String>,
) -> Result<(String, String), Failure> {
    if form.flags.contains(&word) {
        return Ok((word.to_owned(), String::new()));
    }
    let (name, joined) = match word.split_once('=') {
        Some((name, value)) => (name, Some(value.to_owned())),
        None => (word, None),
    };
    if !form.valued.contains(&name) {
        let known = [form.flags, form.valued, &["--help"]].concat();
        let meant = nearest::asked(name, &known);
        let word = escaped(word);
        return Err(Failure::Usage(format!("there is no option {word}{meant}")));
    }
    match joined.or_else(next) {
        Some(value) => Ok((name.to_owned(), value)),
        None => Err(Failure::Usage(format!("{name} needs a value behind it"))),
    }
}
