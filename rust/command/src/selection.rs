//! Which records and fields of a register are shown.

use crate::arguments::{self, Arguments};
use crate::explain;
use crate::failure::Failure;
use plot::{Cell, Kind, Register};

/// Some records and fields of a register, all of them unless told otherwise.
pub struct Selection<'a> {
    register: &'a Register,
    /// The records in the order in which they are asked for.
    pub records: Vec<usize>,
    /// The letters of the fields, in the same way.
    pub fields: Vec<char>,
}

/// The options that select.
const OPTIONS: [&str; 2] = ["--records", "--fields"];

impl<'a> Selection<'a> {
    /// What `--records` and `--fields` ask for.
    pub fn of(arguments: &Arguments, register: &'a Register) -> Result<Selection<'a>, Failure> {
        let [records, fields] = OPTIONS.map(|option| arguments.value(option));
        Ok(Selection {
            register,
            records: match records {
                Some(words) => records_of(register, words)?,
                None => (0..register.sizes().records).collect(),
            },
            fields: match fields {
                Some(words) => fields_of(register, words)?,
                None => register.sizes().fields().collect(),
            },
        })
    }

    /// Whether anything is asked for.
    pub fn is_asked_for(arguments: &Arguments) -> bool {
        OPTIONS.iter().any(|option| arguments.has(option))
    }

    /// Each record that is asked for, with those of its cells.
    pub fn rows(&self) -> impl Iterator<Item = (usize, Vec<Cell>)> {
        self.records.iter().map(|&record| {
            let fields = self.fields.iter();
            let cells = fields.filter_map(|&field| self.register.cell(record, field));
            (record, cells.collect())
        })
    }
}

/// The records of `3,7,10-20`.
fn records_of(register: &Register, words: &str) -> Result<Vec<usize>, Failure> {
    let mut records = Vec::new();
    for word in words.split(',') {
        let (first, last) = word.split_once('-').unwrap_or((word, word));
        let number = |word| arguments::number::<usize>("--records", word);
        let (first, last) = (number(first)?, number(last)?);
        if last < first {
            let told = format!("--records: {word} goes backwards");
            return Err(Failure::Usage(told));
        }
        // The library says whether the record is there.
        register
            .read("u", last)
            .map_err(|refusal| explain::reading(register, "u", last, refusal))?;
        records.extend(first..=last);
    }
    Ok(records)
}

/// The fields of `A,M`.
fn fields_of(register: &Register, words: &str) -> Result<Vec<char>, Failure> {
    words
        .split(',')
        .map(|word| field_of(register, word))
        .collect()
}

/// The field that a word names: the library says whether it is there.
pub fn field_of(register: &Register, word: &str) -> Result<char, Failure> {
    let chain = format!("{word}[u]");
    match (register.read(&chain, 0), word.chars().next()) {
        (Err(refusal), _) if refusal.kind != Kind::Record => {
            Err(explain::reading(register, &chain, 0, refusal))
        }
        (_, Some(field)) if field.len_utf8() == word.len() => Ok(field),
        _ => Err(Failure::Usage(format!(
            "a field is one letter, not {word:?}"
        ))),
    }
}
