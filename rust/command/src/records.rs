//! Records as they are asked for: by number, by label, in ranges, or all.

use crate::arguments::Arguments;
use crate::failure::Failure;
use crate::names::{Names, Written};
use crate::oneline::quoted;
use std::ops::RangeInclusive;

/// The option for all records.
pub const ALL: &str = "--all";

/// What somebody asks for.
pub enum Asked<'a> {
    /// All records.
    All,
    /// These words: numbers, labels and ranges.
    Words(&'a [String]),
}

/// The records that are asked for.
pub struct Wanted {
    /// Their numbers. One that is not there may be among them.
    pub records: Vec<usize>,
    /// Whether it is one, told by itself.
    pub alone: bool,
}

/// What the operands from this place on ask for.
pub fn asked(arguments: &Arguments, place: usize) -> Result<Asked<'_>, Failure> {
    match (arguments.rest(place), arguments.has(ALL)) {
        ([], true) => Ok(Asked::All),
        (_, true) => Err(Failure::Usage(format!(
            "{ALL} and RECORD exclude each other"
        ))),
        ([], false) => Err(Failure::Usage(format!(
            "RECORD is missing, or {ALL} for every record"
        ))),
        (words, false) => Ok(Asked::Words(words)),
    }
}

impl Asked<'_> {
    /// The records, of so many.
    pub fn among(&self, records: usize, names: &Names) -> Result<Wanted, Failure> {
        match self {
            Asked::All => Ok(Wanted {
                records: (0..records).collect(),
                alone: false,
            }),
            Asked::Words(words) => several(words, names, records),
        }
    }
}

fn several(words: &[String], names: &Names, records: usize) -> Result<Wanted, Failure> {
    let ranges = words.iter().map(|word| range(word, names));
    let ranges = ranges.collect::<Result<Vec<RangeInclusive<usize>>, Failure>>()?;
    let alone = matches!(ranges.as_slice(), [range] if range.start() == range.end());
    // Of the records that are not there one is enough to be refused.
    let within = |range: RangeInclusive<usize>| {
        let end = records.max(*range.start()).min(*range.end());
        *range.start()..=end
    };
    Ok(Wanted {
        records: ranges.into_iter().flat_map(within).collect(),
        alone,
    })
}

/// The records of a word: one, or those from one to another.
fn range(word: &str, names: &Names) -> Result<RangeInclusive<usize>, Failure> {
    if let Some(record) = one(word, names) {
        return Ok(record..=record);
    }
    let dashes = word.match_indices('-');
    let mut ends = dashes.filter_map(|(at, _)| {
        let (first, last) = (word[..at].trim(), word[at + 1..].trim());
        Some((one(first, names)?, one(last, names)?))
    });
    match ends.next() {
        Some((first, last)) if first <= last => Ok(first..=last),
        Some(_) => Err(Failure::Usage(format!(
            "the range {word} ends before it begins"
        ))),
        None => Err(Failure::Usage(format!(
            "RECORD is a number from 0 on, a range as 10-20 or a label, not {}",
            quoted(word)
        ))),
    }
}

/// The one record that a word asks for.
pub fn single(word: &str, names: &Names) -> Result<usize, Failure> {
    one(word, names).ok_or_else(|| {
        let word = quoted(word);
        Failure::Usage(format!(
            "RECORD is a number from 0 on or a label, not {word}"
        ))
    })
}

/// The record of a label or a number.
fn one(word: &str, names: &Names) -> Option<usize> {
    match names.meant(word) {
        Written::Label(record) => Some(record),
        Written::Number(digits) if digits.bytes().all(|byte| byte.is_ascii_digit()) => {
            digits.parse().ok()
        }
        Written::Number(_) | Written::NoLabel => None,
    }
}
