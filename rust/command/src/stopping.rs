//! Gaps, and the records whose readings each of them stops.

use crate::csv;
use crate::json;
use crate::names::Names;
use crate::show::counted;
use std::collections::BTreeMap;

/// A cell: its record and its field.
pub type Place = (usize, char);

/// A gap and the records that it stops, which rise.
#[derive(Clone, Debug, PartialEq, Eq)]
pub struct Stop {
    /// The gap.
    pub gap: Place,
    /// The records.
    pub records: Vec<usize>,
}

/// The gaps by what each of them stops, those that stop the most records first.
pub fn grouped(stopped: impl IntoIterator<Item = (Place, usize)>) -> Vec<Stop> {
    let mut records: BTreeMap<Place, Vec<usize>> = BTreeMap::new();
    for (gap, record) in stopped {
        records.entry(gap).or_default().push(record);
    }
    let stops = records.into_iter();
    let mut stops: Vec<Stop> = stops.map(|(gap, records)| Stop { gap, records }).collect();
    stops.sort_by_key(|stop| std::cmp::Reverse(stop.records.len()));
    stops
}

/// A cell in words: `N depth of Mark A (record 9)`.
pub fn place(names: &Names, (record, field): Place) -> String {
    format!("{} of {}", names.field(field), names.record(record))
}

/// The pieces of a list that a line shows.
const SHOWN: usize = 10;

/// A line for each gap; what it stops is called `thing`.
pub fn told(stops: &[Stop], names: &Names, thing: &str) -> String {
    let line = |stop: &Stop| {
        let count = counted(stop.records.len(), thing);
        let list = list(&stop.records, names, thing);
        format!("{}: stops {count} ({list})\n", place(names, stop.gap))
    };
    stops.iter().map(line).collect()
}

/// Records in a sentence: their labels, or else their numbers in ranges.
fn list(records: &[usize], names: &Names, thing: &str) -> String {
    let pieces = match names.has_labels() {
        true => records.iter().map(|u| (names.reference(*u), 1)).collect(),
        false => ranges(records),
    };
    let shown = pieces.iter().take(SHOWN).map(|(piece, _)| piece.as_str());
    let shown = shown.collect::<Vec<&str>>().join(", ");
    let noun = match (names.has_labels() || thing == "record", records.len()) {
        (true, _) => "",
        (false, 1) => "record ",
        (false, _) => "records ",
    };
    match pieces.iter().skip(SHOWN).map(|(_, count)| count).sum() {
        0 => format!("{noun}{shown}"),
        more => format!("{noun}{shown} and {more} more"),
    }
}

/// Records in the ranges that they make up, as `10-20`, each with its count.
fn ranges(records: &[usize]) -> Vec<(String, usize)> {
    let runs = records.chunk_by(|one, next| one + 1 == *next);
    let range = |run: &[usize]| match run {
        [one] => one.to_string(),
        run => format!("{}-{}", run[0], run[run.len() - 1]),
    };
    runs.map(|run| (range(run), run.len())).collect()
}

/// A row for each gap: where it is, how many records it stops, and which.
pub fn csv(stops: &[Stop], names: &Names) -> String {
    let header = ["record", "plot", "field", "name", "stops", "records"];
    let row = |stop: &Stop| {
        let (record, field) = stop.gap;
        let stopped: Vec<String> = ranges(&stop.records).into_iter().map(|(r, _)| r).collect();
        let cells = [
            record.to_string(),
            names.label(record).unwrap_or("").to_owned(),
            field.to_string(),
            names.name(field).unwrap_or("").to_owned(),
            stop.records.len().to_string(),
            stopped.join(" "),
        ];
        csv::row(cells, ',')
    };
    let rows: String = stops.iter().map(row).collect();
    csv::row(header.map(String::from), ',') + &rows
}

/// The gaps, for programs.
pub fn json(stops: &[Stop], names: &Names) -> String {
    json::list(stops.iter().map(|stop| {
        let (record, field) = stop.gap;
        let stopped = [("stops", json::list(&stop.records))];
        json::object(&[names.cell_members(record, field), stopped.to_vec()].concat())
    }))
}
