//! The place in a line that a refusal is about, to point at.

use crate::scan::{Part, PartSort, Scan};
use plot::{Kind, Sizes};

/// The most hops of a chain.
const MAX_HOPS: usize = 16;
/// How deep groups may stand in each other.
const MAX_GROUPS: usize = 8;
/// The most operators of an expression.
const MAX_OPERATORS: usize = 64;

/// The place in a line, or in a chain that stands alone, of a refusal of this
/// kind. The library has looked for the lower numbers first.
pub fn place(sizes: Sizes, kind: Kind, line: &[u8], alone: bool) -> usize {
    let scan = match alone {
        true => Scan::chain_alone(line),
        false => Scan::line(line),
    };
    let parts = match scan {
        // A line that has a form is refused for its missing line break.
        Ok(_) if kind == Kind::Form => return line.len(),
        Ok(scan) => scan.parts,
        Err(misfit) if alone => return misfit.at,
        Err(misfit) => return misfit.place(line),
    };
    let first = |wanted: &dyn Fn(&Part) -> bool| {
        let part = parts.iter().find(|part| wanted(part));
        part.map(|part| part.start)
    };
    let place = match kind {
        Kind::Field => unknown_field(sizes, line),
        Kind::FieldKind => mixed(line, &parts),
        Kind::Hops => first(&|part| part.is_chain() && hops(line, part) > MAX_HOPS),
        Kind::Number => first(&|part| is_out_of_range(line, part)),
        Kind::Groups => first(&|part| part.sort == PartSort::Group && part.count > MAX_GROUPS),
        Kind::Operators => first(&|part| is_operator(part) && part.count > MAX_OPERATORS),
        Kind::RemoteSorts => first(&|part| part.sort == PartSort::Written),
        _ => None,
    };
    place.unwrap_or(0)
}

/// The first capital that names no field. Every capital of a line is a letter of
/// a field.
fn unknown_field(sizes: Sizes, line: &[u8]) -> Option<usize> {
    let unknown = |&byte: &u8| {
        byte.is_ascii_uppercase() && !sizes.fields().any(|field| field == char::from(byte))
    };
    line.iter().position(unknown)
}

fn is_operator(part: &Part) -> bool {
    matches!(part.sort, PartSort::Sum | PartSort::Smaller)
}

fn hops(line: &[u8], part: &Part) -> usize {
    let letters = line[part.start..part.end].iter();
    letters.filter(|byte| byte.is_ascii_uppercase()).count()
}

fn is_out_of_range(line: &[u8], part: &Part) -> bool {
    // Metres are read as their digits, the point left out: 1.80 is 180.
    let bytes = line[part.start..part.end].iter();
    let digits = bytes.filter(|byte| **byte != b'.');
    let digits: String = digits.map(|&byte| char::from(byte)).collect();
    part.sort == PartSort::Number && digits.parse::<i32>().is_err()
}

/// Where references and measures are mixed: inside a chain, or between two parts.
fn mixed(line: &[u8], parts: &[Part]) -> Option<usize> {
    let inside = parts.iter().find_map(|part| measure_inside(line, part));
    inside.or_else(|| {
        let mut groups = parts.split(|part| part.sort == PartSort::TestEnd);
        groups.find_map(|group| mixed_between(line, group))
    })
}

/// A measure field that is not outermost in its chain, or outermost in a chain
/// that has to lead to a record.
fn measure_inside(line: &[u8], part: &Part) -> Option<usize> {
    let skipped = match part.sort {
        PartSort::Target => 0,
        PartSort::Chain => 1,
        _ => return None,
    };
    let letters = line[part.start..part.end].iter().enumerate().skip(skipped);
    let mut measures = letters.filter(|(_, byte)| is_measure(**byte));
    measures.next().map(|(place, _)| part.start + place)
}

/// In a test or an action: the first part whose kind is not that of the first, or
/// a sum of references.
fn mixed_between(line: &[u8], parts: &[Part]) -> Option<usize> {
    let kinds = parts
        .iter()
        .filter_map(|part| Some((part, kind(line, part)?)));
    let kinds: Vec<(&Part, bool)> = kinds.collect();
    let (_, measure) = *kinds.first()?;
    let other = kinds.iter().find(|(_, kind)| *kind != measure);
    let sum = parts.iter().find(|part| part.sort == PartSort::Sum);
    match other {
        Some((part, _)) => Some(part.start),
        None => sum.filter(|_| !measure).map(|part| part.start),
    }
}

/// Whether a part is a measure; none for a part that has no kind.
fn kind(line: &[u8], part: &Part) -> Option<bool> {
    match part.sort {
        PartSort::Number => Some(true),
        PartSort::Written | PartSort::Chain => Some(is_measure(line[part.start])),
        PartSort::Target
        | PartSort::Sum
        | PartSort::Smaller
        | PartSort::Group
        | PartSort::TestEnd => None,
    }
}

fn is_measure(byte: u8) -> bool {
    (b'M'..=b'T').contains(&byte)
}
