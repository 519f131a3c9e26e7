//! Refusals told to people: the number, its meaning, the place, and what to do.

use crate::draft::{Draft, Open, Role};
use crate::failure::Failure;
use crate::pointer::Place;
use crate::scan::Scan;
use crate::style::{Look, Style};
use crate::{caret, faulty, json, misfit};
use plot::{Kind, Refusal, Register, Sizes};
use std::io;

/// A refusal, told to people and to programs.
pub struct Explained {
    /// For people.
    pub told: String,
    /// For programs: names and values that are JSON already.
    pub members: Vec<(&'static str, String)>,
}

impl Explained {
    /// For programs, as one object.
    pub fn json(&self) -> String {
        json::object(&self.members)
    }

    fn failure(self) -> Failure {
        Failure::Refused {
            json: self.json(),
            told: self.told,
        }
    }
}

/// A register file that is refused.
pub fn register(name: &str, bytes: &[u8], refusal: Refusal) -> Failure {
    refused(name, refusal, None, &faulty::told(refusal.kind, bytes)).failure()
}

/// A rules text that is refused.
pub fn rules(name: &str, sizes: Sizes, text: &[u8], refusal: Refusal) -> Failure {
    rules_in(name, sizes, &Draft::of(text), refusal).failure()
}

/// A draft of a rules text that is refused, told with the line numbers of the text.
pub fn rules_in(name: &str, sizes: Sizes, draft: &Draft, refusal: Refusal) -> Explained {
    let line = draft.line(refusal.line);
    let place = line.map(|line| Place {
        number: line.number,
        line: line.content(),
        at: caret::place(sizes, refusal.kind, line.content(), false),
    });
    let advice = rules_advice(sizes, draft, refusal, place);
    let line = match refusal.line {
        0 => 0,
        place => draft.number(place),
    };
    refused(name, Refusal { line, ..refusal }, place, &advice)
}

fn rules_advice(sizes: Sizes, draft: &Draft, refusal: Refusal, place: Option<Place<'_>>) -> String {
    let advice = match (refusal.kind, place) {
        (Kind::Form, Some(Place { line, at, .. })) if line[at..] == *b"\r" => {
            "The line ends as on Windows. Save the text with plain line breaks (LF)."
        }
        (Kind::Form, Some(Place { line, at, .. })) if is_no_number(line, at) => {
            "Numbers are centimetres, as 180 or -5, or metres with two decimals, as 1.80 or -0.05; \
             no leading zeros, and no minus before zero."
        }
        (Kind::Form, Some(Place { line, at, .. })) if at == line.len() && draft.ends_open() => {
            "The line goes on, or a line break has to stand behind it."
        }
        (Kind::Place, _) => return place_advice(draft, refusal.line),
        (Kind::Form, Some(Place { line, .. })) => return form_advice(line),
        (Kind::FieldKind, Some(Place { line, at, .. })) => kind_advice(line, at),
        (kind, _) => return advice(kind, sizes),
    };
    advice.to_owned()
}

/// What to do about a line that is out of place, or about the end of a text that
/// comes too early.
fn place_advice(draft: &Draft, place: u64) -> String {
    let Open { step, looped } = draft.open_before(place);
    let Some(line) = draft.line(place) else {
        let step =
            step.map(|opened| format!("the step that line {opened} opened is not closed by end"));
        let looped = looped
            .map(|opened| format!("the loop that line {opened} opened is not closed by done"));
        let open: Vec<String> = [step, looped].into_iter().flatten().collect();
        return format!("The text ends here, and {}.", open.join(", and "));
    };
    match (line.role(), step, looped) {
        (Role::Step | Role::Loop | Role::Done, Some(opened), _) => {
            format!("The step that line {opened} opened has to be closed first, by end.")
        }
        (Role::Loop, None, Some(opened)) => {
            format!(
                "No loop stands in a loop, and line {opened} opened one that is not closed by done."
            )
        }
        (Role::Done, None, Some(opened)) => {
            format!("The loop that line {opened} opened holds no step; a loop holds at least one.")
        }
        (Role::Done, None, None) => "No loop is open here that done could close.".to_owned(),
        (Role::End, ..) => "No step is open here that end could close.".to_owned(),
        _ => "Rules stand between step and end, and no step is open here.".to_owned(),
    }
}

/// What to do about a line that has no form.
fn form_advice(line: &[u8]) -> String {
    let misfit = Scan::line(line).err();
    let advice = misfit.and_then(|misfit| misfit.advice(line));
    advice.unwrap_or(Kind::Form.advice().to_owned())
}

/// Whether this place is in or behind what was meant as a number and is none.
fn is_no_number(line: &[u8], at: usize) -> bool {
    let meant = |byte: &u8| matches!(byte, b'0'..=b'9' | b'.' | b',');
    let before = line[..at].iter().rev().take_while(|byte| meant(byte));
    let behind = line[at..].iter().take_while(|byte| meant(byte));
    let start = at - before.count();
    let minus = usize::from(line[..start].ends_with(b"-"));
    let token = &line[start - minus..at + behind.count()];
    token.iter().any(u8::is_ascii_digit) && !Scan::is_number(token)
}

/// What to do about references and measures that are mixed at this place.
fn kind_advice(line: &[u8], at: usize) -> &'static str {
    let before = line[..at].trim_ascii_end().last();
    match (before, &line[at..]) {
        (Some(b'['), _) => "What stands in square brackets leads to a record: A to H, or u.",
        // Behind an operand a minus is the operator.
        (Some(b']' | b'u' | b')' | b'0'..=b'9'), [b'+' | b'-', ..]) => {
            "Sums take measures only: M to T, and numbers."
        }
        _ => "Both sides are references, or both are measures; a number is a measure.",
    }
}

/// A chain that is refused, or the record that it is read at.
pub fn reading(register: &Register, chain: &str, record: usize, refusal: Refusal) -> Failure {
    let sizes = register.sizes();
    if refusal.kind == Kind::Record {
        let name = format!("record {record}");
        return refused(&name, refusal, None, &records(sizes)).failure();
    }
    let line = chain.as_bytes();
    let at = caret::place(sizes, refusal.kind, line, true);
    let advice = match refusal.kind {
        Kind::Form => &misfit::chain_advice(line),
        Kind::FieldKind => kind_advice(line, at),
        kind => &advice(kind, sizes),
    };
    let place = Place {
        number: 1,
        line,
        at,
    };
    // A chain has one line, and people need not be told so.
    let refusal = Refusal { line: 0, ..refusal };
    refused("the chain", refusal, Some(place), advice).failure()
}

/// A step that is not there.
pub fn step(step: usize, steps: usize, refusal: Refusal) -> Failure {
    let advice = match steps {
        0 => "The text has no step.".to_owned(),
        1 => "The text has one step, number 1.".to_owned(),
        steps => format!("The text has the steps 1 to {steps}."),
    };
    refused(&format!("step {step}"), refusal, None, &advice).failure()
}

/// A run that was stopped, with what programs are told of it.
pub fn stopped(name: &str, kind: Kind, advice: &str, members: &[(&str, String)]) -> Failure {
    let refusal = Refusal { kind, line: 0 };
    let number = ("refused", refusal.number().to_string());
    let meaning = ("meaning", json::string(kind.meaning()));
    Failure::Refused {
        told: told(name, refusal, None, advice),
        json: json::object(&[&[number], members, &[meaning]].concat()),
    }
}

fn advice(kind: Kind, sizes: Sizes) -> String {
    match kind {
        Kind::Field => fields(sizes),
        kind => kind.advice().to_owned(),
    }
}

fn fields(sizes: Sizes) -> String {
    let names: Vec<String> = sizes.fields().map(String::from).collect();
    match names.len() {
        0 => "The register has no field.".to_owned(),
        1 => format!("The register has one field, {}.", names[0]),
        _ => format!("The register has the fields {}.", names.join(", ")),
    }
}

fn records(sizes: Sizes) -> String {
    match sizes.records {
        0 => "The register has no record.".to_owned(),
        records => format!("The register has the records 0 to {}.", records - 1),
    }
}

/// The refusal, for people and for programs.
fn refused(name: &str, refusal: Refusal, place: Option<Place<'_>>, advice: &str) -> Explained {
    let column = place.map(|place| place.at + 1);
    let line = place.map_or(refusal.line, |place| place.number);
    let members = vec![
        ("refused", refusal.number().to_string()),
        ("line", line.to_string()),
        ("column", json::option(column)),
        ("meaning", json::string(refusal.kind.meaning())),
    ];
    let told = told(name, refusal, place, advice);
    Explained { told, members }
}

/// What is refused and why, the line with a caret, and what to do.
fn told(name: &str, refusal: Refusal, place: Option<Place<'_>>, advice: &str) -> String {
    let style = Style::of(&io::stderr());
    let number = style.paint(Look::Wrong, &format!("refused {}", refusal.number()));
    let line = match refusal.line {
        0 => String::new(),
        line => format!(" at line {line}"),
    };
    let meaning = refusal.kind.meaning();
    let place = place.map_or(String::new(), |place| place.print(style));
    format!("{name}: {number}{line}: {meaning}\n{place}  {advice}")
}
