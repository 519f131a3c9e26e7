//! What else is refused behind the first refusal of a rules text: the refused line is
//! mended or taken out, and the library is asked again.

use crate::draft::{Draft, Line, Role};
use crate::explain::{self, Explained};
use crate::failure::Failure;
use crate::scan::Scan;
use crate::{json, misfit};
use plot::{Kind, Refusal, Register, Text};

/// The most refusals that are told, and the most times that the library is asked.
const MOST: usize = 40;
const ASKED: usize = 2000;

/// Every refusal of a text whose first one this is, from the top.
pub fn all(register: &Register, name: &str, text: &[u8], first: Refusal) -> Failure {
    let mut draft = Draft::of(text);
    let mut told: Vec<Explained> = Vec::new();
    let mut last = None;
    let mut next = Some(first);
    for _ in 0..ASKED {
        let Some(refusal) = next.filter(|_| told.len() < MOST) else {
            break;
        };
        if !told_before(&draft, refusal, last) {
            told.push(explain::rules_in(name, register.sizes(), &draft, refusal));
            last = Some((refusal.kind, draft.number(refusal.line)));
        }
        if !mended(&mut draft, register, refusal) {
            break;
        }
        next = Text::check(register, draft.text()).err();
    }
    failure(told)
}

/// Whether the last refusal told was 13 too, of the same step or of the steps: only the
/// first line beyond the limit is told.
fn told_before(draft: &Draft, refusal: Refusal, last: Option<(Kind, u64)>) -> bool {
    let line = draft.line(refusal.line);
    let is_step = line.is_some_and(|line| line.role() == Role::Step);
    let since = draft.open_before(refusal.line).step.unwrap_or(0);
    refusal.kind == Kind::Count
        && last.is_some_and(|(kind, number)| kind == Kind::Count && (is_step || number > since))
}

/// The first refusal, with all others behind it.
fn failure(told: Vec<Explained>) -> Failure {
    let further: Vec<String> = told[1..].iter().map(Explained::json).collect();
    let further = ("further", json::list(further));
    let members = [&told[0].members[..], &[further]].concat();
    let blocks: Vec<String> = told.into_iter().map(|one| one.told).collect();
    Failure::Refused {
        told: blocks.join("\n"),
        json: json::object(&members),
    }
}

/// Mends a draft so that the library looks behind what it has refused; whether there
/// is anything behind it.
fn mended(draft: &mut Draft, register: &Register, refusal: Refusal) -> bool {
    let place = refusal.line;
    let Some(line) = draft.line(place).cloned() else {
        return false;
    };
    match refusal.kind {
        Kind::Form => mend_form(draft, register, place, &line),
        Kind::Place => mend_place(draft, place, &line),
        Kind::Count if line.role() == Role::Step => keep_open_loop(draft, place),
        Kind::PlanLines => empty_step(draft, place),
        _ if line.role() == Role::Loop => put_loop(draft, register, place),
        _ => draft.remove(place),
    }
    true
}

fn mend_form(draft: &mut Draft, register: &Register, place: u64, line: &Line) {
    let content = line.content();
    let meant = misfit::structure(content);
    match content {
        [start @ .., b'\r'] if !start.ends_with(b"\r") => draft.strip_returns(),
        _ if content.starts_with(misfit::BYTE_ORDER_MARK) => {
            draft.replace(place, &content[misfit::BYTE_ORDER_MARK.len()..]);
        }
        // Only its line break is missing.
        _ if Scan::line(content).is_ok() => draft.replace(place, content),
        _ if meant == Some("loop") => put_loop(draft, register, place),
        _ => match meant {
            Some(word) => draft.replace(place, word.as_bytes()),
            None => draft.remove(place),
        },
    }
}

/// Puts a loop that passes in the place of one that does not.
fn put_loop(draft: &mut Draft, register: &Register, place: u64) {
    match register.sizes().fields().next() {
        Some(field) => draft.replace(place, format!("loop {field}").as_bytes()),
        None => draft.remove(place),
    }
}

/// Closes or opens what is missing around a line, or takes the line out.
fn mend_place(draft: &mut Draft, place: u64, line: &Line) {
    let open = draft.open_before(place);
    match line.role() {
        Role::Step | Role::Loop | Role::Done if open.step.is_some() => draft.insert(place, "end"),
        // A loop in a loop, and its end.
        Role::Loop => {
            let mut closed = false;
            let number = line.number;
            draft.retain(|line| {
                let closes = line.number > number && line.role() == Role::Done && !closed;
                closed |= closes;
                !(closes || line.number == number && line.role() == Role::Loop)
            });
        }
        Role::Done if open.looped.is_some() => {
            draft.insert(place, "end");
            draft.insert(place, "step");
        }
        Role::Other if draft.goes_on_with(place, Role::End) => draft.insert(place, "step"),
        _ => draft.remove(place),
    }
}

/// Takes out what has passed before a step but the loop that it stands in.
fn keep_open_loop(draft: &mut Draft, place: u64) {
    let number = draft.number(place);
    let looped = draft.open_before(place).looped;
    draft.retain(|line| {
        line.number >= number || Some(line.number) == looped && line.role() == Role::Loop
    });
}

/// Takes the rules of the step out that ends at a place.
fn empty_step(draft: &mut Draft, place: u64) {
    let end = draft.number(place);
    let start = draft.open_before(place).step.unwrap_or(0);
    draft.retain(|line| !(start < line.number && line.number < end));
}
