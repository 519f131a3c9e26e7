//! Plans as pictures: for each reading the records of its chain in a row, below
//! them the messages as arrows, round by round.

use crate::arrows::{self, Arrow, Round, name};
use crate::plan::{Planned, summary};
use crate::remote::Write;
use crate::svg::{Anchor, Picture, colour};
use plot::{Line, Plan};

/// The edge around everything, the room for round numbers, and the way from one
/// record to the next.
const EDGE: usize = 24;
const ROUNDS: usize = 96;
const GAP: usize = 104;
/// The heights of a title, of the row of records, and of a message.
const TITLE: usize = 30;
const RECORDS: usize = 32;
const MESSAGE: usize = 28;

/// A picture of the plans of some steps, with a line about the fields if there is one.
pub fn picture(plans: &[Planned], legend: Option<&str>) -> String {
    let mut picture = Picture::default();
    let mut y = EDGE;
    for planned in plans {
        y = step_picture(&mut picture, y, planned) + EDGE;
    }
    if let Some(legend) = legend {
        y = note(&mut picture, y, legend);
    }
    picture.reach(360, y);
    picture.print("plan")
}

/// Draws a step from this height on: the height behind it.
fn step_picture(picture: &mut Picture, y: usize, planned: &Planned) -> usize {
    let Planned { step, plan, writes } = planned;
    let title = summary(*step, plan);
    picture.text((EDGE, y + 18), Anchor::Start, (17, colour::INK), &title);
    picture.reach(2 * EDGE + 10 * title.len(), y);
    let mut y = y + TITLE;
    if plan.lines.is_empty() {
        let none = "no lines: no chain here has more than one hop";
        y = note(picture, y, none);
    }
    for reading in arrows::readings(plan) {
        y = panel(picture, y, plan, reading) + EDGE;
    }
    if plan.remote {
        let title = format!("exchange {}: the remote writes", plan.exchanges());
        y = note(picture, y, &title);
    }
    for write in writes {
        y = write_panel(picture, y, write, plan.exchanges()) + EDGE;
    }
    y
}

/// A title, cut where it is too long for a picture.
fn shortened(title: String) -> String {
    match title.char_indices().nth(120) {
        Some((end, _)) => format!("{}...", &title[..end]),
        None => title,
    }
}

/// Draws a remote write from this height on, its message dashed: the height behind it.
fn write_panel(picture: &mut Picture, y: usize, write: &Write, exchange: u8) -> usize {
    let title = shortened(format!("{}{}", write.test, write.action()));
    picture.text((EDGE, y + 14), Anchor::Start, (14, colour::INK), &title);
    let letters = write.letters();
    let right = x_of(letters.len()) + GAP / 2;
    picture.reach(right.max(2 * EDGE + 9 * title.chars().count()), y);
    let records = y + TITLE + 16;
    let (first, bottom) = (records + RECORDS, records + RECORDS + MESSAGE + 8);
    for x in (0..letters.len()).map(x_of) {
        picture.line((x, records), (x, bottom), colour::GUIDE, "1");
    }
    chain_row(picture, records, &letters);
    picture.line((EDGE, first), (right, first), colour::GUIDE, "1");
    let level = first + 20;
    picture.text((EDGE, level), Anchor::Start, (12, colour::REMOTE), "remote");
    let (from, to) = (x_of(0), x_of(letters.len() - 1));
    picture.open_round(exchange);
    picture.circle((from, level), 3, colour::REMOTE, colour::REMOTE);
    let (text, middle) = match from == to {
        true => ("to itself", from + GAP / 2),
        false => ("what it writes", (from + to) / 2),
    };
    if from != to {
        picture.dashed_arrow(level, from, to, colour::REMOTE);
    }
    picture.text(
        (middle, level - 6),
        Anchor::Middle,
        (11, colour::REMOTE),
        text,
    );
    picture.close();
    bottom
}

fn note(picture: &mut Picture, y: usize, text: &str) -> usize {
    picture.text((EDGE, y + 14), Anchor::Start, (13, colour::GREY), text);
    picture.reach(2 * EDGE + 8 * text.len(), y);
    y + TITLE
}

fn x_of(place: usize) -> usize {
    EDGE + ROUNDS + place * GAP
}

/// Draws a reading from this height on: the height behind it.
fn panel(picture: &mut Picture, y: usize, plan: &Plan, reading: &Line) -> usize {
    let chain = reading.chain();
    let title = format!("{chain}: u knows it after round {}", reading.round);
    picture.text((EDGE, y + 14), Anchor::Start, (14, colour::INK), &title);
    let right = x_of(reading.letters.len()) + GAP / 2;
    picture.reach(right.max(2 * EDGE + 9 * title.len()), y);
    let records = y + TITLE + 16;
    let first = records + RECORDS;
    let rounds = arrows::rounds(plan, reading);
    let levels: usize = rounds.iter().map(|(_, levels)| levels.len()).sum();
    let bottom = first + MESSAGE * levels + 8;
    for x in (0..reading.letters.len()).map(x_of) {
        picture.line((x, records), (x, bottom), colour::GUIDE, "1");
    }
    chain_row(picture, records, &reading.letters);
    messages(picture, first, right, &rounds);
    bottom
}

/// The records of a chain, and the cell that it ends with.
fn chain_row(picture: &mut Picture, y: usize, letters: &str) {
    for (place, letter) in letters.char_indices() {
        let (from, to) = (x_of(place), x_of(place + 1));
        picture.arrow(y, from + 16, to - 16, colour::HOP);
        let middle = ((from + to) / 2, y - 7);
        picture.text(
            middle,
            Anchor::Middle,
            (12, colour::GREY),
            &letter.to_string(),
        );
        picture.circle((from, y), 15, "#ffffff", colour::INK);
        picture.text(
            (from, y + 4),
            Anchor::Middle,
            (12, colour::INK),
            &name(place),
        );
    }
    let cell = x_of(letters.len());
    picture.rectangle(cell - 15, y - 12, 30, 24, colour::FILLED);
    picture.text((cell, y + 4), Anchor::Middle, (11, colour::INK), "cell");
}

/// Draws the messages from this height on.
fn messages(picture: &mut Picture, top: usize, right: usize, rounds: &[Round]) {
    let mut y = top;
    for (number, levels) in rounds {
        let paint = colour::ROUNDS[usize::from(number - 1) % colour::ROUNDS.len()];
        let label = format!("round {number}");
        picture.text((EDGE, y + 20), Anchor::Start, (12, paint), &label);
        picture.line((EDGE, y), (right, y), colour::GUIDE, "1");
        picture.open_round(*number);
        for level in levels {
            for arrow in level {
                message(picture, y + 20, paint, arrow);
            }
            y += MESSAGE;
        }
        picture.close();
    }
}

fn message(picture: &mut Picture, y: usize, paint: &str, arrow: &Arrow) {
    let (from, to) = (x_of(arrow.from), x_of(arrow.to));
    picture.circle((from, y), 3, paint, paint);
    picture.arrow(y, from, to, paint);
    let middle = ((from + to) / 2, y - 6);
    picture.text(middle, Anchor::Middle, (11, paint), &arrow.text);
}
