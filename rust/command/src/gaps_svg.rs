//! The cells of a register as a picture: a table where there are few records, one
//! square for each record where there are many.

use crate::names::Names;
use crate::show;
use crate::svg::{Anchor, Picture, colour};
use plot::{Cell, Register};

/// The most records that are drawn as a table.
const FEW: usize = 64;
/// The edge around everything, and the room for a title.
const EDGE: usize = 24;
const TITLE: usize = 60;
/// The most characters of a name that is drawn.
const NAME: usize = 20;

/// A picture of a register.
pub fn picture(register: &Register, names: &Names) -> String {
    let mut picture = Picture::default();
    let summary = show::summary(register);
    picture.text((EDGE, 32), Anchor::Start, (15, colour::INK), &summary);
    picture.reach(2 * EDGE + 8 * summary.len(), TITLE);
    match register.sizes().records <= FEW {
        true => table(&mut picture, register, names),
        false => squares(&mut picture, register, names),
    }
    picture.print("plot register")
}

/// The colour of a cell, and of the text in it.
fn colours(cell: Cell) -> (&'static str, &'static str) {
    match cell {
        Cell::Unfilled => (colour::GAP, "#ffffff"),
        Cell::WorkedOut(_) => (colour::WORKED_OUT, colour::INK),
        _ => (colour::FILLED, colour::INK),
    }
}

/// A name, cut where it is too long to be drawn.
fn short(name: &str) -> String {
    match name.char_indices().nth(NAME) {
        Some((end, _)) => format!("{}..", &name[..end]),
        None => name.to_owned(),
    }
}

/// The height of a cell of the table, its least width, the room for a character, and
/// for the record numbers.
const HEIGHT: usize = 24;
const LEAST_WIDTH: usize = 64;
const CHARACTER: usize = 9;
const NUMBERS: usize = 44;

fn table(picture: &mut Picture, register: &Register, names: &Names) {
    let records = 0..register.sizes().records;
    let labels = records.map(|record| short(names.label(record).unwrap_or("")));
    let labels: Vec<String> = labels.collect();
    let numbers = EDGE
        + if names.has_labels() {
            room(0, labels.iter())
        } else {
            0
        };
    let mut x = numbers + NUMBERS;
    for (record, label) in labels.iter().enumerate() {
        let y = row(record) + 16;
        if !label.is_empty() {
            picture.text((numbers, y), Anchor::End, (12, colour::INK), label);
        }
        let number = record.to_string();
        picture.text((x - 10, y), Anchor::End, (12, colour::GREY), &number);
    }
    for field in register.sizes().fields() {
        x += column(picture, register, names, (field, x));
    }
    let bottom = row(labels.len());
    legend(picture, bottom + 20);
    picture.reach(x + EDGE, bottom + 20 + EDGE);
}

/// The top of a record's row.
fn row(record: usize) -> usize {
    TITLE + (record + 1) * HEIGHT
}

/// The width for the longest of these texts.
fn room<'a>(least: usize, texts: impl Iterator<Item = &'a String>) -> usize {
    let longest = texts.map(|text| text.chars().count()).max().unwrap_or(0);
    least.max(CHARACTER * longest + 20)
}

/// Draws the cells of a field, and tells how wide they are.
fn column(
    picture: &mut Picture,
    register: &Register,
    names: &Names,
    (field, x): (char, usize),
) -> usize {
    let records = 0..register.sizes().records;
    let cells: Vec<Cell> = records.filter_map(|u| register.cell(u, field)).collect();
    let texts = cells.iter().map(|cell| short(&names.cell(field, *cell)));
    let texts: Vec<String> = texts.collect();
    let heading = short(&names.field(field));
    let width = room(LEAST_WIDTH, texts.iter().chain([&heading]));
    let point = (x + width / 2, TITLE + 16);
    picture.text(point, Anchor::Middle, (14, colour::INK), &heading);
    for (record, (cell, text)) in cells.into_iter().zip(&texts).enumerate() {
        let (fill, ink) = colours(cell);
        let y = row(record);
        picture.rectangle(x + 1, y + 1, width - 2, HEIGHT - 2, fill);
        picture.text((x + width - 8, y + 17), Anchor::End, (13, ink), text);
    }
    width
}

/// The room for the legend.
const LEGEND: usize = 290;

fn legend(picture: &mut Picture, y: usize) {
    let entries = [
        (EDGE, colour::FILLED, "measured"),
        (EDGE + 100, colour::WORKED_OUT, "worked out ~"),
        (EDGE + 220, colour::GAP, "unfilled"),
    ];
    for (x, fill, text) in entries {
        picture.rectangle(x, y, 12, 12, fill);
        picture.text((x + 18, y + 11), Anchor::Start, (12, colour::INK), text);
    }
    picture.reach(EDGE + LEGEND, y + EDGE);
}

/// The squares of a field in a row, the fields side by side, and the room for a
/// field's title and its record numbers.
const ACROSS: usize = 64;
const FIELDS_ACROSS: usize = 4;
const HEAD: usize = 60;
const SIDE: usize = 48;

fn squares(picture: &mut Picture, register: &Register, names: &Names) {
    let sizes = register.sizes();
    let square = if sizes.records > 1024 { 4 } else { 6 };
    let rows = sizes.records.div_ceil(ACROSS);
    let (width, height) = (SIDE + ACROSS * square + EDGE, HEAD + rows * square + EDGE);
    for (place, field) in sizes.fields().enumerate() {
        let x = EDGE + place % FIELDS_ACROSS * width + SIDE;
        let y = TITLE + place / FIELDS_ACROSS * height + HEAD;
        let title = short(&names.field(field));
        field_squares(picture, register, (field, &title), (x, y, square));
        picture.reach(x + ACROSS * square + EDGE, y + rows * square + EDGE);
    }
    let bottom = TITLE + sizes.width().div_ceil(FIELDS_ACROSS) * height;
    legend(picture, bottom);
    let read =
        "the record of a square: the number left of its row plus the number above its column";
    let point = (EDGE + LEGEND + 20, bottom + 11);
    picture.text(point, Anchor::Start, (12, colour::GREY), read);
    picture.reach(2 * EDGE + LEGEND + 20 + 8 * read.len(), bottom);
}

/// The squares of a field, row by row, with its title and the record numbers.
fn field_squares(
    picture: &mut Picture,
    register: &Register,
    (field, title): (char, &str),
    (x, y, square): (usize, usize, usize),
) {
    let records = register.sizes().records;
    let (full, rest) = (records / ACROSS, records % ACROSS);
    picture.rectangle(x, y, ACROSS * square, full * square, colour::FILLED);
    picture.rectangle(x, y + full * square, rest * square, square, colour::FILLED);
    let cells = || (0..records).filter_map(|u| Some((u, register.cell(u, field)?)));
    let of_colour = |fill: &str| {
        let cells = cells().filter(move |(_, cell)| colours(*cell).0 == fill);
        cells.map(|(record, _)| record).collect::<Vec<usize>>()
    };
    let (worked_out, unfilled) = (of_colour(colour::WORKED_OUT), of_colour(colour::GAP));
    let counts = match worked_out.len() {
        0 => format!("{} unfilled", unfilled.len()),
        some => format!("{} unfilled, {some} worked out", unfilled.len()),
    };
    picture.text((x, y - 40), Anchor::Start, (14, colour::INK), title);
    picture.text((x, y - 22), Anchor::Start, (12, colour::INK), &counts);
    axes(picture, records, (x, y, square));
    for (records, fill) in [(worked_out, colour::WORKED_OUT), (unfilled, colour::GAP)] {
        let squares = records.into_iter().map(|record| {
            let (left, top) = (x + record % ACROSS * square, y + record / ACROSS * square);
            format!("M{left} {top}h{square}v{square}h-{square}z")
        });
        picture.path(&squares.collect::<String>(), fill);
    }
}

/// The record numbers above and beside the squares: a square's record is the sum
/// of the number above it and the number beside it.
fn axes(picture: &mut Picture, records: usize, (x, y, square): (usize, usize, usize)) {
    for above in (0..ACROSS).step_by(16) {
        let point = (x + above * square, y - 6);
        picture.text(
            point,
            Anchor::Start,
            (10, colour::GREY),
            &format!("+{above}"),
        );
    }
    let rows = records.div_ceil(ACROSS);
    let step = if rows > 16 { 8 } else { 4 };
    for row in (0..rows).step_by(step) {
        let point = (x - 6, y + row * square + 8);
        let number = (row * ACROSS).to_string();
        picture.text(point, Anchor::End, (10, colour::GREY), &number);
    }
}
