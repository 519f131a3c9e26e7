//! `plot diff`: the cells of two registers that differ.

use crate::arguments::{Arguments, Form};
use crate::commands::{Command, Outcome};
use crate::failure::Failure;
use crate::json;
use crate::names::Names;
use crate::names_file::{self, NAMES, NO_NAMES};
use crate::run::{self, Change};
use crate::show::{self, counted};
use crate::style::Style;
use plot::{Register, Sizes};
use std::io;

/// The command.
pub const COMMAND: Command = Command {
    name: "diff",
    form: Form {
        operands: &["OLD", "NEW"],
        flags: &["--json", NO_NAMES],
        valued: &[NAMES],
    },
    help: include_str!("../help/diff.txt"),
    run: diff,
};

fn diff(arguments: &Arguments) -> Result<Outcome, Failure> {
    let (old, new) = (arguments.register_at(0)?, arguments.register_at(1)?);
    let names = names_file::of(arguments, &old)?;
    let changes = changes(&old, &new);
    let same = changes.is_empty() && old.sizes() == new.sizes();
    let shown = match arguments.has("--json") {
        true => json(&old, &new, &names, &changes),
        false => told(&old, &new, &names, &changes),
    };
    Ok(Outcome {
        status: u8::from(!same),
        ..shown.into()
    })
}

/// The cells that differ, of the records and fields that both have.
fn changes(old: &Register, new: &Register) -> Vec<Change> {
    let records = 0..old.sizes().records.min(new.sizes().records);
    let cells = records.flat_map(|record| {
        let fields = old.sizes().fields();
        fields.filter_map(move |field| {
            let (before, after) = (old.cell(record, field)?, new.cell(record, field)?);
            (before != after).then_some((record, field, before, after))
        })
    });
    cells.collect()
}

fn told(old: &Register, new: &Register, names: &Names, changes: &[Change]) -> String {
    let sizes = match old.sizes() == new.sizes() {
        true => String::new(),
        false => format!(
            "The sizes differ: {}; {}.\n",
            show::sizes(old.sizes()),
            show::sizes(new.sizes())
        ),
    };
    let verb = if changes.len() == 1 {
        "differs"
    } else {
        "differ"
    };
    let count = counted(changes.len(), "cell");
    let table = run::change_table(changes, names, Style::of(&io::stdout()));
    format!("{sizes}{count} {verb}\n{table}")
}

fn json(old: &Register, new: &Register, names: &Names, changes: &[Change]) -> String {
    let sizes = |sizes: Sizes| {
        json::object(&[
            ("records", sizes.records.to_string()),
            ("references", sizes.references.to_string()),
            ("measures", sizes.measures.to_string()),
        ])
    };
    json::object(&[
        ("old", sizes(old.sizes())),
        ("new", sizes(new.sizes())),
        ("changed", run::change_list(changes, names)),
    ]) + "\n"
}
