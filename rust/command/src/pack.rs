//! `plot pack` and `plot unpack`: sheets and registers.

use crate::arguments::{Arguments, Form};
use crate::commands::{Command, Outcome};
use crate::failure::Failure;
use crate::files::{self, STANDARD};
use crate::names_file::{self, Destination, NAMES, NO_NAMES};
use crate::oneline::escaped;
use crate::sheet::{self, Places, Sheet};
use crate::{explain, faults, json, show};
use plot::Register;

/// The command `plot pack`.
pub const PACK: Command = Command {
    name: "pack",
    form: Form {
        operands: &["SHEET.csv"],
        flags: &["--json", NO_NAMES],
        valued: &["-o", "--delimiter", NAMES],
    },
    help: include_str!("../help/pack.txt"),
    run: pack,
};

/// The command `plot unpack`.
pub const UNPACK: Command = Command {
    name: "unpack",
    form: Form {
        operands: &["REGISTER"],
        flags: &["--json", NO_NAMES],
        valued: &["-o", "--delimiter", NAMES],
    },
    help: include_str!("../help/unpack.txt"),
    run: unpack,
};

fn pack(arguments: &Arguments) -> Result<Outcome, Failure> {
    let output = arguments.output("-o")?;
    let output = output.ok_or_else(|| Failure::Usage("-o REGISTER is missing".to_owned()))?;
    let delimiter = delimiter(arguments)?;
    let destination = Destination::told(arguments, output)?;
    let name = arguments.operand(0);
    let bytes = sheet_bytes(name)?;
    let name = files::shown(name);
    let sheet = sheet::read(&bytes, delimiter)
        .map_err(|faults| faults::refused(&name, &faults, "and nothing is written"))?;
    let register = Register::from_cells(sheet.sizes, &sheet.cells)
        .map_err(|refusal| explain::register(&name, &[], refusal))?;
    let report = match arguments.has("--json") {
        true => packed_json(output, &register),
        false => format!("wrote {}: {}\n", escaped(output), show::summary(&register)),
    };
    let mut outcome = files::delivered(output, register.as_bytes().to_vec(), report)?;
    outcome.note += &destination.lack(arguments, &sheet.names);
    let named = destination.write(&sheet.names, sheet.sizes)?;
    if !files::is_standard_output(output) && !arguments.has("--json") {
        outcome
            .out
            .extend((named + &units_told(&sheet)).into_bytes());
    }
    Ok(outcome)
}

fn unpack(arguments: &Arguments) -> Result<Outcome, Failure> {
    let output = arguments.output("-o")?.unwrap_or(STANDARD);
    let delimiter = delimiter(arguments)?;
    let register = arguments.register()?;
    let mut names = names_file::of(arguments, &register)?;
    names.delimiter = delimiter.or(names.delimiter);
    let sheet = sheet::written(&register, &names, &Places::new());
    files::delivered_plainly(output, sheet.into_bytes(), arguments.has("--json"))
}

/// The register that is written, for programs.
fn packed_json(output: &str, register: &Register) -> String {
    let wrote = files::wrote(output, register.as_bytes());
    json::object(&[&wrote[..], &show::summary_members(register)].concat()) + "\n"
}

/// A line for each field in which some measures are metres and some are centimetres,
/// for a spreadsheet may have cut 2.00 to 2.
fn units_told(sheet: &Sheet) -> String {
    let line = |(field, row): &(char, usize)| {
        let field = sheet.names.field(*field);
        format!("{field} has metres, and centimetres in row {row}: is that meant?\n")
    };
    sheet.mixed.iter().map(line).collect()
}

/// The delimiter that is asked for.
fn delimiter(arguments: &Arguments) -> Result<Option<char>, Failure> {
    let word = arguments.value("--delimiter");
    let delimiter = word.map(names_file::delimiter).transpose();
    delimiter.map_err(Failure::Usage)
}

/// The bytes of a sheet; a file that is too long for one is not read.
fn sheet_bytes(name: &str) -> Result<Vec<u8>, Failure> {
    let size = files::size(name).filter(|_| name != STANDARD);
    if size.is_some_and(|size| size > sheet::MOST_BYTES as u64) {
        return Err(too_long(name));
    }
    let bytes = files::read(name, sheet::MOST_BYTES)?;
    match bytes.len() > sheet::MOST_BYTES {
        true => Err(too_long(name)),
        false => Ok(bytes),
    }
}

fn too_long(name: &str) -> Failure {
    let most = sheet::MOST_BYTES;
    let wrong = format!("it has more than {most} bytes, and the largest sheet has fewer");
    let name = files::shown(name);
    Failure::Refused {
        told: format!("{name}: {wrong}. Is it another file?"),
        json: json::object(&[("wrong", json::string(&wrong))]),
    }
}
