//! Files and standard input; a file is written whole or not at all.

use crate::commands::Outcome;
use crate::failure::Failure;
use crate::oneline::escaped;
use crate::{json, leftovers};
use std::fs::{self, File, Metadata, Permissions};
use std::io::{self, Read, Write};
use std::os::unix::fs::MetadataExt;
use std::path::Path;

/// The name that stands for standard input or standard output.
pub const STANDARD: &str = "-";

/// The names of standard output.
const STANDARD_OUTPUT: [&str; 4] = [STANDARD, "/dev/stdout", "/dev/fd/1", "/proc/self/fd/1"];

/// The bytes of a file, or of standard input for `-`. Of one that has more than `most`
/// only one more is read.
pub fn read(name: &str, most: usize) -> Result<Vec<u8>, Failure> {
    let most = most as u64 + 1;
    let mut bytes = Vec::new();
    let ended = match name {
        STANDARD => io::stdin().lock().take(most).read_to_end(&mut bytes),
        name => File::open(name).and_then(|file| file.take(most).read_to_end(&mut bytes)),
    };
    match ended {
        Ok(_) => Ok(bytes),
        Err(error) => Err(Failure::file("read", Path::new(&shown(name)), &error)),
    }
}

/// The size of a plain file.
pub fn size(name: &str) -> Option<u64> {
    let there = fs::metadata(name).ok().filter(Metadata::is_file);
    there.map(|there| there.len())
}

/// How a name is told to people.
pub fn shown(name: &str) -> String {
    match name {
        STANDARD => "standard input".to_owned(),
        name => escaped(name),
    }
}

/// Whether a name behind `-o` or `--svg` is standard output.
pub fn is_standard_output(name: &str) -> bool {
    STANDARD_OUTPUT.contains(&name)
}

/// Writes a file: what stood there before stays until the new one is complete.
/// What is no plain file, as a terminal or a pipe, is written straight. The answer
/// tells what killed runs had left beside it.
pub fn write(name: &str, bytes: &[u8]) -> Result<String, Failure> {
    let path = Path::new(name);
    let failed = |error: io::Error| Failure::file("write", path, &error);
    match fs::metadata(path) {
        Ok(there) if there.is_file() => {
            let path = fs::canonicalize(path).map_err(failed)?;
            replace(&path, bytes, Some(there.permissions())).map_err(failed)
        }
        Ok(_) => fs::write(path, bytes)
            .map(|()| String::new())
            .map_err(failed),
        Err(_) => replace(path, bytes, None).map_err(failed),
    }
}

/// Whether two names are of one file.
pub fn same(one: &str, other: &str) -> bool {
    let number = |there: Metadata| (there.dev(), there.ino());
    match (fs::metadata(one), fs::metadata(other)) {
        (Ok(one), Ok(other)) => number(one) == number(other),
        _ => false,
    }
}

/// Writes a file beside the one that is meant, and then gives it its name.
fn replace(path: &Path, bytes: &[u8], permissions: Option<Permissions>) -> io::Result<String> {
    let told = leftovers::removed(path);
    let beside = leftovers::name_beside(path)?;
    let file = File::create_new(&beside)?;
    // The lock says that somebody is at it; it goes with the file, or with the process.
    let _ = file.try_lock();
    let written = fill(&file, bytes, permissions).and_then(|()| fs::rename(&beside, path));
    if written.is_err() {
        let _ = fs::remove_file(&beside);
    }
    written.map(|()| told)
}

fn fill(mut file: &File, bytes: &[u8], permissions: Option<Permissions>) -> io::Result<()> {
    if let Some(permissions) = permissions {
        file.set_permissions(permissions)?;
    }
    file.write_all(bytes)?;
    file.sync_all()
}

/// Writes a result to a file, or to standard output, and tells of it: on standard
/// output, or on standard error where the result goes to standard output.
pub fn delivered(name: &str, bytes: Vec<u8>, report: String) -> Result<Outcome, Failure> {
    if is_standard_output(name) {
        return Ok(Outcome {
            out: bytes,
            note: report,
            ..Outcome::default()
        });
    }
    Ok(Outcome {
        note: write(name, &bytes)?,
        ..report.into()
    })
}

/// The same where there is nothing to tell but to programs, if they ask for it.
pub fn delivered_plainly(
    name: &str,
    bytes: Vec<u8>,
    for_programs: bool,
) -> Result<Outcome, Failure> {
    let report = match for_programs {
        true => json::object(&wrote(name, &bytes)) + "\n",
        false => String::new(),
    };
    delivered(name, bytes, report)
}

/// What programs are told of a file that is written.
pub fn wrote(name: &str, bytes: &[u8]) -> [(&'static str, String); 2] {
    [
        ("wrote", json::string(name)),
        ("bytes", bytes.len().to_string()),
    ]
}
