//! The file that is written beside another, and what killed runs have left of such.

use std::fs::{self, File};
use std::io::{self, ErrorKind};
use std::path::{Path, PathBuf};
use std::process;

/// The name of the file that this process writes before it takes the place of the
/// one that is meant.
pub fn name_beside(path: &Path) -> io::Result<PathBuf> {
    let no_name = || io::Error::new(ErrorKind::InvalidInput, "it is no name of a file");
    let name = path.file_name().ok_or_else(no_name)?.to_string_lossy();
    Ok(path.with_file_name(format!(".{name}.{}.part", process::id())))
}

/// Removes what killed runs have left beside a file, and tells of each.
pub fn removed(path: &Path) -> String {
    let Some(name) = path.file_name() else {
        return String::new();
    };
    let start = format!(".{}.", name.to_string_lossy());
    let folder = match path.parent() {
        Some(folder) if folder != Path::new("") => folder,
        _ => Path::new("."),
    };
    let files = fs::read_dir(folder).into_iter().flatten().flatten();
    let names = files.map(|file| file.file_name().to_string_lossy().into_owned());
    let left = names.filter(|name| {
        writer(name, &start).is_some_and(|number| is_left(&folder.join(name), number))
    });
    let gone = left.filter(|name| fs::remove_file(folder.join(name)).is_ok());
    let told =
        gone.map(|name| format!("plot: removed {name}, which a run that was killed had left\n"));
    told.collect()
}

/// The process that writes a file of this name, if it is one that begins so.
fn writer<'a>(name: &'a str, start: &str) -> Option<&'a str> {
    let number = name.strip_prefix(start)?.strip_suffix(".part")?;
    let digits = !number.is_empty() && number.bytes().all(|byte| byte.is_ascii_digit());
    digits.then_some(number)
}

/// Whether nobody is at a file any more: its process is gone, and nobody, on another
/// machine either, has it locked.
fn is_left(path: &Path, process: &str) -> bool {
    let gone = !Path::new("/proc").join(process).exists();
    gone && File::open(path).is_ok_and(|file| file.try_lock().is_ok())
}
