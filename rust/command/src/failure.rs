//! Why a command gives no result, and the exit status that says so.

use crate::oneline::escaped;
use std::fmt;
use std::io;
use std::path::Path;

/// Why a command gives no result.
#[derive(Debug)]
pub enum Failure {
    /// The arguments are not those of the command: exit status 2.
    Usage(String),
    /// A file cannot be read or written: exit status 2.
    File(String),
    /// The input is refused: exit status 1. The text for people, and the JSON
    /// for programs.
    Refused {
        /// What stands on standard error.
        told: String,
        /// What `--json` writes on standard output.
        json: String,
    },
}

impl Failure {
    /// The exit status.
    pub fn status(&self) -> u8 {
        match self {
            Failure::Refused { .. } => 1,
            Failure::Usage(_) | Failure::File(_) => 2,
        }
    }

    /// A file operation that failed: what was to be done, the file, and why.
    pub fn file(doing: &str, path: &Path, error: &io::Error) -> Failure {
        let why = match error.kind() {
            io::ErrorKind::NotFound => "there is no such file or folder".to_owned(),
            io::ErrorKind::PermissionDenied => "permission is denied".to_owned(),
            io::ErrorKind::IsADirectory => "it is a folder".to_owned(),
            io::ErrorKind::StorageFull => "the disk is full".to_owned(),
            _ => error.to_string(),
        };
        let path = escaped(&path.to_string_lossy());
        Failure::File(format!("cannot {doing} {path}: {why}"))
    }
}

impl fmt::Display for Failure {
    fn fmt(&self, f: &mut fmt::Formatter<'_>) -> fmt::Result {
        match self {
            Failure::Usage(told) | Failure::File(told) => f.write_str(told),
            Failure::Refused { told, .. } => f.write_str(told),
        }
    }
}
