//! The command as a process: what it prints, writes and exits with.

mod any_bytes;
mod carets;
mod delivered;
mod files;
mod folder;
mod further;
mod installed;
mod names;
mod operator;
mod pictures;
mod readings;
mod reports;
mod rules;
mod runs;
mod scripts;
mod sessions;
mod sheets;
mod shown;
mod small;
mod usage;
mod whys;
