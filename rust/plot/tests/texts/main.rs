//! Checks and plans of the library and of the reference agree, text by text.

mod bindings;
#[path = "../common/mod.rs"]
mod common;
mod compare;
mod edges;
mod expressions;
mod forms;
mod generated;
mod metres;
mod neighbours;
mod plans;
