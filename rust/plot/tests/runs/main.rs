//! Runs and inspections of the library and of the reference agree, case by case.

mod bindings;
#[path = "../common/mod.rs"]
mod common;
mod compare;
mod expressions;
mod generated;
mod inspections;
mod marks;
mod metres;
mod planned;
mod trials;
