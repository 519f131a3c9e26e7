//! A reading of document 01, "Plot registers, their rules, and the letters
//! between records", and of the requests of document 02 that have landed, written
//! from the papers alone. The library is compared with it in answers and in time.

pub mod apply;
pub mod chain;
pub mod direct;
pub mod evaluate;
mod expression_form;
pub mod form;
pub mod line_check;
pub mod marks;
pub mod messages;
pub mod path;
pub mod plan;
pub mod print;
pub mod printed;
pub mod program;
pub mod reading;
pub mod refusal;
pub mod register;
pub mod rule;
pub mod run;
pub mod text;
