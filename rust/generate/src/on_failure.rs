//! A case is printed when its test fails: every input as a line of Rust, so that
//! the case can be pasted into a test and run again.

use std::fmt;
use std::thread;

#[derive(Clone, Copy, Debug)]
enum Input<'a> {
    Bytes(&'a [u8]),
    Number(u64),
}

/// The inputs of a case, which are printed if the test fails while they are held.
#[derive(Debug)]
#[must_use = "a case that is not held is not printed"]
pub struct OnFailure<'a> {
    inputs: Vec<(&'static str, Input<'a>)>,
}

impl<'a> OnFailure<'a> {
    /// A case over this register.
    pub fn new(register: &'a [u8]) -> OnFailure<'a> {
        OnFailure { inputs: Vec::new() }.bytes("register", register)
    }

    /// The case with bytes more: a text or a chain.
    pub fn bytes(self, name: &'static str, bytes: &'a [u8]) -> OnFailure<'a> {
        self.with(name, Input::Bytes(bytes))
    }

    /// The case with a number more.
    pub fn number(self, name: &'static str, number: impl Into<u64>) -> OnFailure<'a> {
        self.with(name, Input::Number(number.into()))
    }

    fn with(mut self, name: &'static str, input: Input<'a>) -> OnFailure<'a> {
        self.inputs.push((name, input));
        self
    }
}

impl fmt::Display for OnFailure<'_> {
    fn fmt(&self, out: &mut fmt::Formatter<'_>) -> fmt::Result {
        self.inputs
            .iter()
            .try_for_each(|(name, input)| match input {
                Input::Bytes(bytes) => writeln!(out, "let {name} = b\"{}\";", bytes.escape_ascii()),
                Input::Number(number) => writeln!(out, "let {name} = {number};"),
            })
    }
}

impl Drop for OnFailure<'_> {
    fn drop(&mut self) {
        if thread::panicking() {
            eprintln!("this case fails:\n{self}");
        }
    }
}
