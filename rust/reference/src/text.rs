//! "The rules text": the check of a text, line by line, lowest number first.

use crate::chain::Word;
use crate::form::{LineForm, RuleForm, read_line};
use crate::line_check::check_rule;
use crate::program::{Part, Program, Step};
use crate::refusal::{Reason, Refusal};
use crate::register::{Register, Sizes};
use crate::rule::Rule;

/// The most bytes of a text.
pub const MAX_BYTES: usize = 8192;
/// The most steps of a text.
pub const MAX_STEPS: usize = 32;
/// The most rules of a step.
pub const MAX_RULES: usize = 32;

/// Checks a text for a register: the register is looked at first.
pub fn check(register: &[u8], text: &[u8]) -> Result<Program, Refusal> {
    read_text(text, &Register::load(register)?.sizes)
}

/// The step of this number of a text that passes, or 17.
pub fn check_step(register: &[u8], text: &[u8], step: u64) -> Result<Step, Refusal> {
    let program = check(register, text)?;
    Ok(program.step(step).ok_or(Reason::NoSuchStep)?.clone())
}

/// Reads a text for a register of these sizes.
pub fn read_text(text: &[u8], sizes: &Sizes) -> Result<Program, Refusal> {
    if text.len() > MAX_BYTES {
        return Err(Reason::TextTooLong.at(0));
    }
    let mut reader = Reader::new(sizes);
    let mut lines = 0;
    for line in text.split_inclusive(|&byte| byte == b'\n') {
        lines += 1;
        reader.line(line).map_err(|reason| reason.at(lines))?;
    }
    reader.close().map_err(|reason| reason.at(lines + 1))
}

/// What has been read of a text so far.
struct Reader<'a> {
    sizes: &'a Sizes,
    program: Program,
    steps: usize,
    /// The field of the open loop, and the steps closed in it.
    open_loop: Option<(usize, Vec<Step>)>,
    /// The rules of the open step.
    open_step: Option<Vec<Rule<Word, usize>>>,
}

impl<'a> Reader<'a> {
    fn new(sizes: &'a Sizes) -> Reader<'a> {
        Reader {
            sizes,
            program: Program::default(),
            steps: 0,
            open_loop: None,
            open_step: None,
        }
    }

    fn line(&mut self, line: &[u8]) -> Result<(), Reason> {
        let line = line.strip_suffix(b"\n").ok_or(Reason::NoSuchLine)?;
        match read_line(line).ok_or(Reason::NoSuchLine)? {
            LineForm::Step => self.open_step(),
            LineForm::End => self.close_step(),
            LineForm::Loop(letter) => self.open_loop(letter),
            LineForm::Done => self.close_loop(),
            LineForm::Rule(form) => self.rule(&form),
        }
    }

    fn open_step(&mut self) -> Result<(), Reason> {
        if self.open_step.is_some() {
            return Err(Reason::OutOfPlace);
        }
        if self.steps == MAX_STEPS {
            return Err(Reason::TooManyStepsOrRules);
        }
        self.steps += 1;
        self.open_step = Some(Vec::new());
        Ok(())
    }

    fn close_step(&mut self) -> Result<(), Reason> {
        let rules = self.open_step.take().ok_or(Reason::OutOfPlace)?;
        let step = Step::of(&rules).map_err(|_| Reason::TooManyPlanLines)?;
        match &mut self.open_loop {
            None => self.program.parts.push(Part::Step(step)),
            Some((_, steps)) => steps.push(step),
        }
        Ok(())
    }

    /// A loop stands outside steps and holds no loop.
    fn open_loop(&mut self, letter: u8) -> Result<(), Reason> {
        if self.open_step.is_some() || self.open_loop.is_some() {
            return Err(Reason::OutOfPlace);
        }
        let field = self.sizes.field(letter).ok_or(Reason::NoSuchField)?;
        self.open_loop = Some((field, Vec::new()));
        Ok(())
    }

    /// A loop holds at least one step.
    fn close_loop(&mut self) -> Result<(), Reason> {
        if self.open_step.is_some() {
            return Err(Reason::OutOfPlace);
        }
        let (field, steps) = self.open_loop.take().ok_or(Reason::OutOfPlace)?;
        if steps.is_empty() {
            return Err(Reason::OutOfPlace);
        }
        self.program.parts.push(Part::Loop(field, steps));
        Ok(())
    }

    fn rule(&mut self, form: &RuleForm<'_>) -> Result<(), Reason> {
        let rules = self.open_step.as_mut().ok_or(Reason::OutOfPlace)?;
        let rule = check_rule(form, self.sizes)?;
        if rules.len() == MAX_RULES {
            return Err(Reason::TooManyStepsOrRules);
        }
        if rules.iter().any(|earlier| differ_in_sort(earlier, &rule)) {
            return Err(Reason::TwoRemoteSorts);
        }
        rules.push(rule);
        Ok(())
    }

    fn close(self) -> Result<Program, Reason> {
        match (self.open_step, self.open_loop) {
            (None, None) => Ok(self.program),
            _ => Err(Reason::OutOfPlace),
        }
    }
}

/// Two sorts of remote write to one field.
fn differ_in_sort(one: &Rule<Word, usize>, other: &Rule<Word, usize>) -> bool {
    let sorts = one.remote_sort().zip(other.remote_sort());
    one.field == other.field && sorts.is_some_and(|(one, other)| one != other)
}
