//! Rules texts that have passed the check for a register.

use crate::lent::{self, Answer, PlanBuffers};
use crate::refusal::passed;
use crate::run::{self, Machine, Run};
use crate::{Plan, Refusal, Register};

/// A rules text that has passed the check for a register.
///
/// ```
/// use plot::{Kind, Machine, Register, Sizes, Text};
/// let sizes = Sizes { records: 2, references: 1, measures: 1 };
/// let register = Register::from_cells(sizes, &[Some(1), None, None, Some(180)])?;
///
/// let text = Text::check(&register, "step\nM[u] := M[A[u]]\nend\n")?;
/// assert_eq!(text.steps(), 1);
/// let run = text.run(Machine::Messages, 1000);
/// assert_eq!(run.register.read("M[u]", 0)?, Some(180));
///
/// let refusal = Text::check(&register, "step\nM[u] := B[u]\nend\n").unwrap_err();
/// assert_eq!((refusal.kind, refusal.line), (Kind::Field, 2));
/// # Ok::<(), plot::Refusal>(())
/// ```
#[derive(Clone, Debug)]
pub struct Text<'a> {
    register: &'a Register,
    text: Vec<u8>,
    steps: usize,
    most_lines: usize,
}

/// What the messages of a plan line hold, one place for each record as origin,
/// `None` where none was sent: the value read (Read) or the addressee (Back).
pub type Messages = Vec<Option<i32>>;

impl<'a> Text<'a> {
    /// Checks a text for a register. Refusal 6 to 15, 24 or 25.
    pub fn check(register: &'a Register, text: impl Into<Vec<u8>>) -> Result<Text<'a>, Refusal> {
        let text = text.into();
        let mut answer = Answer::default();
        let number = lent::check(register.as_bytes(), &text, &mut answer);
        passed(number, &answer)?;
        Ok(Text {
            register,
            text,
            steps: answer[lent::STEPS] as usize,
            most_lines: answer[lent::MOST_LINES] as usize,
        })
    }

    /// The number of its steps.
    pub fn steps(&self) -> usize {
        self.steps
    }

    /// The most plan lines of any of its steps.
    pub fn most_lines(&self) -> usize {
        self.most_lines
    }

    /// The plan of a step; steps count from 1. Refusal 17 where there is none.
    pub fn plan(&self, step: usize) -> Result<Plan, Refusal> {
        let mut buffers = PlanBuffers::default();
        let mut answer = Answer::default();
        let file = self.register.as_bytes();
        let number = lent::plan(file, &self.text, step as u64, &mut buffers, &mut answer);
        passed(number, &answer)?;
        Ok(Plan::taken_from(&buffers, &answer))
    }

    /// The messages that a step, taken by itself over the register, has sent in
    /// its rounds 1 to `round`, for each of its plan lines. Refusal 17 where there
    /// is no such step.
    ///
    /// ```
    /// # use plot::{Register, Sizes, Text};
    /// let sizes = Sizes { records: 2, references: 1, measures: 1 };
    /// let register = Register::from_cells(sizes, &[Some(1), None, Some(1), Some(180)])?;
    /// let text = Text::check(&register, "step\nM[u] := M[A[A[u]]]\nend\n")?;
    /// assert_eq!(text.inspect(1, 1)?[0], [Some(1), Some(1)]);
    /// assert_eq!(text.inspect(1, 1)?[2], [None, None]);
    /// assert_eq!(text.inspect(1, 3)?[2], [Some(180), Some(180)]);
    /// # Ok::<(), plot::Refusal>(())
    /// ```
    pub fn inspect(&self, step: usize, round: u16) -> Result<Vec<Messages>, Refusal> {
        let places = self.register.places(self.most_lines);
        let (mut values, mut marks) = (vec![0; places], vec![0; places]);
        let mut answer = Answer::default();
        let file = self.register.as_bytes();
        let number = lent::inspect(
            file,
            &self.text,
            step as u64,
            round,
            &mut values,
            &mut marks,
            &mut answer,
        );
        passed(number, &answer)?;
        let records = self.register.sizes().records;
        let message = |place: usize| (marks[place] == 1).then_some(values[place] as i32);
        let line = |i: usize| (i * records..(i + 1) * records).map(message).collect();
        Ok((0..answer[lent::LINES] as usize).map(line).collect())
    }

    /// Runs the text over its register, at most `budget` steps. The working arrays
    /// have the length that this text asks for.
    pub fn run(&self, machine: Machine, budget: u16) -> Run {
        let places = self.register.places(self.most_lines);
        let run = run::run(self.register, &self.text, machine, budget, places);
        run.expect("a text that has passed runs")
    }
}
