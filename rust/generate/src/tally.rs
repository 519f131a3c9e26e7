//! How often each answer came up.

use std::collections::BTreeMap;
use std::io::Write;

/// Counts by what was answered.
#[derive(Clone, Debug, Default)]
pub struct Tally {
    counts: BTreeMap<String, u64>,
}

impl Tally {
    /// Counts an answer.
    pub fn count(&mut self, answer: &str) {
        self.add(answer, 1);
    }

    /// Counts an answer so many times.
    pub fn add(&mut self, answer: &str, times: u64) {
        match self.counts.get_mut(answer) {
            Some(count) => *count += times,
            None => drop(self.counts.insert(answer.to_owned(), times)),
        }
    }

    /// How often an answer came up.
    pub fn of(&self, answer: &str) -> u64 {
        self.counts.get(answer).copied().unwrap_or(0)
    }

    /// Prints every count, also where a test's output is captured.
    pub fn print(&self, title: &str) {
        let mut out = std::io::stdout().lock();
        let mut print = || -> std::io::Result<()> {
            writeln!(out, "{title}")?;
            for (answer, count) in &self.counts {
                writeln!(out, "  {answer:<28} {count:>9}")?;
            }
            Ok(())
        };
        print().expect("standard output takes the counts");
    }

    /// Fails unless each of these answers came up so often.
    pub fn require<S: AsRef<str>>(&self, least: u64, answers: &[S]) {
        for answer in answers.iter().map(S::as_ref) {
            let count = self.of(answer);
            assert!(count >= least, "{answer}: {count} times, not {least}");
        }
    }
}
