//! The steps of a rules text that has passed: the text of each, and the loop that it
//! stands in. The library has looked at the text; this only finds the lines.

use crate::draft::{Draft, Line, Role};

/// A step of a text.
#[derive(Clone, Debug, PartialEq, Eq)]
pub struct Step {
    /// Its number, counted from 1.
    pub number: usize,
    /// Its rules, each without its line break.
    pub rules: Vec<String>,
}

impl Step {
    /// It alone, as a text.
    pub fn text(&self) -> String {
        text_of(&self.rules)
    }
}

/// A text of one step with these rules.
pub fn text_of(rules: &[String]) -> String {
    let rules: String = rules.iter().map(|rule| format!("{rule}\n")).collect();
    format!("step\n{rules}end\n")
}

/// A step by itself, or a loop.
#[derive(Clone, Debug, PartialEq, Eq)]
pub struct Part {
    /// The field of the loop.
    pub field: Option<char>,
    /// Its steps.
    pub steps: Vec<Step>,
}

/// The parts of a text that has passed.
pub fn parts(text: &[u8]) -> Vec<Part> {
    let mut parts: Vec<Part> = Vec::new();
    let (mut steps, mut looped) = (0, false);
    for line in Draft::of(text).lines() {
        match line.role() {
            Role::Loop => {
                looped = true;
                parts.push(Part {
                    field: line.content().last().map(|&byte| char::from(byte)),
                    steps: Vec::new(),
                });
            }
            Role::Done => looped = false,
            Role::Step => {
                steps += 1;
                begin_step(&mut parts, looped, steps);
            }
            Role::End => {}
            Role::Other => add_rule(&mut parts, line),
        }
    }
    parts
}

fn begin_step(parts: &mut Vec<Part>, looped: bool, number: usize) {
    if !looped {
        parts.push(Part {
            field: None,
            steps: Vec::new(),
        });
    }
    if let Some(part) = parts.last_mut() {
        part.steps.push(Step {
            number,
            rules: Vec::new(),
        });
    }
}

fn add_rule(parts: &mut [Part], line: &Line) {
    let step = parts.last_mut().and_then(|part| part.steps.last_mut());
    if let Some(step) = step {
        let rule = String::from_utf8_lossy(line.content());
        step.rules.push(rule.into_owned());
    }
}

/// The steps of a text that has passed, in their order.
pub fn steps(text: &[u8]) -> Vec<Step> {
    parts(text)
        .into_iter()
        .flat_map(|part| part.steps)
        .collect()
}
