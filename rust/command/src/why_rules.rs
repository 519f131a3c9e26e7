//! `plot why` with rules: which rules could have filled a field, what stopped each, and
//! what is behind that.

use crate::arguments::Arguments;
use crate::causes::{self, Cause, Causes, Roots, Rule};
use crate::failure::Failure;
use crate::names::Names;
use crate::sheet::Places;
use crate::show::counted;
use crate::stopping::{self, Place};
use crate::style::Style;
use crate::table::Table;
use crate::why::{Answer, behind};
use crate::{explain, gaps, json, run};
use plot::{End, Machine, Register};
use std::io;

/// The gaps behind a field that is unfilled after a run.
pub fn answer(
    arguments: &Arguments,
    register: &Register,
    names: &Names,
    field: &str,
) -> Result<Answer, Failure> {
    let field = field_called(register, names, field)?;
    let (name, text) = arguments.rules()?;
    let budget = run::budget(arguments)?;
    let run = register.run(&text, Machine::Messages, budget);
    let run = run.map_err(|refusal| explain::rules(&name, register.sizes(), &text, refusal))?;
    if run.end != End::Whole {
        let stopped = run::stopped(&name, Machine::Messages, budget, names, &run, None);
        return Err(stopped.expect_err("no trace is asked for"));
    }
    let rules = causes::rules(&text);
    let causes = Causes::of(&run.register, &rules);
    let records = 0..register.sizes().records;
    let unfilled = records.filter(|&record| gaps::is_gap(&run.register, record, field));
    let unfilled: Vec<Place> = unfilled.map(|record| (record, field)).collect();
    let roots = Roots::behind(&causes, &unfilled);
    let report = Report {
        names,
        rules: &rules,
        field,
        unfilled: &unfilled,
        roots: &roots,
    };
    Ok(report.answer(register.sizes().records))
}

/// The field with this letter or name.
fn field_called(register: &Register, names: &Names, word: &str) -> Result<char, Failure> {
    let mut fields = register.sizes().fields();
    let letter = fields.find(|field| field.to_string() == word);
    letter.or_else(|| names.field_called(word)).ok_or_else(|| {
        let fields = register.sizes().fields().map(String::from);
        let fields = fields.collect::<Vec<String>>().join(", ");
        Failure::Usage(format!("FIELD is one of {fields}, not {word:?}"))
    })
}

/// What is told about a field after a run.
struct Report<'a> {
    names: &'a Names,
    rules: &'a [Rule],
    field: char,
    unfilled: &'a [Place],
    roots: &'a Roots,
}

impl Report<'_> {
    fn answer(&self, records: usize) -> Answer {
        let ends = self.unfilled.iter().flat_map(|&gap| {
            let roots = self.roots.of(gap);
            roots.map(move |root| (root, gap.0))
        });
        let stops = stopping::grouped(ends);
        let field = self.names.field(self.field);
        let unfilled = self.unfilled.len();
        let of = counted(records, "record");
        Answer {
            summary: match unfilled {
                0 => format!("every record has {field} at the end, all {records}"),
                _ => format!(
                    "{unfilled} of {of} have no {field} at the end{}",
                    behind(&stops)
                ),
            },
            thing: "record",
            stops,
            behind: self.rules_told() + &self.table(),
            members: vec![
                ("field", json::string(&self.field.to_string())),
                ("records", records.to_string()),
                ("unfilled", unfilled.to_string()),
                ("stopped", self.json()),
            ],
        }
    }

    /// The rules that can fill the field.
    fn rules_told(&self) -> String {
        let field = self.names.field(self.field);
        let rules = self.rules.iter().filter(|rule| rule.field == self.field);
        let rules: String = rules
            .map(|rule| format!("  line {}: {}\n", rule.line, rule.text))
            .collect();
        match rules.is_empty() {
            true => format!("No rule fills {field}.\n"),
            false => format!("Rules that fill {field}:\n{rules}"),
        }
    }

    /// Each unfilled record with each rule, and why that has not filled it.
    fn stopped(&self) -> impl Iterator<Item = (Place, &Rule, &Cause)> {
        self.unfilled.iter().flat_map(move |&gap| {
            let causes = self.roots.causes.get(&gap).into_iter().flatten();
            causes.map(move |(rule, cause)| (gap, &self.rules[*rule], cause))
        })
    }

    fn table(&self) -> String {
        let headings = [">line", "stopped by", "behind that"].map(String::from);
        let headings = self.names.record_headings().into_iter().chain(headings);
        let mut table = Table::new(headings);
        let mut rows = 0;
        for ((record, _), rule, cause) in self.stopped() {
            let place = self.names.record_cells(record).into_iter();
            let (by, behind) = (self.by(cause), self.behind(cause));
            table.plain(place.chain([rule.line.to_string(), by, behind]));
            rows += 1;
        }
        match rows {
            0 => String::new(),
            _ => table.print(Style::of(&io::stdout())),
        }
    }

    /// What stopped a rule.
    fn by(&self, cause: &Cause) -> String {
        match cause {
            Cause::Gaps(gaps) => self.places(gaps.iter().copied()),
            Cause::Early => "nothing any more: run the rules again".to_owned(),
            Cause::Test => "its test, which does not hold".to_owned(),
            Cause::Range => "a number out of range, were it done now".to_owned(),
            Cause::Unreached => "no record writes to this one".to_owned(),
        }
    }

    /// The roots of the gaps, where they are others.
    fn behind(&self, cause: &Cause) -> String {
        let roots: Places = self.roots_of(cause);
        match roots.iter().eq(cause.gaps()) {
            true => String::new(),
            false => self.places(roots.into_iter()),
        }
    }

    fn roots_of(&self, cause: &Cause) -> Places {
        let gaps = cause.gaps().iter();
        gaps.flat_map(|&gap| self.roots.of(gap)).collect()
    }

    fn places(&self, places: impl Iterator<Item = Place>) -> String {
        let place = |(record, field)| {
            let circular = match self.roots.circular.contains(&(record, field)) {
                true => ", which waits for itself",
                false => "",
            };
            format!("{field} of {}{circular}", self.names.reference(record))
        };
        places.map(place).collect::<Vec<String>>().join("; ")
    }

    fn json(&self) -> String {
        let cells = |places: &mut dyn Iterator<Item = Place>| {
            json::list(places.map(|(u, field)| json::object(&self.names.cell_members(u, field))))
        };
        json::list(self.stopped().map(|((record, _), rule, cause)| {
            let why = match cause {
                Cause::Gaps(_) => "gaps",
                Cause::Early => "early",
                Cause::Test => "test",
                Cause::Range => "range",
                Cause::Unreached => "unreached",
            };
            let members = [
                ("line", rule.line.to_string()),
                ("why", json::string(why)),
                ("by", cells(&mut cause.gaps().iter().copied())),
                ("roots", cells(&mut self.roots_of(cause).into_iter())),
            ];
            json::object(&[self.names.record_members(record), members.to_vec()].concat())
        }))
    }
}
