//! Which forms of document 01 an accepted text holds, for counting.

use generate::tally::Tally;
use reference::program::{Part, PlannedRule, Program, Reading};
use reference::register::{Kind, Sizes};
use reference::rule::{Action, Comparison, Expression, Operator, Sort, Term};

/// Every form that is counted.
pub const FORMS: [&str; 19] = [
    "form: empty text",
    "form: loop on a reference",
    "form: loop on a measure",
    "form: empty step",
    "form: A[u] := X",
    "form: M[u] := X",
    "form: M[u] := X + Y",
    "form: M[u] := X - Y",
    "form: remote A[C] <?= X",
    "form: remote M[C] <?= X",
    "form: remote M[C] += X",
    "form: if A < B",
    "form: if M < N",
    "form: if A == B",
    "form: if M == N",
    "form: if A != B",
    "form: if M != N",
    "form: no test",
    "form: chain of 16 hops",
];

/// Counts the forms of a program.
pub fn count(tally: &mut Tally, program: &Program, sizes: &Sizes) {
    if program.parts.is_empty() {
        tally.count("form: empty text");
    }
    for part in &program.parts {
        match part {
            Part::Loop(field, _) if sizes.kind(*field) == Kind::Reference => {
                tally.count("form: loop on a reference");
            }
            Part::Loop(..) => tally.count("form: loop on a measure"),
            Part::Step(_) => (),
        }
    }
    for step in program.steps() {
        if step.rules.is_empty() {
            tally.count("form: empty step");
        }
        for rule in &step.rules {
            tally.count(action(rule, sizes));
            tally.count(test(rule, sizes));
            if rule.chains().any(|chain| chain.word.fields().len() == 16) {
                tally.count("form: chain of 16 hops");
            }
        }
    }
}

fn action(rule: &PlannedRule, sizes: &Sizes) -> &'static str {
    match (&rule.action, sizes.kind(rule.field)) {
        (Action::Local(Expression::Term(_)), Kind::Reference) => "form: A[u] := X",
        (Action::Local(Expression::Term(_)), Kind::Measure) => "form: M[u] := X",
        (Action::Local(Expression::Pair(Operator::Plus, ..)), _) => "form: M[u] := X + Y",
        (Action::Local(Expression::Pair(Operator::Minus, ..)), _) => "form: M[u] := X - Y",
        (Action::Local(_), _) => "form: another expression",
        (Action::Remote(Sort::Least, ..), Kind::Reference) => "form: remote A[C] <?= X",
        (Action::Remote(Sort::Least, ..), Kind::Measure) => "form: remote M[C] <?= X",
        (Action::Remote(Sort::Add, ..), _) => "form: remote M[C] += X",
    }
}

fn test(rule: &PlannedRule, sizes: &Sizes) -> &'static str {
    let Some(test) = &rule.test else {
        return "form: no test";
    };
    match (test.comparison, kind(&test.left.terms()[0], sizes)) {
        (Comparison::Less, Kind::Reference) => "form: if A < B",
        (Comparison::Less, Kind::Measure) => "form: if M < N",
        (Comparison::Equal, Kind::Reference) => "form: if A == B",
        (Comparison::Equal, Kind::Measure) => "form: if M == N",
        (Comparison::NotEqual, Kind::Reference) => "form: if A != B",
        (Comparison::NotEqual, Kind::Measure) => "form: if M != N",
    }
}

/// The kind of a term: a number is a measure, `u` a reference.
fn kind(term: &Term<Reading>, sizes: &Sizes) -> Kind {
    match term {
        Term::Number(_) => Kind::Measure,
        Term::Chain(reading) => match reading.word.fields() {
            [] => Kind::Reference,
            [.., outermost] => sizes.kind(usize::from(*outermost)),
        },
    }
}
