//! Where sums of a step are out of range (M-105 of document 02): each rule's
//! expressions are worked out again, with numbers of any size.

use reference::program::{PlannedRule, Reading, Step};
use reference::reading::follow;
use reference::register::Register;
use reference::rule::{Action, Comparison, Expression, Node, Operator, Term};

/// What became of a sum that is out of range.
#[derive(Clone, Copy, Debug, PartialEq, Eq, PartialOrd, Ord)]
pub enum Fate {
    /// The whole is out of range.
    Outside,
    /// The whole is unfilled.
    Unfilled,
    /// An outer sum has brought it back into range.
    BroughtBack,
    /// It is not the smaller of a `<?`.
    Losing,
}

/// Where a sum stands that is out of range.
#[derive(Clone, Copy, Debug, PartialEq, Eq, PartialOrd, Ord)]
pub enum Stands {
    /// What a local rule stores.
    Local,
    /// A side of a test that then holds.
    TestHolds,
    /// A side of a test that does not hold.
    TestFails,
    /// A side of a test whose other side is unfilled.
    OtherSideUnfilled,
    /// A side of a test that is unfilled itself, its other side being filled.
    OwnSideUnfilled,
    /// A remote amount, C being filled.
    AmountTargetFilled,
    /// A remote amount, C being unfilled.
    AmountTargetUnfilled,
}

/// A sum that is out of range.
#[derive(Clone, Copy, Debug, PartialEq, Eq)]
pub struct Offence {
    /// The record that forms it.
    pub record: usize,
    /// The field that the rule writes.
    pub field: usize,
    /// Where it stands.
    pub stands: Stands,
    /// What became of it.
    pub fate: Fate,
}

/// All sums of a step over a register that are out of range, by records, then rules.
pub fn offences(step: &Step, register: &Register<'_>) -> Vec<Offence> {
    let records = 0..register.sizes.records;
    let at_record = |record| {
        let rules = step.rules.iter();
        rules.flat_map(move |rule| of_rule(rule, register, record))
    };
    records.flat_map(at_record).collect()
}

/// What an expression comes to, and the fates of its sums that are out of range.
struct Worth {
    value: Option<i128>,
    fates: Vec<Fate>,
}

fn of_rule(rule: &PlannedRule, register: &Register<'_>, record: usize) -> Vec<Offence> {
    let worth = |expression| whole(expression, register, record);
    let offence = |stands| {
        let field = rule.field;
        move |fate: &Fate| Offence {
            record,
            field,
            stands,
            fate: *fate,
        }
    };
    let mut offences = Vec::new();
    if let Some(test) = &rule.test {
        let (left, right) = (worth(&test.left), worth(&test.right));
        let holds = left
            .value
            .zip(right.value)
            .map(|(x, y)| match test.comparison {
                Comparison::Less => x < y,
                Comparison::Equal => x == y,
                Comparison::NotEqual => x != y,
            });
        for (own, other) in [(&left, &right), (&right, &left)] {
            let stands = match (holds, other.value) {
                (Some(true), _) => Stands::TestHolds,
                (Some(false), _) => Stands::TestFails,
                (None, None) => Stands::OtherSideUnfilled,
                (None, Some(_)) => Stands::OwnSideUnfilled,
            };
            offences.extend(own.fates.iter().map(offence(stands)));
        }
        if !offences.is_empty() || holds != Some(true) {
            return offences;
        }
    }
    let stands = match &rule.action {
        Action::Local(_) => Stands::Local,
        Action::Remote(_, target, _) => match read(target, register, record) {
            Some(_) => Stands::AmountTargetFilled,
            None => Stands::AmountTargetUnfilled,
        },
    };
    let fates = worth(rule.action.expression()).fates;
    fates.iter().map(offence(stands)).collect()
}

fn whole(expression: &Expression<Reading>, register: &Register<'_>, record: usize) -> Worth {
    let term = |term: &Term<Reading>| Worth {
        value: match term {
            Term::Chain(chain) => read(chain, register, record),
            Term::Number(number) => Some(i128::from(*number)),
        },
        fates: Vec::new(),
    };
    let mut worth = match expression {
        Expression::Term(x) => term(x),
        Expression::Pair(operator, [x, y]) => operated(*operator, term(x), term(y)),
        Expression::Tree(terms, nodes) => {
            let mut terms = terms.iter().map(term);
            let mut operands = Vec::new();
            for node in nodes {
                let next = match node {
                    Node::Term => terms.next().expect("a term for each node that is one"),
                    Node::Operator(operator) => {
                        let y = operands.pop().expect("an operator has two operands");
                        let x = operands.pop().expect("an operator has two operands");
                        operated(*operator, x, y)
                    }
                };
                operands.push(next);
            }
            operands.pop().expect("a tree has a root")
        }
    };
    if worth.value.is_none() {
        worth.fates.fill(Fate::Unfilled);
    }
    worth
}

fn operated(operator: Operator, mut x: Worth, mut y: Worth) -> Worth {
    let become_of = |worth: &mut Worth, fate| {
        let outside = worth.fates.iter_mut().filter(|one| **one == Fate::Outside);
        outside.for_each(|one| *one = fate);
    };
    let value = x.value.zip(y.value).map(|(left, right)| match operator {
        Operator::Plus => left + right,
        Operator::Minus => left - right,
        Operator::Smaller => left.min(right),
    });
    let in_range = value.is_some_and(|value| i32::try_from(value).is_ok());
    if operator == Operator::Smaller {
        match x.value.zip(y.value) {
            Some((left, right)) if left < right => become_of(&mut y, Fate::Losing),
            Some((left, right)) if right < left => become_of(&mut x, Fate::Losing),
            _ => (),
        }
    } else if in_range {
        become_of(&mut x, Fate::BroughtBack);
        become_of(&mut y, Fate::BroughtBack);
    }
    let mut fates = [x.fates, y.fates].concat();
    if operator != Operator::Smaller && value.is_some() && !in_range {
        fates.push(Fate::Outside);
    }
    Worth { value, fates }
}

fn read(chain: &Reading, register: &Register<'_>, record: usize) -> Option<i128> {
    let cell = |record, field| register.cell(record, field);
    follow(&chain.word, record, cell).map(i128::from)
}
