//! What an expression comes to at a record.

use crate::apply::Knowledge;
use crate::line_check::MAX_GROUPS;
use crate::program::Reading;
use crate::rule::{Expression, Node, Operator, Term};

/// What an expression comes to.
#[derive(Clone, Copy, Debug, PartialEq, Eq)]
pub enum Evaluated {
    /// An operand is missing, and no sum that is formed is out of range.
    Missing,
    /// The value.
    Value(i32),
    /// A sum whose operands are all filled is out of range, wherever it stands.
    OutOfRange,
}

impl From<Option<i32>> for Evaluated {
    fn from(read: Option<i32>) -> Evaluated {
        read.map_or(Evaluated::Missing, Evaluated::Value)
    }
}

/// The most operands that wait at a time: in each group, and outside of them, one
/// for a sum and one for a smaller; and the one that is read.
const MOST_WAITING: usize = 2 * (MAX_GROUPS + 1) + 1;

/// Evaluates an expression at a record.
#[inline]
pub fn evaluate(
    expression: &Expression<Reading>,
    record: usize,
    known: &impl Knowledge,
) -> Evaluated {
    match expression {
        Expression::Term(x) => value(x, record, known).into(),
        Expression::Pair(operator, [x, y]) => {
            let (x, y) = (value(x, record, known), value(y, record, known));
            operate(*operator, x, y)
        }
        Expression::Tree(terms, nodes) => evaluate_tree(terms, nodes, record, known),
    }
}

/// The operands that wait stand in a list, from left to right.
#[inline(never)]
fn evaluate_tree(
    terms: &[Term<Reading>],
    nodes: &[Node],
    record: usize,
    known: &impl Knowledge,
) -> Evaluated {
    let mut operands = [None; MOST_WAITING];
    let mut count = 0;
    let mut terms = terms.iter().map(|term| value(term, record, known));
    for node in nodes {
        let operand = match node {
            Node::Term => terms.next().flatten(),
            Node::Operator(operator) => {
                count -= 2;
                match operate(*operator, operands[count], operands[count + 1]) {
                    Evaluated::Missing => None,
                    Evaluated::Value(value) => Some(value),
                    Evaluated::OutOfRange => return Evaluated::OutOfRange,
                }
            }
        };
        operands[count] = operand;
        count += 1;
    }
    operands[0].into()
}

/// A missing operand makes the whole missing; a sum of filled ones must be in range.
#[inline]
fn operate(operator: Operator, x: Option<i32>, y: Option<i32>) -> Evaluated {
    let (Some(x), Some(y)) = (x, y) else {
        return Evaluated::Missing;
    };
    let formed = match operator {
        Operator::Plus => x.checked_add(y),
        Operator::Minus => x.checked_sub(y),
        Operator::Smaller => Some(x.min(y)),
    };
    formed.map_or(Evaluated::OutOfRange, Evaluated::Value)
}

#[inline]
fn value(term: &Term<Reading>, record: usize, known: &impl Knowledge) -> Option<i32> {
    match term {
        Term::Chain(reading) => known.read(reading, record),
        Term::Number(number) => Some(*number as i32),
    }
}
