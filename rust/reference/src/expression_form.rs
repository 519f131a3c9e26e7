//! Expressions by their form alone: operands joined by `+`, `-` and `<?`, an operand
//! being a term or an expression in round brackets. `<?` binds tighter; equal ranks
//! go from left to right.

use crate::chain::{ChainForm, skip_spaces};
use crate::form::{Sign, Taken, take_sign, take_term};
use crate::rule::{Expression, Node, Operator, Term};

/// An expression as it is read.
pub(crate) struct ExpressionForm<'a> {
    /// Its tree.
    pub(crate) expression: Expression<ChainForm<'a>>,
    /// How deep groups stand in each other, spare ones counted.
    pub(crate) groups: usize,
    /// The sign that ends it.
    pub(crate) behind: Sign,
}

/// Takes an expression and the sign behind it, which neither goes on with it nor
/// closes a group of it.
pub(crate) fn take_expression(text: &[u8]) -> Taken<'_, ExpressionForm<'_>> {
    take_short(text).or_else(|| take_any(text))
}

/// A term, or two terms and an operator between them; none for all else, and for
/// what has no form.
fn take_short(text: &[u8]) -> Taken<'_, ExpressionForm<'_>> {
    let (x, rest) = take_term(text)?;
    let (behind, rest) = take_sign(rest)?;
    let Sign::Operator(operator) = behind else {
        return Some((short(Expression::Term(x), behind), rest));
    };
    let (y, rest) = take_term(rest)?;
    match take_sign(rest)? {
        (Sign::Operator(_), _) => None,
        (behind, rest) => Some((short(Expression::Pair(operator, [x, y]), behind), rest)),
    }
}

fn short(expression: Expression<ChainForm<'_>>, behind: Sign) -> ExpressionForm<'_> {
    ExpressionForm {
        expression,
        groups: 0,
        behind,
    }
}

/// What waits for the operand that is to come.
#[derive(Clone, Copy)]
enum Waiting {
    /// A group that is open.
    Group,
    /// An operator whose left operand is read.
    Operator(Operator),
}

/// An expression in work. The groups and operators that wait stand in a list, so
/// that groups may stand in each other as deep as a line is long.
#[derive(Default)]
struct Reader<'a> {
    terms: Vec<Term<ChainForm<'a>>>,
    nodes: Vec<Node>,
    waiting: Vec<Waiting>,
    open: usize,
    groups: usize,
}

fn take_any(text: &[u8]) -> Taken<'_, ExpressionForm<'_>> {
    let mut reader = Reader::default();
    let mut rest = text;
    loop {
        rest = reader.operand(rest)?;
        let (sign, behind) = take_sign(rest)?;
        rest = behind;
        match sign {
            Sign::Operator(operator) => reader.operator(operator),
            behind => return Some((reader.end(behind)?, rest)),
        }
    }
}

impl<'a> Reader<'a> {
    /// Groups that open, a term, and groups that close behind it.
    fn operand(&mut self, text: &'a [u8]) -> Option<&'a [u8]> {
        let mut rest = text;
        while let [b'(', behind @ ..] = rest {
            rest = skip_spaces(behind);
            self.waiting.push(Waiting::Group);
            self.open += 1;
        }
        self.groups = self.groups.max(self.open);
        let (term, mut rest) = take_term(rest)?;
        self.terms.push(term);
        self.nodes.push(Node::Term);
        while let [b')', behind @ ..] = rest {
            rest = skip_spaces(behind);
            self.open = self.open.checked_sub(1)?;
            self.join(0);
            self.waiting.pop();
        }
        Some(rest)
    }

    /// An operator: what binds as tight to its left goes first.
    fn operator(&mut self, operator: Operator) {
        self.join(rank(operator));
        self.waiting.push(Waiting::Operator(operator));
    }

    /// Joins what waits in the innermost group and binds at least as tight as this.
    fn join(&mut self, least: u8) {
        while let Some(&Waiting::Operator(operator)) = self.waiting.last()
            && rank(operator) >= least
        {
            self.waiting.pop();
            self.nodes.push(Node::Operator(operator));
        }
    }

    /// The expression, if all its groups are closed.
    fn end(mut self, behind: Sign) -> Option<ExpressionForm<'a>> {
        self.join(0);
        self.waiting.is_empty().then(|| ExpressionForm {
            expression: Expression::of(self.terms, self.nodes),
            groups: self.groups,
            behind,
        })
    }
}

/// How tight an operator binds.
fn rank(operator: Operator) -> u8 {
    match operator {
        Operator::Plus | Operator::Minus => 1,
        Operator::Smaller => 2,
    }
}
