//! "The rules text": what a rule is made of.
//!
//! A rule is the same thing by its form (chains as text, fields as letters), once
//! checked (hop words, fields as numbers) and once planned (readings). So it is
//! generic in its chains `C` and its fields `F`.

/// A term X or Y.
#[derive(Clone, Copy, Debug, PartialEq, Eq)]
pub enum Term<C> {
    /// A chain.
    Chain(C),
    /// A number, which is a measure.
    Number(i64),
}

/// The sign between the two sides of a test.
#[derive(Clone, Copy, Debug, PartialEq, Eq)]
pub enum Comparison {
    /// `<`
    Less,
    /// `==`
    Equal,
    /// `!=`
    NotEqual,
}

/// What joins two operands.
#[derive(Clone, Copy, Debug, PartialEq, Eq)]
pub enum Operator {
    /// `+`
    Plus,
    /// `-`
    Minus,
    /// `<?`, the smaller
    Smaller,
}

/// An expression by its tree: how it is bracketed in the text leaves no trace.
/// Each tree has one of the cases, and stands in it in one way.
#[derive(Clone, Debug, PartialEq, Eq)]
pub enum Expression<C> {
    /// No operator: a term.
    Term(Term<C>),
    /// One operator, between two terms.
    Pair(Operator, [Term<C>; 2]),
    /// Two operators or more: the terms from left to right, and how they are joined.
    Tree(Vec<Term<C>>, Vec<Node>),
}

/// A node of a tree. They stand from left to right, an operator behind both of
/// its operands.
#[derive(Clone, Copy, Debug, PartialEq, Eq)]
pub enum Node {
    /// The next term.
    Term,
    /// An operator, which joins the two operands that end before it.
    Operator(Operator),
}

/// `if X < Y: `
#[derive(Clone, Debug, PartialEq, Eq)]
pub struct Test<C> {
    /// X
    pub left: Expression<C>,
    /// `<`, `==` or `!=`
    pub comparison: Comparison,
    /// Y
    pub right: Expression<C>,
}

/// The sort of a remote write.
#[derive(Clone, Copy, Debug, PartialEq, Eq)]
pub enum Sort {
    /// `<?=`
    Least,
    /// `+=`
    Add,
}

/// What a rule does to its field F.
#[derive(Clone, Debug, PartialEq, Eq)]
pub enum Action<C> {
    /// `F[u] := X`
    Local(Expression<C>),
    /// `remote F[C] <?= X` or `remote F[C] += X`
    Remote(Sort, C, Expression<C>),
}

/// A rule.
#[derive(Clone, Debug, PartialEq, Eq)]
pub struct Rule<C, F> {
    /// The test before it, if any.
    pub test: Option<Test<C>>,
    /// F, the field that is written.
    pub field: F,
    /// How it is written.
    pub action: Action<C>,
}

impl<C> Term<C> {
    /// The chain, if it is one.
    pub fn chain(&self) -> Option<&C> {
        match self {
            Term::Chain(chain) => Some(chain),
            Term::Number(_) => None,
        }
    }

    fn try_map<D, E>(&self, map: &mut impl FnMut(&C) -> Result<D, E>) -> Result<Term<D>, E> {
        match self {
            Term::Chain(chain) => map(chain).map(Term::Chain),
            Term::Number(number) => Ok(Term::Number(*number)),
        }
    }
}

impl<C> Expression<C> {
    /// The expression of some terms and nodes, which are those of one tree.
    pub fn of(mut terms: Vec<Term<C>>, nodes: Vec<Node>) -> Expression<C> {
        match (&nodes[..], terms.pop(), terms.pop()) {
            ([Node::Term], Some(x), None) => Expression::Term(x),
            ([_, _, Node::Operator(operator)], Some(y), Some(x)) => {
                Expression::Pair(*operator, [x, y])
            }
            (_, last, before) => {
                terms.extend(before.into_iter().chain(last));
                Expression::Tree(terms, nodes)
            }
        }
    }

    /// Its terms from left to right.
    pub fn terms(&self) -> &[Term<C>] {
        match self {
            Expression::Term(x) => std::slice::from_ref(x),
            Expression::Pair(_, terms) => terms,
            Expression::Tree(terms, _) => terms,
        }
    }

    /// The number of its operators.
    pub fn operators(&self) -> usize {
        self.terms().len() - 1
    }

    /// Whether a `+` or `-` stands anywhere in it.
    pub fn has_sum(&self) -> bool {
        match self {
            Expression::Term(_) => false,
            Expression::Pair(operator, _) => *operator != Operator::Smaller,
            Expression::Tree(_, nodes) => nodes
                .iter()
                .any(|node| !matches!(node, Node::Term | Node::Operator(Operator::Smaller))),
        }
    }

    fn try_map<D, E>(&self, map: &mut impl FnMut(&C) -> Result<D, E>) -> Result<Expression<D>, E> {
        Ok(match self {
            Expression::Term(x) => Expression::Term(x.try_map(map)?),
            Expression::Pair(operator, [x, y]) => {
                Expression::Pair(*operator, [x.try_map(map)?, y.try_map(map)?])
            }
            Expression::Tree(terms, nodes) => {
                let terms = terms.iter().map(|term| term.try_map(map));
                Expression::Tree(terms.collect::<Result<_, _>>()?, nodes.clone())
            }
        })
    }
}

impl<C> Test<C> {
    fn try_map<D, E>(&self, map: &mut impl FnMut(&C) -> Result<D, E>) -> Result<Test<D>, E> {
        Ok(Test {
            left: self.left.try_map(map)?,
            comparison: self.comparison,
            right: self.right.try_map(map)?,
        })
    }
}

impl<C> Action<C> {
    /// The chain C of a remote write.
    pub fn target(&self) -> Option<&C> {
        match self {
            Action::Remote(_, target, _) => Some(target),
            Action::Local(_) => None,
        }
    }

    /// X
    pub fn expression(&self) -> &Expression<C> {
        match self {
            Action::Local(x) | Action::Remote(_, _, x) => x,
        }
    }

    fn try_map<D, E>(&self, map: &mut impl FnMut(&C) -> Result<D, E>) -> Result<Action<D>, E> {
        Ok(match self {
            Action::Local(x) => Action::Local(x.try_map(map)?),
            Action::Remote(sort, target, x) => Action::Remote(*sort, map(target)?, x.try_map(map)?),
        })
    }
}

impl<C, F> Rule<C, F> {
    /// The sort of remote write that it makes; none for a local rule.
    pub fn remote_sort(&self) -> Option<Sort> {
        match self.action {
            Action::Remote(sort, ..) => Some(sort),
            Action::Local(_) => None,
        }
    }

    /// Its expressions from left to right: the test's sides, then the action's.
    pub fn expressions(&self) -> impl Iterator<Item = &Expression<C>> {
        let test = self.test.iter().flat_map(|test| [&test.left, &test.right]);
        test.chain([self.action.expression()])
    }

    /// Its terms from left to right.
    pub fn terms(&self) -> impl Iterator<Item = &Term<C>> {
        let [left, right] = match &self.test {
            None => [&[][..]; 2],
            Some(test) => [test.left.terms(), test.right.terms()],
        };
        let action = self.action.expression().terms();
        left.iter().chain(right).chain(action)
    }

    /// Its chains, the remote target among them, in no order that matters.
    pub fn chains(&self) -> impl Iterator<Item = &C> {
        self.action
            .target()
            .into_iter()
            .chain(self.terms().filter_map(Term::chain))
    }

    /// The same rule with another field and other chains, which are taken from
    /// left to right, C standing for the remote target.
    pub fn try_map<D, G, E>(
        &self,
        field: G,
        mut map: impl FnMut(&C) -> Result<D, E>,
    ) -> Result<Rule<D, G>, E> {
        let test = self
            .test
            .as_ref()
            .map(|test| test.try_map(&mut map))
            .transpose()?;
        let action = self.action.try_map(&mut map)?;
        Ok(Rule {
            test,
            field,
            action,
        })
    }
}
