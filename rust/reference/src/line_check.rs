//! The checks 9 to 12, 24 and 25 of a rule's letters, kinds, hops, numbers,
//! groups and operators.

use crate::chain::{ChainForm, MAX_HOPS, Word, letter_kind};
use crate::form::RuleForm;
use crate::refusal::Reason;
use crate::register::{Kind, Sizes};
use crate::rule::{Action, Expression, Rule, Sort, Term};

/// How deep groups may stand in each other.
pub const MAX_GROUPS: usize = 8;
/// The most operators of an expression, those of its groups included.
pub const MAX_OPERATORS: usize = 64;

/// Checks a rule that has a form by 9, 10, 11, 12, 24, 25, in this order.
pub fn check_rule(form: &RuleForm<'_>, sizes: &Sizes) -> Result<Rule<Word, usize>, Reason> {
    let rule = &form.rule;
    let field = sizes.field(rule.field).ok_or(Reason::NoSuchField)?;
    if !rule.chains().all(|chain| chain.is_named(sizes)) {
        return Err(Reason::NoSuchField);
    }
    if !kinds_agree(rule, sizes) {
        return Err(Reason::WrongKind);
    }
    if rule.chains().any(|chain| chain.hops() > MAX_HOPS) {
        return Err(Reason::TooManyHops);
    }
    if rule.terms().any(is_out_of_range) {
        return Err(Reason::NumberOutOfRange);
    }
    if form.groups > MAX_GROUPS {
        return Err(Reason::GroupsTooDeep);
    }
    let mut expressions = rule.expressions();
    if expressions.any(|one| one.operators() > MAX_OPERATORS) {
        return Err(Reason::TooManyOperators);
    }
    rule.try_map(field, |chain| Ok(chain.word(sizes)))
}

/// Both sides of a rule or test have the same kind; `+=` takes measures only; C is
/// of reference kind.
fn kinds_agree(rule: &Rule<ChainForm<'_>, u8>, sizes: &Sizes) -> bool {
    let field = letter_kind(rule.field, sizes);
    let takes_field = match &rule.action {
        Action::Remote(Sort::Add, ..) => field == Kind::Measure,
        Action::Local(_) | Action::Remote(Sort::Least, ..) => true,
    };
    let sides_agree = is_of_kind(rule.action.expression(), field, sizes);
    let test_agrees = rule.test.iter().all(|test| {
        let kind = term_kind(&test.left.terms()[0], sizes);
        is_of_kind(&test.left, kind, sizes) && is_of_kind(&test.right, kind, sizes)
    });
    let mut target = rule.action.target().into_iter();
    takes_field
        && sides_agree
        && test_agrees
        && target.all(|chain| chain.kind(sizes) == Kind::Reference)
        && rule.chains().all(|chain| chain.is_well_kinded(sizes))
}

/// All terms of an expression are of this kind, and a `+` or `-` anywhere in it
/// takes measures only.
fn is_of_kind(expression: &Expression<ChainForm<'_>>, kind: Kind, sizes: &Sizes) -> bool {
    let mut terms = expression.terms().iter();
    terms.all(|term| term_kind(term, sizes) == kind)
        && (kind == Kind::Measure || !expression.has_sum())
}

/// The kind of a chain, or that of a number, which is a measure.
fn term_kind(term: &Term<ChainForm<'_>>, sizes: &Sizes) -> Kind {
    match term {
        Term::Chain(chain) => chain.kind(sizes),
        Term::Number(_) => Kind::Measure,
    }
}

/// A number outside the range of sums.
fn is_out_of_range(term: &Term<ChainForm<'_>>) -> bool {
    matches!(term, Term::Number(number) if i32::try_from(*number).is_err())
}
