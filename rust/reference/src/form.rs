//! The forms of lines, which 7 looks at: any capital counts as a field letter, and
//! any kind, hop count, size of number, depth of groups or number of operators
//! passes. Spaces are free between tokens, but stand at neither end of a line.

use crate::chain::{ChainForm, skip_spaces};
use crate::expression_form::take_expression;
use crate::rule::{Action, Comparison, Operator, Rule, Sort, Term, Test};

/// A rule by its form alone.
#[derive(Clone, Debug, PartialEq, Eq)]
pub struct RuleForm<'a> {
    /// The rule; its expressions have lost their brackets.
    pub rule: Rule<ChainForm<'a>, u8>,
    /// How deep groups stand in each other, in the deepest of its expressions.
    pub groups: usize,
}

/// A line by its form alone.
#[derive(Clone, Debug, PartialEq, Eq)]
#[expect(
    clippy::large_enum_variant,
    reason = "a line is read and used at once, and most are rules"
)]
pub enum LineForm<'a> {
    /// `step`
    Step,
    /// `end`
    End,
    /// `loop F`
    Loop(u8),
    /// `done`
    Done,
    /// Any rule.
    Rule(RuleForm<'a>),
}

/// Something taken off the front of a text, and what is left behind it.
pub(crate) type Taken<'a, T> = Option<(T, &'a [u8])>;

/// A sign that may stand behind an operand or behind what is written.
#[derive(Clone, Copy, Debug, PartialEq, Eq)]
pub(crate) enum Sign {
    /// `:=`
    Becomes,
    /// `:`
    Colon,
    /// `<?=` or `+=`
    Write(Sort),
    Operator(Operator),
    Comparison(Comparison),
    /// `)`
    Close,
    /// The line's end.
    End,
}

/// Reads a line, which comes without its byte 10; none if it has no form.
pub fn read_line(line: &[u8]) -> Option<LineForm<'_>> {
    match line {
        b"step" => Some(LineForm::Step),
        b"end" => Some(LineForm::End),
        b"done" => Some(LineForm::Done),
        [b' ', ..] | [.., b' '] => None,
        _ => match take_word(line, b"loop") {
            None => read_rule(line).map(LineForm::Rule),
            Some([field @ b'A'..=b'Z']) => Some(LineForm::Loop(*field)),
            Some(_) => None,
        },
    }
}

/// What is left behind one of the words that keep a space behind them.
fn take_word<'a>(line: &'a [u8], word: &[u8]) -> Option<&'a [u8]> {
    let behind = line.strip_prefix(word)?.strip_prefix(b" ")?;
    Some(skip_spaces(behind))
}

fn read_rule(line: &[u8]) -> Option<RuleForm<'_>> {
    let (test, test_groups, line) = match take_word(line, b"if") {
        None => (None, 0, line),
        Some(line) => {
            let ((test, groups), line) = take_test(line)?;
            (Some(test), groups, line)
        }
    };
    let (field, action, groups) = match take_word(line, b"remote") {
        None => read_local(line)?,
        Some(line) => read_remote(line)?,
    };
    Some(RuleForm {
        rule: Rule {
            test,
            field,
            action,
        },
        groups: groups.max(test_groups),
    })
}

/// `X < Y:`, and how deep its groups are.
fn take_test(line: &[u8]) -> Taken<'_, (Test<ChainForm<'_>>, usize)> {
    let (left, line) = take_expression(line)?;
    let Sign::Comparison(comparison) = left.behind else {
        return None;
    };
    let (right, line) = take_expression(line)?;
    let test = Test {
        left: left.expression,
        comparison,
        right: right.expression,
    };
    (right.behind == Sign::Colon).then_some(((test, left.groups.max(right.groups)), line))
}

/// A field, what is done to it, and how deep the groups are.
type ActionForm<'a> = (u8, Action<ChainForm<'a>>, usize);

/// `F[u] := X`
fn read_local(line: &[u8]) -> Option<ActionForm<'_>> {
    let (written, line) = ChainForm::take_spaced(line)?;
    let (field, own) = written.split_outermost()?;
    let (Sign::Becomes, line) = take_sign(line)? else {
        return None;
    };
    let (x, _) = take_expression(line)?;
    let has_form = own.hops() == 0 && x.behind == Sign::End;
    has_form.then_some((field, Action::Local(x.expression), x.groups))
}

/// `F[C] <?= X` or `F[C] += X`
fn read_remote(line: &[u8]) -> Option<ActionForm<'_>> {
    let (written, line) = ChainForm::take_spaced(line)?;
    let (field, target) = written.split_outermost()?;
    let (Sign::Write(sort), line) = take_sign(line)? else {
        return None;
    };
    let (x, _) = take_expression(line)?;
    let action = Action::Remote(sort, target, x.expression);
    (x.behind == Sign::End).then_some((field, action, x.groups))
}

/// The longest sign that a text begins with, and the spaces behind it.
pub(crate) fn take_sign(text: &[u8]) -> Taken<'_, Sign> {
    let (sign, rest) = match text {
        [] => (Sign::End, text),
        [b'<', b'?', b'=', rest @ ..] => (Sign::Write(Sort::Least), rest),
        [b'<', b'?', rest @ ..] => (Sign::Operator(Operator::Smaller), rest),
        [b'<', rest @ ..] => (Sign::Comparison(Comparison::Less), rest),
        [b'=', b'=', rest @ ..] => (Sign::Comparison(Comparison::Equal), rest),
        [b'!', b'=', rest @ ..] => (Sign::Comparison(Comparison::NotEqual), rest),
        [b'+', b'=', rest @ ..] => (Sign::Write(Sort::Add), rest),
        [b'+', rest @ ..] => (Sign::Operator(Operator::Plus), rest),
        [b'-', rest @ ..] => (Sign::Operator(Operator::Minus), rest),
        [b':', b'=', rest @ ..] => (Sign::Becomes, rest),
        [b':', rest @ ..] => (Sign::Colon, rest),
        [b')', rest @ ..] => (Sign::Close, rest),
        _ => return None,
    };
    Some((sign, skip_spaces(rest)))
}

/// A term where an operand must begin: a minus belongs to the digits straight
/// after it.
pub(crate) fn take_term(text: &[u8]) -> Taken<'_, Term<ChainForm<'_>>> {
    match text {
        [b'-' | b'0'..=b'9', ..] => {
            let (number, rest) = take_number(text)?;
            Some((Term::Number(number), skip_spaces(rest)))
        }
        _ => {
            let (chain, rest) = ChainForm::take_spaced(text)?;
            Some((Term::Chain(chain), rest))
        }
    }
}

/// Optional minus, digits, no leading zero, no `-0`: centimetres. Or metres, where
/// a point and two digits follow; `-0.00` is refused as `-0` is. A third digit, or
/// a point without two, stays behind, where no form goes on with it. A number too
/// large for 64 bits counts as the largest of them, which is out of range as well.
fn take_number(text: &[u8]) -> Taken<'_, i64> {
    let (minus, text) = match text.strip_prefix(b"-") {
        None => (false, text),
        Some(text) => (true, text),
    };
    let (whole, rest) = text.split_at(text.iter().take_while(|byte| byte.is_ascii_digit()).count());
    if let [] | [b'0', _, ..] = whole {
        return None;
    }
    let (size, rest) = match rest {
        [b'.', tens @ b'0'..=b'9', ones @ b'0'..=b'9', rest @ ..] => {
            let metres = decimal(whole).saturating_mul(100);
            (metres.saturating_add(decimal(&[*tens, *ones])), rest)
        }
        _ => (decimal(whole), rest),
    };
    match (minus, size) {
        (true, 0) => None,
        (true, _) => Some((-size, rest)),
        (false, _) => Some((size, rest)),
    }
}

fn decimal(digits: &[u8]) -> i64 {
    digits.iter().fold(0, |size: i64, digit| {
        size.saturating_mul(10)
            .saturating_add(i64::from(digit - b'0'))
    })
}
