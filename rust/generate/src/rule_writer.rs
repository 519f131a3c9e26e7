//! Rules that are right by themselves, and fit each other within a step.

use crate::chains;
use crate::metres;
use crate::random::Random;
use crate::registers;
use crate::texts::Shape;
use reference::register::{Kind, Sizes};
use reference::rule::Sort;

/// Writes the rules of one step.
pub(crate) struct RuleWriter<'a> {
    pub(crate) random: &'a mut Random,
    sizes: Sizes,
    shape: Shape,
    /// The one sort of remote write that each measure field takes.
    sorts: [Sort; 16],
    /// How many different letters stand inside chains: A and those behind it.
    different: usize,
    /// The field that the rule before writes.
    before: Option<usize>,
    /// The letters inside the chains so far.
    earlier: Vec<Vec<u8>>,
}

impl<'a> RuleWriter<'a> {
    pub(crate) fn new(random: &'a mut Random, sizes: Sizes, shape: Shape) -> RuleWriter<'a> {
        let sorts = std::array::from_fn(|_| random.pick(&[Sort::Least, Sort::Add, Sort::Add]));
        let different = random.pick(&[1, 2, 2, 8]).min(sizes.references);
        RuleWriter {
            random,
            sizes,
            shape,
            sorts,
            different,
            before: None,
            earlier: Vec::new(),
        }
    }

    /// A rule, without its byte 10; the register has a field.
    pub(crate) fn rule(&mut self) -> String {
        let test = match self.random.percent(self.shape.tests) {
            true => self.test(),
            false => String::new(),
        };
        let field = self.field();
        let action = match self.random.percent(self.shape.remotes) {
            true => self.remote(field),
            false => self.local(field),
        };
        test + &action
    }

    /// The field that a rule writes, now and then that of the rule before.
    fn field(&mut self) -> usize {
        let repeats = self.shape.repeats;
        let again = repeats > 0 && self.random.percent(repeats);
        let field = match self.before {
            Some(field) if again => field,
            _ => self.random.below(self.sizes.fields()),
        };
        self.before = Some(field);
        field
    }

    fn test(&mut self) -> String {
        let kind = self.random.pick(&[Kind::Reference, Kind::Measure]);
        let sign = self.random.pick(&["<", "==", "!="]);
        format!("if {} {sign} {}: ", self.side(kind), self.side(kind))
    }

    fn local(&mut self, field: usize) -> String {
        let letter = char::from(self.sizes.letter(field));
        let kind = self.sizes.kind(field);
        let x = self.side(kind);
        if self.shape.operators > 0 || kind == Kind::Reference || self.random.percent(40) {
            return format!("{letter}[u] := {x}");
        }
        let sign = self.random.pick(&['+', '-']);
        format!("{letter}[u] := {x} {sign} {}", self.term(kind))
    }

    fn remote(&mut self, field: usize) -> String {
        let letter = char::from(self.sizes.letter(field));
        let kind = self.sizes.kind(field);
        let sign = match (kind, self.sorts[field]) {
            (Kind::Measure, Sort::Add) => "+=",
            _ => "<?=",
        };
        let target = self.term(Kind::Reference);
        format!("remote {letter}[{target}] {sign} {}", self.side(kind))
    }

    /// A side of a test or what is written: a term, or where the shape has
    /// operators an expression.
    fn side(&mut self, kind: Kind) -> String {
        let (most, deepest) = (self.shape.operators, self.shape.groups);
        if most == 0 {
            return self.term(kind);
        }
        let operators = match self.random.below(4) {
            0 => most,
            1 => self.random.between(0, most.min(3)),
            _ => self.random.between(0, most),
        };
        let groups = match self.random.percent(30) {
            true => deepest,
            false => self.random.between(0, deepest),
        };
        self.expression(kind, operators, groups)
    }

    /// An expression of exactly so many operators, whose groups stand in each other
    /// exactly so deep; many of its brackets are spare.
    pub(crate) fn expression(&mut self, kind: Kind, operators: usize, groups: usize) -> String {
        let outside = match groups {
            0 => operators,
            _ => self.random.between(0, operators),
        };
        let mut inside = operators - outside;
        let mut operands: Vec<String> = (0..outside)
            .map(|_| match groups > 0 && self.random.percent(30) {
                true => {
                    let within = self.random.between(0, inside);
                    inside -= within;
                    let deep = self.random.below(groups);
                    self.group(kind, within, deep)
                }
                false => self.term(kind),
            })
            .collect();
        let deepest = match groups {
            0 => self.term(kind),
            _ => self.group(kind, inside, groups - 1),
        };
        let place = self.random.between(0, operands.len());
        operands.insert(place, deepest);
        let mut operands = operands.into_iter();
        let first = operands.next().unwrap_or_default();
        operands.fold(first, |text, operand| {
            format!("{text} {} {operand}", self.operator(kind))
        })
    }

    fn group(&mut self, kind: Kind, operators: usize, groups: usize) -> String {
        format!("({})", self.expression(kind, operators, groups))
    }

    /// An operator that takes a kind.
    pub(crate) fn operator(&mut self, kind: Kind) -> &'static str {
        match kind {
            Kind::Reference => "<?",
            Kind::Measure => self.random.pick(&["+", "-", "<?"]),
        }
    }

    /// A chain of a kind, or a number.
    pub(crate) fn term(&mut self, kind: Kind) -> String {
        let hops = self.random.between(0, self.shape.hops);
        let numeric = self.sizes.measures == 0 || self.random.percent(self.shape.numbers);
        let letters = match kind {
            Kind::Measure if numeric => return self.number(),
            Kind::Measure => self.letters(b'M', self.sizes.measures, hops),
            Kind::Reference if hops == 0 || self.sizes.references == 0 => Vec::new(),
            Kind::Reference => self.letters(b'A', self.sizes.references, hops),
        };
        String::from_utf8(chains::text(&letters)).expect("a chain is plain text")
    }

    /// A number, in metres or in centimetres.
    fn number(&mut self) -> String {
        let number = number(self.random, self.shape.large);
        match self.shape.metres > 0 && self.random.percent(self.shape.metres) {
            true => metres::text(number),
            false => number.to_string(),
        }
    }

    /// So many hops, at least one; the outermost letter is one of several from
    /// the first on.
    fn letters(&mut self, first: u8, several: usize, hops: usize) -> Vec<u8> {
        let inner = match self.sizes.references {
            0 => 0,
            _ => hops.saturating_sub(1),
        };
        let mut letters = vec![first + self.random.below(several) as u8];
        letters.extend(self.inner_letters(inner));
        letters
    }

    /// The letters inside a chain's outermost one: random ones, or such as make
    /// it begin like an earlier chain, end like it, or both.
    fn inner_letters(&mut self, count: usize) -> Vec<u8> {
        let different = self.different;
        let letter = |_| b'A' + self.random.below(different) as u8;
        let mut letters: Vec<u8> = (0..count).map(letter).collect();
        if !self.earlier.is_empty() && self.random.percent(self.shape.shared) {
            let earlier = &self.earlier[self.random.below(self.earlier.len())];
            let shared = earlier.len().min(count);
            match self.random.below(3) {
                0 => letters[..shared].copy_from_slice(&earlier[..shared]),
                1 => letters[count - shared..].copy_from_slice(&earlier[earlier.len() - shared..]),
                _ => letters.clone_from(earlier),
            }
        }
        self.earlier.push(letters.clone());
        letters
    }
}

/// A number of a rules text, large so many times in a hundred.
fn number(random: &mut Random, large: usize) -> i32 {
    match random.percent(100 - large) {
        true => random.below(21) as i32 - 10,
        false => registers::measure(random),
    }
}
