//! Rules texts whose every line is right by itself: they pass the check unless a
//! step needs more than 64 plan lines or the text is longer than may be.

use crate::random::Random;
use crate::rule_writer::RuleWriter;
use reference::register::Sizes;

/// How much a text holds at most.
#[derive(Clone, Copy, Debug)]
pub struct Shape {
    /// Parts, each a step or a loop of up to three steps.
    pub parts: usize,
    /// Rules of a step.
    pub rules: usize,
    /// Rules of a step at least, if the register has a field.
    pub fewest_rules: usize,
    /// Hops of a chain.
    pub hops: usize,
    /// Rules in a hundred that have a test.
    pub tests: usize,
    /// Rules in a hundred that write remotely.
    pub remotes: usize,
    /// Measures in a hundred that are numbers.
    pub numbers: usize,
    /// Numbers in a hundred that are written in metres.
    pub metres: usize,
    /// Rules in a hundred that write the field of the rule before.
    pub repeats: usize,
    /// Chains in a hundred that take letters over from an earlier chain of their step.
    pub shared: usize,
    /// Numbers in a hundred that may be large.
    pub large: usize,
    /// Operators of an expression; with 0 only the forms of document 01 are written.
    pub operators: usize,
    /// How deep groups stand in each other.
    pub groups: usize,
}

/// Any shape, small more often than large.
pub fn shape(random: &mut Random) -> Shape {
    Shape {
        parts: random.pick(&[0, 1, 1, 2, 2, 3, 4, 8, 16]),
        rules: random.pick(&[0, 1, 2, 3, 4, 6, 9, 12, 32]),
        fewest_rules: 0,
        hops: random.pick(&[0, 1, 2, 2, 3, 3, 4, 5, 8, 16]),
        tests: 40,
        remotes: 35,
        numbers: 30,
        metres: 40,
        repeats: 20,
        shared: random.pick(&[0, 50]),
        ..DOCUMENT_01
    }
}

/// A shape for plans: 1 to 32 rules, from no chain to four in each, up to 16 hops.
pub fn plan_shape(random: &mut Random) -> Shape {
    let rules = random.pick(&[1, 1, 2, 4, 8, 16, 32, 32]);
    Shape {
        parts: random.pick(&[1, 1, 1, 2, 3]),
        rules,
        fewest_rules: random.pick(&[1, 1, rules]),
        hops: random.pick(&[1, 2, 2, 3, 4, 5, 8, 9, 16, 16]),
        tests: random.pick(&[0, 50, 100, 100]),
        remotes: random.pick(&[0, 50, 100, 100]),
        numbers: random.pick(&[0, 0, 30, 100]),
        metres: 40,
        repeats: 20,
        shared: random.pick(&[0, 50, 90, 98]),
        ..DOCUMENT_01
    }
}

/// A shape for gaps: steps whose rules write one field again and again, chains and numbers mixed.
pub fn gap_shape(random: &mut Random) -> Shape {
    Shape {
        parts: random.between(1, 3),
        rules: 8,
        fewest_rules: 4,
        hops: 3,
        tests: 10,
        remotes: 10,
        numbers: 40,
        metres: 40,
        repeats: 90,
        ..DOCUMENT_01
    }
}

/// A shape for sums and totals out of range: one step of several rules, from all local to all remote.
pub fn overflow_shape(random: &mut Random) -> Shape {
    Shape {
        parts: 1,
        rules: 10,
        fewest_rules: 5,
        hops: 2,
        tests: 10,
        remotes: random.pick(&[20, 50, 70, 100]),
        numbers: 5,
        metres: 40,
        repeats: 20,
        ..DOCUMENT_01
    }
}

/// A shape with expressions on both sides of 8 groups and of 64 operators.
pub fn expression_shape(random: &mut Random) -> Shape {
    Shape {
        parts: random.pick(&[1, 1, 1, 2, 3]),
        rules: random.pick(&[1, 2, 2, 3, 5]),
        fewest_rules: 1,
        hops: random.pick(&[0, 1, 1, 2, 2, 3]),
        tests: 50,
        remotes: 35,
        numbers: random.pick(&[20, 50, 80]),
        metres: 40,
        shared: random.pick(&[0, 50]),
        operators: random.pick(&[1, 1, 2, 3, 4, 6, 10, 20, 40, 64, 64, 65, 66, 80]),
        groups: random.pick(&[0, 1, 1, 2, 2, 3, 4, 6, 8, 8, 9, 10, 12]),
        ..DOCUMENT_01
    }
}

/// A shape with expressions that are right, long and deep ones among them.
pub fn right_expression_shape(random: &mut Random) -> Shape {
    Shape {
        parts: random.pick(&[1, 1, 2, 3]),
        rules: random.pick(&[1, 2, 4, 8]),
        operators: random.pick(&[1, 2, 3, 4, 8, 16, 64]),
        groups: random.pick(&[0, 1, 2, 3, 8]),
        ..expression_shape(random)
    }
}

/// A shape with one step whose sums are often out of range.
pub fn range_shape(random: &mut Random) -> Shape {
    Shape {
        parts: 1,
        rules: random.pick(&[1, 1, 1, 2]),
        fewest_rules: 1,
        hops: 1,
        tests: 50,
        remotes: 50,
        numbers: 50,
        metres: 10,
        large: 85,
        operators: random.pick(&[1, 2, 2, 3, 3, 4]),
        groups: random.pick(&[0, 1, 1, 2]),
        ..DOCUMENT_01
    }
}

/// No more than the forms of document 01, and in them neither numbers in metres
/// nor what is alike.
pub const DOCUMENT_01: Shape = Shape {
    parts: 0,
    rules: 0,
    fewest_rules: 0,
    hops: 0,
    tests: 0,
    remotes: 0,
    numbers: 0,
    metres: 0,
    repeats: 0,
    shared: 0,
    large: 15,
    operators: 0,
    groups: 0,
};

/// A shape of either sort.
pub fn any_shape(random: &mut Random) -> Shape {
    match random.percent(50) {
        true => shape(random),
        false => plan_shape(random),
    }
}

/// A text of a shape for a register of these sizes.
pub fn text(random: &mut Random, sizes: Sizes, shape: Shape) -> Vec<u8> {
    let mut text = String::new();
    for _ in 0..shape.parts {
        if sizes.fields() > 0 && random.percent(35) {
            let field = sizes.letter(random.below(sizes.fields()));
            text += &format!("loop {}\n", char::from(field));
            for _ in 0..random.between(1, 3) {
                text += &step(random, sizes, shape);
            }
            text += "done\n";
        } else {
            text += &step(random, sizes, shape);
        }
    }
    text.into_bytes()
}

fn step(random: &mut Random, sizes: Sizes, shape: Shape) -> String {
    let mut writer = RuleWriter::new(random, sizes, shape);
    let rules = match sizes.fields() {
        0 => 0,
        _ => writer.random.between(shape.fewest_rules, shape.rules),
    };
    let rules: String = (0..rules).map(|_| writer.rule() + "\n").collect();
    format!("step\n{rules}end\n")
}

/// A line with a rule of any shape; without fields there is none.
pub(crate) fn rule(random: &mut Random, sizes: Sizes) -> String {
    let shape = shape(random);
    match sizes.fields() {
        0 => String::new(),
        _ => RuleWriter::new(random, sizes, shape).rule() + "\n",
    }
}
