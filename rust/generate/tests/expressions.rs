//! Texts with expressions, by the reference alone: what is known of them by how they
//! are made, a second reader and a second evaluator, and both machines.

use generate::cases::Case;
use generate::neighbours::{expression_pair, lower};
use generate::offences::{Fate, Stands, offences};
use generate::on_failure::OnFailure;
use generate::random::Random;
use generate::tally::Tally;
use generate::tokens::{CHANGES, changed, respaced, tokens};
use generate::written::expressions;
use generate::{registers, texts};
use reference::direct::run_direct;
use reference::messages::run_messages;
use reference::program::Program;
use reference::refusal::Refusal;
use reference::register::{Register, Sizes};
use reference::rule::{Expression, Node, Operator};
use reference::run::{End, Scratch};
use reference::text::{MAX_BYTES, read_text};

/// A text with expressions, right or nearly, and the sizes it is for.
fn text(random: &mut Random) -> (Sizes, Vec<u8>) {
    let sizes = registers::sizes(random);
    let shape = texts::expression_shape(random);
    (sizes, texts::text(random, sizes, shape))
}

/// Number and line of a refusal, both 0 where there is none.
fn outcome(program: &Result<Program, Refusal>) -> (u32, usize) {
    match program {
        Ok(_) => (0, 0),
        Err(refusal) => (refusal.reason.number(), refusal.line),
    }
}

/// A reader of expressions as document 02 has them: from left to right, one function
/// for each rank.
struct SecondReader<'a> {
    tokens: &'a [&'a [u8]],
    nodes: Vec<Node>,
}

impl SecondReader<'_> {
    fn takes(&mut self, sign: &[u8]) -> bool {
        let taken = self.tokens.first() == Some(&sign);
        self.tokens = &self.tokens[usize::from(taken)..];
        taken
    }

    fn sum(&mut self) {
        self.smaller();
        loop {
            let operator = match () {
                _ if self.takes(b"+") => Operator::Plus,
                _ if self.takes(b"-") => Operator::Minus,
                _ => return,
            };
            self.smaller();
            self.nodes.push(Node::Operator(operator));
        }
    }

    fn smaller(&mut self) {
        self.operand();
        while self.takes(b"<?") {
            self.operand();
            self.nodes.push(Node::Operator(Operator::Smaller));
        }
    }

    fn operand(&mut self) {
        if self.takes(b"(") {
            self.sum();
            assert!(self.takes(b")"));
            return;
        }
        self.nodes.push(Node::Term);
        let in_chain = |token: &&&[u8]| matches!(token, [b'A'..=b'Z' | b'[' | b']' | b'u']);
        let chain = self.tokens.iter().take_while(in_chain).count();
        self.tokens = &self.tokens[chain.max(1)..];
    }
}

/// The nodes of an expression by the second reader.
fn second_reading(tokens: &[&[u8]]) -> Vec<Node> {
    let nodes = Vec::new();
    let mut reader = SecondReader { tokens, nodes };
    reader.sum();
    assert!(reader.tokens.is_empty());
    reader.nodes
}

/// The nodes of an expression by the reference.
fn nodes<C>(expression: &Expression<C>) -> Vec<Node> {
    match expression {
        Expression::Term(_) => vec![Node::Term],
        Expression::Pair(operator, _) => {
            vec![Node::Term, Node::Term, Node::Operator(*operator)]
        }
        Expression::Tree(_, nodes) => nodes.clone(),
    }
}

#[test]
fn trees_are_those_of_a_second_reader() {
    let mut random = Random::new(50);
    let mut tally = Tally::default();
    while tally.of("expressions") < 20_000 {
        let (sizes, text) = text(&mut random);
        let _failing = OnFailure::new(b"").bytes("text", &text);
        let Ok(program) = read_text(&text, &sizes) else {
            continue;
        };
        let lines = text.split(|&byte| byte == b'\n');
        let second: Vec<Vec<Node>> = lines
            .flat_map(expressions)
            .map(|written| second_reading(&written.tokens))
            .collect();
        let rules = program.steps().flat_map(|step| &step.rules);
        let first: Vec<Vec<Node>> = rules
            .flat_map(|rule| rule.expressions().map(nodes))
            .collect();
        assert_eq!(first, second);
        for nodes in first {
            tally.count("expressions");
            tally.count(&format!("operators {:>2}", nodes.len() / 2));
        }
    }
    let operators: Vec<String> = (0..=64)
        .map(|count| format!("operators {count:>2}"))
        .collect();
    tally.require(10, &operators);
}

/// 24 or 25 of a text that is right but for these, and the line. Counts the sizes of
/// all expressions.
fn made(tally: &mut Tally, text: &[u8]) -> Option<(u32, usize)> {
    let mut made = None;
    for (line, number) in text.split(|&byte| byte == b'\n').zip(1..) {
        let expressions = expressions(line);
        let sizes = expressions.iter().map(|one| (one.depth(), one.operators()));
        let sizes: Vec<(usize, usize)> = sizes.collect();
        for (depth, operators) in &sizes {
            tally.count(&format!("depth {depth:>2}"));
            tally.count(&format!("operators {operators:>2}"));
        }
        let fault = match () {
            _ if sizes.iter().any(|(depth, _)| *depth > 8) => Some(24),
            _ if sizes.iter().any(|(_, operators)| *operators > 64) => Some(25),
            _ => None,
        };
        made = made.or(fault.map(|fault| (fault, number)));
    }
    made
}

#[test]
fn depth_and_operators_alone_decide_24_and_25() {
    let mut random = Random::new(51);
    let mut tally = Tally::default();
    for _ in 0..40_000 {
        let (sizes, text) = text(&mut random);
        let _failing = OnFailure::new(b"").bytes("text", &text);
        let found = outcome(&read_text(&text, &sizes));
        tally.count(&format!("refusal {}", found.0));
        match (found, made(&mut tally, &text)) {
            ((6, _), _) => assert!(text.len() > MAX_BYTES),
            // A plan of an earlier step.
            ((15, line), Some((_, later))) => assert!(line < later),
            ((0 | 15, _), None) => (),
            (found, made) => assert_eq!(Some(found), made),
        }
    }
    tally.print("texts with expressions");
    tally.require(1_000, &["refusal 0", "refusal 24", "refusal 25"]);
    let depths: Vec<String> = (0..=12).map(|depth| format!("depth {depth:>2}")).collect();
    tally.require(1_000, &depths);
    let operators: Vec<String> = (0..=80)
        .map(|count| format!("operators {count:>2}"))
        .collect();
    tally.require(20, &operators);
}

#[test]
fn spaces_change_nothing() {
    let mut random = Random::new(52);
    let mut compared = 0;
    while compared < 20_000 {
        let (sizes, text) = text(&mut random);
        let spaced = respaced(&mut random, &text);
        let _failing = OnFailure::new(b"")
            .bytes("text", &text)
            .bytes("spaced", &spaced);
        if text.len().max(spaced.len()) <= MAX_BYTES {
            assert_eq!(read_text(&spaced, &sizes), read_text(&text, &sizes));
            compared += 1;
        }
    }
}

#[test]
fn changes_around_every_token_have_an_outcome() {
    let mut random = Random::new(53);
    let mut tally = Tally::default();
    while tally.of("texts") < 100_000 {
        let case = Case::with_expressions(&mut random);
        for token in tokens(&case.text) {
            let (name, change) = random.pick(&CHANGES);
            let text = changed(&mut random, &case.text, token, change);
            let program = read_text(&text, &case.sizes);
            tally.count("texts");
            tally.count(&format!("{name}, {}", program.is_ok()));
            tally.count(&format!("refusal {}", outcome(&program).0));
        }
    }
    tally.print("changes around every token");
    tally.require(
        100,
        &[0, 7, 9, 10].map(|number| format!("refusal {number}")),
    );
    tally.require(20, &[12, 25].map(|number| format!("refusal {number}")));
}

#[test]
fn refused_texts_and_their_neighbours() {
    let mut random = Random::new(54);
    let mut tally = Tally::default();
    for number in (6..=15).chain([24, 25]) {
        for _ in 0..300 {
            let (sizes, pair) = expression_pair(&mut random, number);
            let _failing = OnFailure::new(b"").bytes("text", &pair.refused);
            let refused = outcome(&read_text(&pair.refused, &sizes));
            assert_eq!(refused, (number, pair.line));
            assert_eq!(outcome(&read_text(&pair.accepted, &sizes)), (0, 0));
            if number < 9 {
                continue;
            }
            if let Some((text, made)) = lower(&mut random, sizes, number, &pair) {
                let _failing = OnFailure::new(b"").bytes("text", &text);
                assert_eq!(outcome(&read_text(&text, &sizes)), made);
                tally.count(&format!("{} before {number}", made.0));
            }
        }
    }
    tally.print("two faults on one line");
    let pairs = [
        (12, 24),
        (12, 25),
        (24, 25),
        (7, 24),
        (24, 13),
        (25, 13),
        (24, 14),
        (25, 14),
    ];
    tally.require(
        1,
        &pairs.map(|(first, then)| format!("{first} before {then}")),
    );
}

/// Runs a case by both machines, which must agree.
fn run(case: &Case, budget: u16) -> End {
    let (register, text) = (&case.register, &case.text);
    let scratch = Scratch::both(case.scratch_length());
    let mut output = vec![1; register.len()];
    let mut direct_output = vec![2; register.len()];
    let direct = run_direct(register, text, budget, &mut direct_output, scratch).unwrap();
    let run = run_messages(register, text, budget, &mut output, scratch).unwrap();
    assert_eq!(output, direct_output);
    assert_eq!((run.finished, &run.end), (direct.finished, &direct.end));
    run.end
}

#[test]
fn machines_agree_on_expressions() {
    let mut random = Random::new(55);
    let mut tally = Tally::default();
    for _ in 0..20_000 {
        let case = Case::with_expressions(&mut random);
        let _failing = OnFailure::new(&case.register).bytes("text", &case.text);
        let budget = random.pick(&[0, 1, 2, 20]);
        let end = run(&case, budget);
        tally.count(&format!("end {}", end.number()));
    }
    tally.print("runs with expressions");
    tally.require(500, &["end 0", "end 20", "end 21"]);
}

#[test]
fn sums_out_of_range_are_those_of_a_second_evaluator() {
    let mut random = Random::new(56);
    let mut tally = Tally::default();
    for _ in 0..50_000 {
        let case = Case::near_the_range(&mut random);
        let _failing = OnFailure::new(&case.register).bytes("text", &case.text);
        let register = Register::load(&case.register).unwrap();
        let step = case.program.step(1).unwrap();
        let sums = offences(step, &register);
        let end = run(&case, 1);
        let Some(first) = sums.first() else {
            // A total may still be out of range.
            tally.count("no sum out of range");
            continue;
        };
        let End::OutOfRange(outside) = &end else {
            panic!("{sums:?}, and yet {end:?}");
        };
        let named = outside.named().expect("21 has a place");
        assert_eq!((named.record, named.field), (first.record, first.field));
        let alone = |wanted: &dyn Fn(&generate::offences::Offence) -> bool| sums.iter().all(wanted);
        if alone(&|one| one.fate == first.fate) {
            tally.count(&format!("{:?}", first.fate));
        }
        if alone(&|one| one.stands == first.stands) {
            tally.count(&format!("{:?}", first.stands));
        }
    }
    tally.print("where alone sums are out of range");
    let fates = [
        Fate::Outside,
        Fate::Unfilled,
        Fate::BroughtBack,
        Fate::Losing,
    ];
    tally.require(300, &fates.map(|fate| format!("{fate:?}")));
    let stands = [
        Stands::Local,
        Stands::TestHolds,
        Stands::TestFails,
        Stands::OtherSideUnfilled,
        Stands::OwnSideUnfilled,
        Stands::AmountTargetFilled,
        Stands::AmountTargetUnfilled,
    ];
    tally.require(300, &stands.map(|stands| format!("{stands:?}")));
}
