//! 15: a step whose plan has 64 lines, and the same step with one reading more.

use super::{Pair, line_of};
use crate::chains;
use crate::random::Random;
use reference::chain::read_chain;
use reference::plan::{MAX_LINES, Plan};
use reference::register::{Kind, Sizes};
use reference::text::MAX_RULES;

/// How many chains are tried before a step is given up.
const TRIES: usize = 400;

/// A pair for 15: a full step behind a text, with another step behind it.
pub fn lines(random: &mut Random, sizes: Sizes, text: &[u8]) -> Option<Pair> {
    let mut step = FullStep::new(random, sizes)?;
    let rules = step.rules(random);
    let beyond = step.beyond(random)?;
    let behind = random.pick(&[&b""[..], b"step\nend\n", b"step\nx\n"]);
    let accepted = [text, b"step\n", &rules, b"end\n"].concat();
    let refused = [text, b"step\n", &rules, &beyond, b"end\n"].concat();
    Some(Pair {
        line: line_of(&refused, refused.len()) - 1,
        refused: [&refused, behind].concat(),
        accepted,
    })
}

/// A step whose plan has exactly 64 lines, for a register of these sizes.
pub fn full_step(random: &mut Random, sizes: Sizes) -> Option<Vec<u8>> {
    let rules = FullStep::new(random, sizes)?.rules(random);
    Some([b"step\n", &rules[..], b"end\n"].concat())
}

/// Chains of one kind, whose readings need 64 lines.
struct FullStep {
    sizes: Sizes,
    kind: Kind,
    chains: Vec<String>,
    plan: Plan,
}

impl FullStep {
    fn new(random: &mut Random, sizes: Sizes) -> Option<FullStep> {
        let mut step = FullStep {
            sizes,
            kind: random.pick(&[Kind::Reference, Kind::Measure]),
            chains: Vec::new(),
            plan: Plan::default(),
        };
        let longest = random.pick(&[2, 3, 5, 9, 16]);
        for _ in 0..TRIES {
            if step.plan.lines().len() == MAX_LINES {
                return Some(step);
            }
            step.add(random, longest)?;
        }
        None
    }

    /// Adds a chain if its lines fit in; none when the chains are too many for a step.
    fn add(&mut self, random: &mut Random, longest: usize) -> Option<()> {
        let hops = random.between(2, longest);
        let chain = self.chain(random, hops)?;
        if let Some(plan) = self.with(&chain) {
            self.plan = plan;
            self.chains.push(chain);
        }
        (self.chains.len() < 3 * MAX_RULES).then_some(())
    }

    /// A chain of the step's kind; none if the register has no field for it.
    fn chain(&self, random: &mut Random, hops: usize) -> Option<String> {
        let mut letters = chains::valid_letters(random, self.sizes, hops);
        *letters.first_mut()? = self.field(random)?;
        String::from_utf8(chains::text(&letters)).ok()
    }

    fn field(&self, random: &mut Random) -> Option<u8> {
        let (first, several) = match self.kind {
            Kind::Reference => (b'A', self.sizes.references),
            Kind::Measure => (b'M', self.sizes.measures),
        };
        let letter = first + random.below(several.max(1)) as u8;
        self.sizes.field(letter).map(|_| letter)
    }

    /// The plan with one chain more, if it has room.
    fn with(&self, chain: &str) -> Option<Plan> {
        let word = read_chain(chain.as_bytes(), &self.sizes).ok()?;
        let mut plan = self.plan.clone();
        plan.add_reading(word.fields()).ok()?;
        Some(plan)
    }

    /// Rules that read the chains in order: as few in a rule as 31 rules allow, or more.
    fn rules(&self, random: &mut Random) -> Vec<u8> {
        let least = self.chains.len().div_ceil(MAX_RULES - 1);
        let in_rule = random.between(least, 4);
        let rules = self.chains.chunks(in_rule);
        rules
            .flat_map(|chains| self.rule(random, chains).into_bytes())
            .collect()
    }

    /// A rule that reads these one to four chains from left to right.
    fn rule(&self, random: &mut Random, chains: &[String]) -> String {
        let field = char::from(self.field(random).expect("the chains have one too"));
        let sign = random.pick(&["<", "==", "!="]);
        match (chains, self.kind) {
            ([x], _) => format!("{field}[u] := {x}\n"),
            ([x, y], _) => format!("if {x} {sign} {y}: {field}[u] := {field}[u]\n"),
            ([x, y, z], _) => format!("if {x} {sign} {y}: remote {field}[u] <?= {z}\n"),
            ([x, y, z, w], Kind::Measure) => {
                format!("if {x} {sign} {y}: {field}[u] := {z} - {w}\n")
            }
            ([x, y, z, w], Kind::Reference) => {
                format!("if {x} {sign} {y}: remote {field}[{z}] <?= {w}\n")
            }
            _ => unreachable!("a rule has one to four chains here"),
        }
    }

    /// A rule whose reading needs a 65th line, and seldom more than that.
    fn beyond(&mut self, random: &mut Random) -> Option<Vec<u8>> {
        for hops in [2, 2, 2, 2, 2, 2, 2, 2, 3, 3, 3, 5, 8, 16] {
            let chain = self.chain(random, hops)?;
            if self.with(&chain).is_none() {
                return Some(self.rule(random, &[chain]).into_bytes());
            }
        }
        None
    }
}
