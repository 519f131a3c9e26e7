//! The readings of the rules of a text, and the paths behind them, which the library
//! gives.

use crate::scan::{PartSort, Scan};
use crate::steps;
use plot::lent::MAX_HOPS;
use plot::{Path, Register};

/// The most paths that are asked for: 16 chains of the largest register.
const MOST_PATHS: usize = 16 * 4096;

/// A rule of a text.
#[derive(Clone, Debug, PartialEq, Eq)]
pub struct Rule {
    /// The number of its step.
    pub step: usize,
    /// As it stands in the text.
    pub text: String,
    /// The field that it writes.
    pub field: char,
    /// Whether it writes to another record.
    pub remote: bool,
    /// The chains that it reads, `u` left out.
    pub chains: Vec<String>,
}

/// The rules of a text that has passed, in their order.
pub fn rules(text: &[u8]) -> Vec<Rule> {
    let steps = steps::steps(text);
    let rules = steps.iter().flat_map(|step| {
        let rules = step.rules.iter();
        rules.filter_map(|rule| Rule::of(step.number, rule))
    });
    rules.collect()
}

impl Rule {
    fn of(step: usize, text: &str) -> Option<Rule> {
        let scan = Scan::line(text.as_bytes()).ok()?;
        let mut parts = scan.parts.iter();
        let written = parts.find(|part| part.sort == PartSort::Written)?;
        let chains = scan.parts.iter().filter(|part| part.is_chain());
        let mut chains: Vec<String> = chains
            .map(|part| text[part.start..part.end].replace(' ', ""))
            .filter(|chain| chain != "u")
            .collect();
        chains.dedup();
        Some(Rule {
            step,
            text: text.to_owned(),
            field: text[written.start..].chars().next()?,
            remote: scan.parts.iter().any(|part| part.sort == PartSort::Target),
            chains,
        })
    }
}

/// A chain, and the path behind its reading at each record.
#[derive(Clone, Debug)]
pub struct ChainPaths {
    /// The chain.
    pub chain: String,
    /// The paths, record by record.
    pub paths: Vec<Path>,
}

/// The chains that rules read, each once.
pub fn chains(rules: &[Rule]) -> Vec<String> {
    let mut chains: Vec<String> = Vec::new();
    for chain in rules.iter().flat_map(|rule| &rule.chains) {
        if !chains.contains(chain) {
            chains.push(chain.clone());
        }
    }
    chains
}

/// For each reference field the chain that follows it as far as a chain goes.
pub fn followed(register: &Register) -> Vec<String> {
    let sizes = register.sizes();
    let fields = sizes.fields().take(sizes.references);
    let chain = |field| {
        format!(
            "{}u{}",
            format!("{field}[").repeat(MAX_HOPS),
            "]".repeat(MAX_HOPS)
        )
    };
    fields.map(chain).collect()
}

/// The paths of chains that fit a register; of as many as can be asked for in good
/// time.
pub fn paths(register: &Register, chains: Vec<String>) -> Vec<ChainPaths> {
    let records = register.sizes().records;
    let most = MOST_PATHS / records.max(1);
    let paths = chains.into_iter().take(most).map(|chain| {
        let path = |record| register.path(&chain, record).expect("the chain fits");
        ChainPaths {
            paths: (0..records).map(path).collect(),
            chain,
        }
    });
    paths.collect()
}
