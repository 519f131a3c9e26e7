//! Why cells are unfilled: the gaps that stop the readings of the rules which could
//! have filled them, those that stop most first. Each gap is the last cell of a path
//! that the library gives.

use crate::readings::{ChainPaths, Rule};
use plot::{Cell, Register};
use std::collections::BTreeMap;

/// A gap, and what it stops.
#[derive(Clone, Debug, PartialEq, Eq)]
pub struct Stop {
    /// Its record.
    pub record: usize,
    /// Its field.
    pub field: char,
    /// What it stops.
    pub stopped: Vec<Stopped>,
}

/// A field that stays unfilled at some records, because a chain is unfilled there.
#[derive(Clone, Debug, PartialEq, Eq)]
pub struct Stopped {
    /// The field.
    pub field: char,
    /// The chain.
    pub chain: String,
    /// The records.
    pub records: Vec<usize>,
}

impl Stop {
    /// How many readings it stops.
    pub fn readings(&self) -> usize {
        self.stopped.iter().map(|one| one.records.len()).sum()
    }
}

/// Records by the field that stays unfilled there, and the chain.
type ByChain<'a> = BTreeMap<(char, &'a str), Vec<usize>>;

/// The gaps that stop rules from filling what is unfilled in a register.
pub fn stops(register: &Register, rules: &[Rule], paths: &[ChainPaths]) -> Vec<Stop> {
    let mut gaps: BTreeMap<(usize, char), ByChain<'_>> = BTreeMap::new();
    for (field, chain) in fillers(rules) {
        let Some(of_chain) = paths.iter().find(|paths| paths.chain == chain) else {
            continue;
        };
        let unfilled = |record: &usize| register.cell(*record, field) == Some(Cell::Unfilled);
        for record in (0..of_chain.paths.len()).filter(unfilled) {
            let path = &of_chain.paths[record];
            if let (None, Some(last)) = (path.value, path.hops.last()) {
                let gap = gaps.entry((last.record, last.field)).or_default();
                gap.entry((field, chain)).or_default().push(record);
            }
        }
    }
    let mut stops: Vec<Stop> = gaps.into_iter().map(stop).collect();
    stops.sort_by_key(|stop| std::cmp::Reverse(stop.readings()));
    stops
}

/// The fields that rules fill by themselves, each with a chain that has to be filled.
fn fillers(rules: &[Rule]) -> Vec<(char, &str)> {
    let local = rules.iter().filter(|rule| !rule.remote);
    let fillers =
        local.flat_map(|rule| rule.chains.iter().map(|chain| (rule.field, chain.as_str())));
    let mut fillers: Vec<(char, &str)> = fillers.collect();
    fillers.sort_unstable();
    fillers.dedup();
    fillers
}

fn stop(((record, field), stopped): ((usize, char), ByChain<'_>)) -> Stop {
    let stopped = stopped
        .into_iter()
        .map(|((field, chain), records)| Stopped {
            field,
            chain: chain.to_owned(),
            records,
        });
    Stop {
        record,
        field,
        stopped: stopped.collect(),
    }
}
