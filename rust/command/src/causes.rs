//! Which gaps keep the rules of a text from filling a cell, and what is behind each of
//! them. Each gap is the end of a path that the library gives.

use crate::scan::{Part, PartSort, Scan};
use crate::stopping::Place;
use crate::{gaps, read};
use plot::{End, Machine, Register};
use std::cell::OnceCell;
use std::collections::hash_map::Entry;
use std::collections::{BTreeSet, HashMap, HashSet};

/// A rule that can fill a cell: one with `:=` or `<?=`.
pub struct Rule {
    /// Its line, counted from 1.
    pub line: usize,
    /// How it is written.
    pub text: String,
    /// The field that it fills.
    pub field: char,
    /// The chain to the record that it writes to, where that is another.
    target: Option<String>,
    /// The chains that it reads, those of its test too.
    chains: Vec<String>,
}

/// The rules of a text that can fill a cell.
pub fn rules(text: &[u8]) -> Vec<Rule> {
    let lines = (1..).zip(text.split(|&byte| byte == b'\n'));
    lines.filter_map(|(line, text)| rule(line, text)).collect()
}

fn rule(line: usize, text: &[u8]) -> Option<Rule> {
    let parts = Scan::line(text).ok()?.parts;
    let spelled = |part: &Part| {
        let bytes = text[part.start..part.end].iter();
        let bytes = bytes.filter(|byte| **byte != b' ');
        bytes.map(|&byte| char::from(byte)).collect::<String>()
    };
    let of_sort = |sort: PartSort| parts.iter().filter(move |part| part.sort == sort);
    let written = of_sort(PartSort::Written).next()?;
    let adds = of_sort(PartSort::Sum).any(|part| spelled(part) == "+=");
    let loops = text.starts_with(b"loop");
    (!adds && !loops).then(|| Rule {
        line,
        text: String::from_utf8_lossy(text).into_owned(),
        field: char::from(text[written.start]),
        target: of_sort(PartSort::Target).next().map(spelled),
        chains: of_sort(PartSort::Chain).map(spelled).collect(),
    })
}

/// Why a rule has not filled a cell.
#[derive(Clone, Debug, PartialEq, Eq)]
pub enum Cause {
    /// It reads these gaps.
    Gaps(Vec<Place>),
    /// All that it reads is filled by now: by itself it would fill the cell.
    Early,
    /// All that it reads is filled, and it does not fill the cell: its test does not
    /// hold.
    Test,
    /// All that it reads is filled, and it cannot be done by itself: a sum or total
    /// leaves the range.
    Range,
    /// It is a remote rule, and no record writes to this one.
    Unreached,
}

impl Cause {
    /// The gaps that it is about.
    pub fn gaps(&self) -> &[Place] {
        match self {
            Cause::Gaps(gaps) => gaps,
            _ => &[],
        }
    }
}

/// A register at the end of a run, and the rules that were run. What is asked of a rule
/// is kept.
pub struct Causes<'a> {
    register: &'a Register,
    rules: &'a [Rule],
    writers: Vec<OnceCell<Writers>>,
    alone: Vec<OnceCell<Option<Vec<bool>>>>,
}

/// For a rule that writes to others: for each record those that write to it.
type Writers = Option<Vec<Vec<usize>>>;

impl<'a> Causes<'a> {
    /// What can be told of this register after these rules.
    pub fn of(register: &'a Register, rules: &'a [Rule]) -> Causes<'a> {
        Causes {
            register,
            rules,
            writers: vec![OnceCell::new(); rules.len()],
            alone: vec![OnceCell::new(); rules.len()],
        }
    }

    /// Each rule that can fill a cell, by its place, and why it has not.
    pub fn of_cell(&self, (record, field): Place) -> Vec<(usize, Cause)> {
        let rules = self.rules.iter().enumerate();
        let rules = rules.filter(|(_, rule)| rule.field == field);
        rules
            .map(|(place, _)| (place, self.cause(place, record)))
            .collect()
    }

    fn cause(&self, place: usize, record: usize) -> Cause {
        let rule = &self.rules[place];
        let writers = self.writers[place].get_or_init(|| writers(self.register, rule));
        let readers = match writers {
            Some(writers) if writers[record].is_empty() => return Cause::Unreached,
            Some(writers) => writers[record].as_slice(),
            None => &[record],
        };
        let gaps = readers.iter().flat_map(|&reader| self.gaps(rule, reader));
        let gaps: BTreeSet<Place> = gaps.collect();
        if !gaps.is_empty() {
            return Cause::Gaps(gaps.into_iter().collect());
        }
        let alone = self.alone[place].get_or_init(|| filled_alone(self.register, rule));
        match alone.as_ref().map(|filled| filled[record]) {
            Some(true) => Cause::Early,
            Some(false) => Cause::Test,
            None => Cause::Range,
        }
    }

    /// The gaps at which the readings of a rule end, taken at a record.
    fn gaps(&self, rule: &Rule, record: usize) -> Vec<Place> {
        let chains = rule.chains.iter();
        let paths = chains.filter_map(|chain| self.register.path(chain, record).ok());
        paths.filter_map(|path| read::gap(&path)).collect()
    }
}

fn writers(register: &Register, rule: &Rule) -> Writers {
    let target = rule.target.as_ref()?;
    let records = register.sizes().records;
    let mut writers = vec![Vec::new(); records];
    for record in 0..records {
        let path = register.path(target, record).ok();
        if let Some(reached) = path.and_then(|path| path.value) {
            writers[reached as usize].push(record);
        }
    }
    Some(writers)
}

/// For each record whether its cell is filled after the rule by itself; none where that
/// is stopped.
fn filled_alone(register: &Register, rule: &Rule) -> Option<Vec<bool>> {
    let text = format!("step\n{}\nend\n", rule.text);
    let run = register.run(text, Machine::Direct, 1).ok()?;
    let records = 0..register.sizes().records;
    let filled = records.map(|u| !gaps::is_gap(&run.register, u, rule.field));
    (run.end == End::Whole).then(|| filled.collect())
}

/// What is behind gaps: the gaps that no rule would have filled had it not been
/// stopped itself.
#[derive(Default)]
pub struct Roots {
    /// For each gap that was met the causes of its rules.
    pub causes: HashMap<Place, Vec<(usize, Cause)>>,
    roots: HashMap<Place, BTreeSet<Place>>,
    /// The roots that wait for themselves only.
    pub circular: BTreeSet<Place>,
}

impl Roots {
    /// What is behind each of these gaps, and behind each that is met on the way.
    pub fn behind(causes: &Causes<'_>, gaps: &[Place]) -> Roots {
        let mut roots = Roots::default();
        roots.meet(causes, gaps);
        let waiting = roots.waiting();
        let met: BTreeSet<Place> = roots.causes.keys().copied().collect();
        for &gap in &met {
            if roots.next(gap).next().is_none() {
                roots.mark(gap, &waiting);
            }
        }
        for &gap in &met {
            if !roots.roots.contains_key(&gap) {
                let root = roots.circle(gap);
                roots.circular.insert(root);
                roots.mark(root, &waiting);
            }
        }
        roots
    }

    /// The roots of a gap.
    pub fn of(&self, gap: Place) -> impl Iterator<Item = Place> {
        self.roots.get(&gap).into_iter().flatten().copied()
    }

    /// Asks for the causes of these gaps, and of those that these wait for.
    fn meet(&mut self, causes: &Causes<'_>, gaps: &[Place]) {
        let mut open = gaps.to_vec();
        while let Some(gap) = open.pop() {
            if let Entry::Vacant(new) = self.causes.entry(gap) {
                new.insert(causes.of_cell(gap));
                open.extend(self.next(gap));
            }
        }
    }

    /// The gaps that a gap waits for.
    fn next(&self, gap: Place) -> impl Iterator<Item = Place> {
        let causes = self.causes.get(&gap).into_iter().flatten();
        causes.flat_map(|(_, cause)| cause.gaps()).copied()
    }

    /// The gaps that wait for each gap.
    fn waiting(&self) -> HashMap<Place, Vec<Place>> {
        let mut waiting: HashMap<Place, Vec<Place>> = HashMap::new();
        for &gap in self.causes.keys() {
            for next in self.next(gap) {
                waiting.entry(next).or_default().push(gap);
            }
        }
        waiting
    }

    /// Gives every gap that waits for this one, and itself, this one as a root.
    fn mark(&mut self, root: Place, waiting: &HashMap<Place, Vec<Place>>) {
        let mut open = vec![root];
        while let Some(gap) = open.pop() {
            if self.roots.entry(gap).or_default().insert(root) {
                open.extend(waiting.get(&gap).into_iter().flatten());
            }
        }
    }

    /// The lowest gap of a circle that a gap without roots waits for.
    fn circle(&self, gap: Place) -> Place {
        let step = |gap: Place| self.next(gap).next().expect("it waits for a gap");
        let (mut seen, mut at) = (HashSet::new(), gap);
        while seen.insert(at) {
            at = step(at);
        }
        let circle = std::iter::successors(Some(step(at)), |&gap| Some(step(gap)));
        circle
            .take_while(|&gap| gap != at)
            .fold(at, |lowest, gap| lowest.min(gap))
    }
}
