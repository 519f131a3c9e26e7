//! The exchanges of a run by its plans alone, without a message: the steps are
//! done by the direct machine, and each finished one counts what demand 3 says.

use crate::trials::Trial;
use reference::apply::{OutOfRange, Work};
use reference::direct::Direct;
use reference::program::{Program, Step};
use reference::register::{Cell, Sizes};
use reference::run::{Counts, Machine, run};

/// The direct machine, with the exchanges that its plans ask for.
struct Planned(Direct);

impl Machine for Planned {
    fn new(sizes: Sizes, program: &Program) -> Planned {
        Planned(Direct::new(sizes, program))
    }

    fn step(
        &mut self,
        step: &Step,
        before: &[Cell],
        work: &mut Work,
    ) -> Result<Counts, OutOfRange> {
        self.0.step(step, before, work)?;
        Ok(Counts {
            exchanges: exchanges_of(step) as u64,
            letters: 0,
        })
    }
}

/// The most rounds that any of its readings has in the plan, 0 if it has no
/// reading, and 1 more if it holds a remote rule.
fn exchanges_of(step: &Step) -> usize {
    let readings = step.rules.iter().flat_map(|rule| rule.chains());
    let rounds = readings.map(|reading| step.plan.round_of(reading.source));
    rounds.max().unwrap_or(0) + usize::from(step.has_remote())
}

/// The sum over the finished steps, each as often as it finished; 0 where the
/// trial is refused before it runs.
pub fn exchanges(trial: &Trial) -> u64 {
    let mut output = trial.buffers.output.clone();
    let (register, text) = (&trial.register, &trial.text);
    run::<Planned>(register, text, trial.budget, &mut output, trial.scratch())
        .map_or(0, |run| run.counts.exchanges)
}
