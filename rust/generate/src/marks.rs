//! Cases for marks (M-107): few values, which rules meet again and again.

use crate::random::Random;
use crate::registers;
use reference::register::{Cell, Sizes};

/// Cells whose measures are near 0.
pub(crate) fn cells(random: &mut Random, sizes: Sizes) -> Vec<Cell> {
    let mut cells = registers::cells(random, sizes, 80);
    for cell in cells.iter_mut().skip(1).step_by(2) {
        let value = small(random);
        *cell = match cell {
            Cell::Missing => Cell::Missing,
            Cell::Measured(_) => Cell::Measured(value),
            Cell::WorkedOut(_) => Cell::WorkedOut(value),
        };
    }
    cells
}

/// One to three steps, now and then in a loop on M.
pub(crate) fn text(random: &mut Random) -> String {
    let steps: String = (0..random.between(1, 3)).map(|_| step(random)).collect();
    match random.percent(60) {
        true => format!("loop M\n{steps}done\n"),
        false => steps,
    }
}

/// A step of one to three rules, whose remote writes are of one sort.
fn step(random: &mut Random) -> String {
    let sign = random.pick(&["+=", "<?="]);
    let rules: String = (0..random.between(1, 3))
        .map(|_| rule(random, sign))
        .collect();
    format!("step\n{rules}end\n")
}

fn rule(random: &mut Random, sign: &str) -> String {
    let value = small(random);
    let target = random.pick(&["u", "A[u]"]);
    match random.below(8) {
        0 => format!("M[u] := {value}\n"),
        1 => "M[u] := M[A[u]]\n".to_owned(),
        2 => "M[u] := M[u]\n".to_owned(),
        3 => "if M[u] == M[A[u]]: A[u] := u\n".to_owned(),
        4 if sign == "+=" => format!("remote M[{target}] += 1\nremote M[{target}] += -1\n"),
        _ => format!("remote M[{target}] {sign} {value}\n"),
    }
}

fn small(random: &mut Random) -> i32 {
    random.pick(&[-1, 0, 0, 1])
}
