//! Numbers in metres: each case by its name, and generated texts with changes
//! around their points.

use crate::compare::{compare, outcome};
use crate::edges::in_step;
use generate::metres::{self, CHANGES};
use generate::random::Random;
use generate::tally::Tally;
use generate::texts::Shape;
use generate::{registers, texts};

/// A test for each number: its refusal wherever a term stands, 0 if it passes.
macro_rules! numbers {
    ($($name:ident: $number:expr => $refusal:expr,)*) => {
        $(
            #[test]
            fn $name() {
                let number = $number;
                for line in [
                    format!("M[u] := {number}"),
                    format!("M[u] := {number} - 1"),
                    format!("M[u] := M[u] + {number}"),
                    format!("remote M[A[u]] += {number}"),
                    format!("remote M[u] <?= {number}"),
                    format!("if {number} < 1: M[u] := 1"),
                    format!("if M[u] == {number}: remote M[u] += 1"),
                ] {
                    assert_eq!(in_step(&line), $refusal, "{line}");
                }
            }
        )*
    };
}

numbers! {
    one_metre_eighty: "1.80" => 0,
    whole_metre: "1.00" => 0,
    five_centimetres: "0.05" => 0,
    no_metres: "0.00" => 0,
    five_centimetres_below: "-0.05" => 0,
    most_metres: "21474836.47" => 0,
    least_metres: "-21474836.48" => 0,
    minus_zero_in_metres: "-0.00" => 7,
    minus_zero: "-0" => 7,
    leading_zero_before_the_point: "01.80" => 7,
    two_zeros_before_the_point: "00.50" => 7,
    nothing_before_the_point: ".80" => 7,
    minus_before_the_point: "-.80" => 7,
    nothing_behind_the_point: "1." => 7,
    one_decimal: "1.8" => 7,
    three_decimals: "1.800" => 7,
    two_points: "1.80.20" => 7,
    points_side_by_side: "1..80" => 7,
    comma: "1,80" => 7,
    space_among_decimals: "1.8 0" => 7,
    space_behind_the_point: "1. 80" => 7,
    plus: "+1.80" => 7,
    above_the_most_metres: "21474836.48" => 12,
    below_the_least_metres: "-21474836.49" => 12,
    most_centimetres_as_metres: "2147483647.00" => 12,
    digits_8000_in_metres: format!("{}.00", "9".repeat(8000)) => 12,
    digits_8000_below: format!("-1{}.00", "0".repeat(7999)) => 12,
    zeros_8000_in_metres: format!("{}.00", "0".repeat(8000)) => 7,
    decimals_8000: format!("0.{}", "0".repeat(8000)) => 7,
}

/// Accepted texts that hold a number with a point; each comes back once for each
/// change around one of its points.
const ACCEPTED: usize = 6_000;
/// The fewest texts that hold a number with a point, of all.
const TEXTS: u64 = 20_000;
/// How often each change comes up at least with an outcome that it can have.
const LEAST: u64 = 200;

/// A text with many numbers in metres.
fn shape(random: &mut Random) -> Shape {
    Shape {
        numbers: 60,
        metres: 80,
        ..texts::shape(random)
    }
}

#[test]
fn texts_in_metres_and_their_changes_agree() {
    let mut random = Random::new(19);
    let mut tally = Tally::default();
    let mut accepted = 0;
    while accepted < ACCEPTED {
        let sizes = registers::sizes(&mut random);
        let register = registers::file(&mut random, sizes);
        let shape = shape(&mut random);
        let text = texts::text(&mut random, sizes, shape);
        if !metres::has_point(&text) || compare(&mut random, &register, &text).is_err() {
            continue;
        }
        accepted += 1;
        tally.count("with a point");
        for (name, change) in CHANGES {
            let changed = metres::changed(&mut random, &text, change);
            let program = compare(&mut random, &register, &changed);
            tally.add("with a point", u64::from(metres::has_point(&changed)));
            tally.count(&format!("{name}, {}", outcome(&program)));
        }
    }
    tally.print("texts in metres and changes around a point");
    tally.require(TEXTS, &["with a point"]);
    let refused = [
        "decimal left out",
        "decimals left out",
        "decimals added",
        "decimal changed",
        "point left out",
        "point changed",
        "second point",
        "space put in",
        "zeros in front",
        "digits in front",
        "whole part changed",
        "minus put in",
    ];
    tally.require(1, &refused.map(|name| format!("{name}, refusal  7")));
    let passing = [
        "decimal changed",
        "point left out",
        "digits in front",
        "whole part changed",
        "minus put in",
    ];
    tally.require(LEAST, &passing.map(|name| format!("{name}, accepted")));
    tally.require(LEAST, &["digits in front, refusal 12"]);
}
