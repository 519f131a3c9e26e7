//! `plot explain`: what a refusal means, what to do, and an example that gets it.

use crate::arguments::{Arguments, Form};
use crate::commands::{Command, Outcome};
use crate::failure::Failure;
use crate::json;
use plot::Kind;

/// The command.
pub const COMMAND: Command = Command {
    name: "explain",
    form: Form {
        operands: &["NUMBER"],
        flags: &["--json"],
        valued: &[],
    },
    help: include_str!("../help/explain.txt"),
    run: explain,
};

/// A kind of refusal, and the commands that get it; they end with the one that is
/// refused.
type Example = (Kind, &'static [&'static str]);

/// The examples, in the order of their numbers. Only programs in C meet 18 and 19: the
/// command lends what is asked for.
#[rustfmt::skip]
const EXAMPLES: [Example; 21] = [
    (Kind::FileLength, &["head -c 40 three.register | plot show -"]),
    (Kind::Size, &["printf '\\377\\377\\0\\0\\1\\0\\0\\0\\1\\0\\0\\0' | plot show -"]),
    (Kind::Mark, &["{ head -c 41 three.register; printf '\\7'; } | plot show -"]),
    (Kind::UnfilledValue, &["{ head -c 41 three.register; printf '\\0'; } | plot show -"]),
    (Kind::Reference, &["{ head -c 12 three.register; printf '\\3'; tail -c 29 three.register; } | plot show -"]),
    (Kind::TextLength, &["yes 'M[u] := 1' | head -n 900 | plot check three.register -"]),
    (Kind::Form, &["printf 'step\\nM[u] = 1\\nend\\n' | plot check three.register -"]),
    (Kind::Place, &["printf 'M[u] := 1\\n' | plot check three.register -"]),
    (Kind::Field, &["printf 'step\\nM[u] := N[u]\\nend\\n' | plot check three.register -"]),
    (Kind::FieldKind, &["printf 'step\\nM[u] := A[u]\\nend\\n' | plot check three.register -"]),
    (Kind::Hops, &["plot read three.register 'A[A[A[A[A[A[A[A[A[A[A[A[A[A[A[A[A[u]]]]]]]]]]]]]]]]]' 0"]),
    (Kind::Number, &["printf 'step\\nM[u] := 2147483648\\nend\\n' | plot check three.register -"]),
    (Kind::Count, &["yes \"$(printf 'step\\nend')\" | head -n 66 | plot check three.register -"]),
    (Kind::RemoteSorts, &[
        "printf 'step\\nremote M[A[u]] <?= 1\\nremote M[A[u]] += 1\\nend\\n' | plot check three.register -"]),
    (Kind::PlanLines, &[
        "printf 'A,B,C,D,E,F,G,H,M\\n' | plot pack - -o wide.register",
        "{ echo step; printf 'M[u] := M[%s] + M[%s]\\n' {A..H}[{A..H}[u]]; echo end; } | plot check wide.register -"]),
    (Kind::Record, &["plot read three.register 'M[u]' 3"]),
    (Kind::Step, &["printf 'step\\nend\\n' | plot plan three.register - 2"]),
    (Kind::Budget, &["printf 'loop M\\nstep\\nM[u] := M[u] + 1\\nend\\ndone\\n' | plot run three.register -"]),
    (Kind::Range, &["printf 'step\\nM[u] := 2147483647 + 1\\nend\\n' | plot run three.register -"]),
    (Kind::Groups, &["printf 'step\\nM[u] := (((((((((1)))))))))\\nend\\n' | plot check three.register -"]),
    (Kind::Operators, &[
        "{ printf 'step\\nM[u] := 1'; yes '+1' | head -n 65 | tr -d '\\n'; printf '\\nend\\n'; } | plot check three.register -"]),
];

fn explain(arguments: &Arguments) -> Result<Outcome, Failure> {
    let number: usize = arguments.number(0, "NUMBER")?.expect("it is there");
    let Some(kind) = Kind::all().find(|kind| kind.number() as usize == number) else {
        let numbers: Vec<String> = Kind::all().map(|kind| kind.number().to_string()).collect();
        let numbers = numbers.join(", ");
        let told = format!("there is no refusal {number}: the numbers are {numbers}");
        return Err(Failure::Usage(told));
    };
    let example = EXAMPLES.iter().find(|(of, _)| *of == kind);
    let example = example.map_or(&[][..], |(_, lines)| lines);
    let shown = match arguments.has("--json") {
        true => json(kind, example),
        false => told(kind, example),
    };
    Ok(shown.into())
}

fn told(kind: Kind, example: &[&str]) -> String {
    let (number, meaning, advice) = (kind.number(), kind.meaning(), kind.advice());
    let lines = example.iter().map(|line| format!("  $ {line}\n"));
    let example = match example {
        [] => "Only programs in C meet it: the command lends what is asked for.\n".to_owned(),
        _ => format!(
            "For example (three.register is that of `plot explain --help`):\n{}",
            lines.collect::<String>()
        ),
    };
    format!("{number}: {meaning}\n\n{advice}\n\n{example}")
}

fn json(kind: Kind, example: &[&str]) -> String {
    let example = example.iter().map(|line| json::string(line));
    json::object(&[
        ("number", kind.number().to_string()),
        ("meaning", json::string(kind.meaning())),
        ("advice", json::string(kind.advice())),
        ("example", json::list(example)),
    ]) + "\n"
}
