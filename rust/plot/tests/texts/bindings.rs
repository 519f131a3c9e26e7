//! The bindings' Rust values for the printed register and text of document 01.

use plot::{Kind, Line, LineKind, Plan, Refusal, Register, Text};
use reference::printed::{TEXT, register};

fn printed() -> Register {
    Register::from_bytes(register()).expect("it loads")
}

fn refused<T>(kind: Kind, line: u64) -> Result<T, Refusal> {
    Err(Refusal { kind, line })
}

#[test]
fn check_gives_steps_and_most_lines() {
    let register = printed();
    let checked =
        |text: &[u8]| Text::check(&register, text).map(|text| (text.steps(), text.most_lines()));
    assert_eq!(checked(TEXT), Ok((1, 3)));
    assert_eq!(checked(b""), Ok((0, 0)));
    assert_eq!(checked(b"step\nend\nx\n"), refused(Kind::Form, 3));
    assert_eq!(Register::from_bytes([]), refused(Kind::FileLength, 0));
}

#[test]
fn plan_gives_lines_and_whether_a_remote_exchange_follows() {
    let register = printed();
    let plan = |text: &[u8], step| Text::check(&register, text)?.plan(step);
    let line = |kind, letters: &str, round| Line {
        kind,
        letters: letters.to_owned(),
        round,
    };
    let lines = vec![
        line(LineKind::Back, "A", 1),
        line(LineKind::Back, "AA", 2),
        line(LineKind::Read, "AAM", 3),
    ];
    let remote = false;
    assert_eq!(plan(TEXT, 1), Ok(Plan { lines, remote }));
    let writes = b"step\nend\nstep\nremote M[A[u]] += 1\nend\n";
    let (lines, remote) = (vec![], true);
    assert_eq!(plan(writes, 2), Ok(Plan { lines, remote }));
    assert_eq!(plan(writes, 3), refused(Kind::Step, 0));
    assert_eq!(plan(b"end\n", 3), refused(Kind::Place, 1));
}
