//! Every call goes through with a stack of 1 MiB, whatever it is given.

use generate::random::Random;
use generate::registers;
use plot::lent::{self, Answer, PathBuffers, PlanBuffers, RunBuffers};
use reference::register::Sizes;
use std::thread;

const STACK: usize = 1 << 20;

const SIZES: Sizes = Sizes {
    records: 16,
    references: 1,
    measures: 1,
};

/// A chain of 16 hops.
fn chain() -> String {
    format!("M[{}u{}]", "A[".repeat(15), "]".repeat(15))
}

/// Texts that are read and worked out as deep as may be, and deeper, each with its refusal.
fn texts() -> [(String, u32); 4] {
    let nested = |open: &str, inner: &str, times: usize| {
        format!("{}{inner}{}", open.repeat(times), ")".repeat(times))
    };
    let (chain, sums) = (chain(), " - 1".repeat(64));
    let test = nested("(", &chain, 8);
    let long = format!("if {test}{sums} < 1: remote M[A[u]] += 1{sums}");
    let deep = format!("M[u] := {}", nested("(0 <? ", &chain, 8));
    let deeper = format!("M[u] := {}", nested("(", "1", 3000));
    let longer = format!("A[u] := {}u{}", "A[".repeat(2500), "]".repeat(2500));
    [(long, 0), (deep, 0), (deeper, 24), (longer, 11)]
        .map(|(rule, refusal)| (format!("step\n{rule}\nend\n"), refusal))
}

/// Each function that takes a text, by its refusal.
fn calls(register: &[u8], text: &[u8]) -> [u32; 5] {
    let answer = &mut Answer::default();
    let plan = &mut PlanBuffers::default();
    let length = SIZES.records * (64 + SIZES.fields() + 1);
    let mut buffers = RunBuffers {
        output: vec![0; register.len()],
        values: vec![0; length],
        marks: vec![0; length],
    };
    let run = |buffers: &mut RunBuffers, by: lent::RunBy| {
        by(register, text, 9, buffers, &mut Answer::default())
    };
    [
        run(&mut buffers, lent::run_direct),
        run(&mut buffers, lent::run_messages),
        lent::check(register, text, answer),
        lent::plan(register, text, 1, plan, answer),
        lent::inspect(
            register,
            text,
            1,
            9,
            &mut buffers.values,
            &mut buffers.marks,
            answer,
        ),
    ]
}

#[test]
fn calls_need_less_than_1_mib() {
    let register = registers::full_file(&mut Random::new(70), SIZES);
    let work = move || {
        for (text, refusal) in texts() {
            assert_eq!(calls(&register, text.as_bytes()), [refusal; 5]);
        }
        let (chain, answer) = (chain(), &mut Answer::default());
        let mut value = 0;
        let mut hops = PathBuffers::default();
        assert_eq!(
            lent::read(&register, chain.as_bytes(), 1, &mut value, answer),
            0
        );
        assert_eq!(
            lent::path(&register, chain.as_bytes(), 1, &mut hops, answer),
            0
        );
    };
    let thread = thread::Builder::new().stack_size(STACK).spawn(work);
    thread.expect("it starts").join().expect("it goes through");
}
