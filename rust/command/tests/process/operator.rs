//! What the exchange operator looks at: traces, remote writes, the register in the
//! middle of a run.

use crate::folder::Folder;
use generate::cases::Case;
use generate::random::Random;
use plot::{End, Machine, Register};

const COMPONENTS: [&str; 3] = ["run", "full.register", "components.rules"];

#[test]
fn a_row_for_each_finished_step() {
    let folder = Folder::with_cemetery("trace");
    let said = folder.plot(&[&COMPONENTS[..], &["--trace"]].concat());
    said.has(
        "7 steps finished, 15 exchanges, 192 messages
  finished  step  pass  exchanges  messages  cells changed
         1     1     -          0         0             12
         2     2     1          3        40              3
         3     3     1          2        24              0
         4     2     2          3        40              7
         5     3     2          2        24              4
         6     2     3          3        40              0
         7     3     3          2        24              0
12 cells changed
",
    );
    let direct = folder.plot(&[&COMPONENTS[..], &["--trace", "--direct"]].concat());
    direct.has("         2     2     1          -         -              3\n");
    let none = folder.plot_with(&["run", "full.register", "-", "--trace"], b"");
    none.is("0 steps finished, 0 exchanges, 0 messages\n0 cells changed\n");
}

#[test]
fn a_trace_of_a_run_that_is_stopped() {
    let folder = Folder::with_cemetery("trace-stopped");
    let said = folder.plot(&[&COMPONENTS[..], &["--trace", "--budget", "2"]].concat());
    assert_eq!(said.status, 1);
    assert!(
        said.err.starts_with("plot: components.rules: refused 20"),
        "{}",
        said.err
    );
    assert_eq!(said.out.lines().count(), 3, "{}", said.out);
    let range = b"step\nend\nstep\nN[u] := N[u] + 2147483647\nend\n";
    let words = ["run", "full.register", "-", "--trace", "--json"];
    let said = folder.plot_with(&words, range);
    assert_eq!(said.status, 1);
    let expected = "{\"refused\":21,\"finished\":1,\"record\":9,\"field\":\"N\",\"trace\":[\
                    {\"step\":1,\"pass\":null,\"exchanges\":0,\"messages\":0,\"changed\":0}],";
    assert!(said.out.starts_with(expected), "{}", said.out);
    assert_eq!(said.out.lines().count(), 1);
}

/// The sum of the numbers behind a name in a line of JSON.
fn sum(json: &str, name: &str) -> u64 {
    let name = format!("\"{name}\":");
    let numbers = json.split(&name).skip(1).map(|part| {
        let end = part.find(|c: char| !c.is_ascii_digit());
        part[..end.unwrap_or(part.len())]
            .parse::<u64>()
            .expect("a number")
    });
    numbers.sum()
}

/// The rows of a trace add up to what the library counts for the whole run, and the
/// messages that are shown of a step, remote writes too, to what it counts for the
/// step alone.
#[test]
fn generated_traces_and_remote_writes() {
    let folder = Folder::new("trace-generated");
    let mut random = Random::new(42);
    let (mut traced, mut remote) = (0, 0);
    for _ in 0..100 {
        let case = Case::small(&mut random);
        folder.write("register", &case.register);
        folder.write("rules", &case.text);
        let register = Register::from_bytes(case.register.as_slice()).expect("it loads");
        let run = register
            .run(&case.text, Machine::Messages, 40)
            .expect("it passes");
        let words = [
            "run", "register", "rules", "--budget", "40", "--trace", "--json",
        ];
        let said = folder.plot(&words);
        let (_, trace) = said.out.split_once("\"trace\":").expect("there is one");
        assert_eq!(trace.matches("\"step\":").count() as u64, run.finished);
        assert_eq!(sum(trace, "messages"), run.messages);
        assert_eq!(sum(trace, "exchanges"), run.exchanges);
        traced += run.finished;
        for (number, step) in (1..).zip(case.text.split_inclusive_steps()) {
            let run = register
                .run(&step, Machine::Messages, 1)
                .expect("it passes");
            let number = number.to_string();
            let said = folder.plot(&["inspect", "register", "rules", &number, "9", "--json"]);
            if run.end != End::Whole {
                continue;
            }
            let shown = said.out.matches("\"carries\":").count() as u64;
            assert_eq!(shown, run.messages, "{}", String::from_utf8_lossy(&step));
            remote += said.out.matches("\"kind\":\"remote\"").count();
        }
    }
    assert!(
        traced > 200 && remote > 100,
        "{traced} steps, {remote} remote writes"
    );
}

/// The steps of a text, each as a text of its own.
trait Steps {
    fn split_inclusive_steps(&self) -> Vec<Vec<u8>>;
}

impl Steps for Vec<u8> {
    fn split_inclusive_steps(&self) -> Vec<Vec<u8>> {
        let lines: Vec<&[u8]> = self.split_inclusive(|&byte| byte == b'\n').collect();
        let starts = (0..lines.len()).filter(|&place| lines[place] == b"step\n");
        let step = |start: usize| {
            let length = lines[start..].iter().position(|line| *line == b"end\n");
            lines[start..=start + length.expect("it is closed")].concat()
        };
        starts.map(step).collect()
    }
}

#[test]
fn remote_writes_are_listed() {
    let folder = Folder::new("inspect-remote");
    folder.write("three.csv", "A,M\n1,\n2,0\n,180~\n");
    folder.plot(&["pack", "three.csv", "-o", "three"]);
    let rules = "step\nif M[A[u]] < 9:remote  M[ A[u] ] += (M[u] <? 5)+ M[A[u]]\n\
                 remote M[A[u]]+=7\nif 1 == 1: remote A[u] <?= u\nend\n";
    folder.write("rules", rules);
    let inspect = |round| folder.plot(&["inspect", "three", "rules", "1", round]);
    let without = inspect("2");
    assert!(!without.out.contains("remote"), "{}", without.out);
    without.has("step 1 after round 2 of 3: 4 messages\n");
    inspect("3")
        .has("step 1 after round 3 of 3: 9 messages, 5 of remote writes\n")
        .has("     -  remote  M[A[u]] +=      3       0     0   1        7\n")
        .has("     -  remote  A[u] <?=        3       2     2   2        2\n");
    let said = folder.plot(&["inspect", "three", "rules", "1", "3", "--json"]);
    said.has(
        "{\"line\":null,\"kind\":\"remote\",\"chain\":\"A[u]\",\"sign\":\"<?=\",\"round\":3,\
         \"origin\":0,\"from\":0,\"to\":0,\"carries\":0}",
    );
    folder.write(
        "range",
        "step\nM[u] := 2147483647 + 1\nremote M[u] += 1\nend\n",
    );
    folder
        .plot(&["inspect", "three", "range", "1", "1"])
        .has("The remote writes are not sent: the step is stopped at field M of record 0");
}

#[test]
fn in_the_middle_of_a_run() {
    let folder = Folder::with_cemetery("inspect-after");
    let inspect = |after| {
        let words = [
            "inspect",
            "full.register",
            "components.rules",
            "2",
            "3",
            "--after",
        ];
        folder.plot(&[&words[..], &[after]].concat())
    };
    inspect("0").has("step 2 after round 3 of 3: 10 messages\n");
    inspect("1").has("3 of 3, 1 step finished before: 40 messages, 20 of remote writes\n");
    inspect("7").has("7 steps finished before: ");
    inspect("8").fails(2, "--after 8: the run has only 7 steps");
    inspect("65536").fails(2, "--after is a number from 0 to 65535");
    let range = b"step\nend\nstep\nN[u] := N[u] + 2147483647\nend\n";
    let words = ["inspect", "full.register", "-", "1", "1", "--after", "2"];
    let said = folder.plot_with(&words, range);
    said.fails(1, "refused 21")
        .fails(1, "Field N of record 9. 1 step finished.");
}

#[test]
fn plans_have_writer_and_addressee() {
    let folder = Folder::with_cemetery("plan-json");
    let said = folder.plot(&["plan", "full.register", "components.rules", "2", "--json"]);
    said.is("{\"steps\":[{\"step\":2,\"lines\":[\
         {\"kind\":\"Back\",\"chain\":\"A[u]\",\"round\":1,\"from\":\"u\",\"to\":\"A[u]\"},\
         {\"kind\":\"Read\",\"chain\":\"D[A[u]]\",\"round\":2,\"from\":\"A[u]\",\"to\":\"u\"}],\
         \"exchanges\":3,\"remote\":true,\"writes\":[\
         {\"chain\":\"D[D[u]]\",\"sign\":\"<?=\",\"round\":3,\"from\":\"u\",\"to\":\"D[u]\",\
         \"carries\":\"D[A[u]]\",\"test\":\"\"},\
         {\"chain\":\"D[D[A[u]]]\",\"sign\":\"<?=\",\"round\":3,\"from\":\"u\",\"to\":\"D[A[u]]\",\
         \"carries\":\"D[u]\",\"test\":\"\"}]}]}\n");
    let picture = folder.plot(&["plan", "full.register", "components.rules", "--svg", "-"]);
    picture
        .has("stroke-dasharray")
        .has(">remote D[D[u]] &lt;?= D[A[u]]<")
        .has(">remote<");
}
