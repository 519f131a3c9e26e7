//! `plot why`.

use crate::folder::{Folder, Said};
use generate::cases::Case;
use generate::random::Random;
use generate::{chains, registers};
use plot::{Cell, End, Machine, Register, Sizes};
use std::collections::BTreeMap;
use std::time::Instant;

#[test]
fn the_gaps_behind_a_chain() {
    let folder = Folder::with_cemetery("why-chain");
    let why = |words: &[&str]| {
        let words = [&["why", "sparse.register", "N[A[u]]"], words].concat();
        folder.plot(&words)
    };
    why(&[]).is("7 of 12 readings of N[A[u]] are unfilled: 5 gaps stop them
N of record 10: stops 3 readings (records 4, 6-7)
A of record 5: stops 1 reading (record 5)
A of record 9: stops 1 reading (record 9)
A of record 11: stops 1 reading (record 11)
N of record 11: stops 1 reading (record 8)
");
    why(&["--csv"]).is("record,plot,field,name,stops,records
10,,N,,3,4 6-7
5,,A,,1,5
9,,A,,1,9
11,,A,,1,11
11,,N,,1,8
");
    why(&["--json"]).has("{\"chain\":\"N[A[u]]\",\"records\":12,\"unfilled\":7,\"gaps\":[{\"record\":10,\"field\":\"N\",\"stops\":[4,6,7]},");
    let none = folder.plot(&["why", "full.register", "u"]);
    none.is("every reading of u is filled, at 12 records\n");
}

#[test]
fn a_long_list_is_cut() {
    let folder = Folder::new("why-long");
    let rows: String = (0..60).map(|u| ["0,1\n", "1,\n"][u % 2]).collect();
    let sheet = format!("A,M\n{rows}");
    folder.plot_with(&["pack", "-", "-o", "r"], sheet.as_bytes());
    folder.plot(&["why", "r", "M[A[u]]"]).is(
        "30 of 60 readings of M[A[u]] are unfilled: 1 gap stops them\n\
         M of record 1: stops 30 readings (records 1, 3, 5, 7, 9, 11, 13, 15, 17, 19 and 20 more)\n",
    );
}

#[test]
fn the_gaps_behind_a_run() {
    let folder = Folder::with_cemetery("why-rules");
    let before = folder.read("sparse.register");
    let why = |words: &[&str]| {
        let words = [&["why", "sparse.register", "depths.rules", "N"], words].concat();
        folder.plot(&words)
    };
    why(&[]).is("5 of 12 records have no N at the end: 5 gaps stop them
A of record 11: stops 2 records (8, 11)
M of record 11: stops 2 records (8, 11)
M of record 1: stops 1 record (1)
A of record 5: stops 1 record (5)
M of record 6: stops 1 record (6)
Rules that fill N:
  line 3: N[u] := N[A[u]] + M[u]
  record  line  stopped by        behind that
       1     3  M of 1
       5     3  A of 5
       6     3  M of 6
       8     3  N of 11           A of 11; M of 11
      11     3  A of 11; M of 11
");
    why(&["--csv"]).has("record,plot,field,name,stops,records\n11,,A,,2,8 11\n");
    why(&["--json"]).has(
        "{\"record\":8,\"line\":3,\"why\":\"gaps\",\"by\":[{\"record\":11,\"field\":\"N\"}],\
         \"roots\":[{\"record\":11,\"field\":\"A\"},{\"record\":11,\"field\":\"M\"}]}",
    );
    assert_eq!(folder.read("sparse.register"), before);
}

/// The diary is the sheet with a question mark in each gap; filled in and packed it
/// leaves no gap behind the field.
#[test]
fn a_diary_can_be_filled_in() {
    let folder = Folder::with_cemetery("why-diary");
    let why = [
        "why",
        "sparse.register",
        "depths.rules",
        "N",
        "-o",
        "diary.csv",
    ];
    folder
        .plot(&why)
        .has("wrote diary.csv: ? in 5 cells to fill in\n");
    let diary = String::from_utf8(folder.read("diary.csv")).expect("it is text");
    assert_eq!(diary.matches('?').count(), 5);
    folder
        .plot(&["pack", "diary.csv", "-o", "again"])
        .has("wrote again");
    assert_eq!(folder.read("again"), folder.read("sparse.register"));
    let rows = diary.lines().map(|row| match row.strip_prefix('?') {
        Some(rest) => format!("9{rest}\n"),
        None => format!("{row}\n"),
    });
    let filled = rows.collect::<String>().replace('?', "10");
    folder.plot_with(&["pack", "-", "-o", "filled"], filled.as_bytes());
    folder
        .plot(&["why", "filled", "depths.rules", "N"])
        .has("every record has N at the end, all 12\n");
    let to_output = folder.plot(&["why", "sparse.register", "N[A[u]]", "-o", "-"]);
    assert!(to_output.out.starts_with("A,B,C,D,M,N,O\n"));
    assert!(to_output.err.starts_with("7 of 12 readings"));
    let over = ["why", "sparse.register", "N[A[u]]", "-o", "sparse.register"];
    folder.plot(&over).fails(2, "sparse.register is read here");
}

/// What a text leaves unfilled in N over a sheet.
fn why_text(folder: &Folder, sheet: &str, text: &str) -> Said {
    folder.plot_with(&["pack", "-", "-o", "r"], sheet.as_bytes());
    folder.write("t", text);
    folder.plot(&["why", "r", "t", "N"])
}

#[test]
fn rules_that_are_stopped_by_no_gap() {
    let folder = Folder::new("why-no-gap");
    let early = "step\nN[u] := M[u] + 1\nend\nstep\nM[u] := 5\nend\n";
    why_text(&folder, "M,N\n,\n", early)
        .has("N of record 0: stops 1 record (0)\n")
        .has("       0     2  nothing any more: run the rules again\n");
    let test = "step\nif M[u] < 0: N[u] := 1\nend\n";
    why_text(&folder, "M,N\n5,\n", test).has("       0     2  its test, which does not hold\n");
    let range = early.replace("+ 1", "+ 2147483647");
    why_text(&folder, "M,N\n,\n", &range)
        .has("       0     2  a number out of range, were it done now\n");
    let remote = "step\nremote N[A[u]] <?= M [ A[u] ]\nend\n";
    why_text(&folder, "A,M,N\n1,5,\n,,\n", remote)
        .has("       0     2  no record writes to this one\n")
        .has("       1     2  M of 1\n");
    let adds = "step\nremote N[u] += 1\nend\nloop N\nstep\nend\ndone\n";
    why_text(&folder, "M,N\n5,\n", adds).has("No rule fills N.\n");
}

#[test]
fn gaps_that_wait_for_each_other() {
    let folder = Folder::new("why-circle");
    let depths = "loop N\nstep\nN[u] := N[A[u]] + M[u]\nend\ndone\n";
    why_text(&folder, "A,M,N\n2,1,\n0,1,\n1,1,\n0,1,\n", depths)
        .has("4 of 4 records have no N at the end: 1 gap stops them\n")
        .has("N of record 0: stops 4 records (0-3)\n")
        .has("       3     3  N of 0, which waits for itself\n");
}

#[test]
fn what_cannot_be_asked() {
    let folder = Folder::with_cemetery("why-refused");
    let why = |words: &[&str]| folder.plot(&[&["why", "full.register"], words].concat());
    why(&[]).fails(2, "CHAIN or RULES is missing");
    why(&["depths.rules"]).fails(2, "FIELD is missing behind RULES");
    why(&["M[Z[u]]"]).fails(1, "refused 9");
    why(&["M[u", "--csv"]).fails(1, "refused 7");
    why(&["depths.rules", "Z"]).fails(2, "FIELD is one of A, B, C, D, M, N, O, not \"Z\"");
    why(&["depths.rules", "N", "x"]).fails(2, "there is no place for \"x\"");
    why(&["nothing.rules", "N"]).fails(2, "cannot read nothing.rules");
    why(&["full.csv", "N"]).fails(1, "refused 7");
    why(&["depths.rules", "N", "--budget", "1"]).fails(1, "refused 20");
    why(&["u", "--budget", "1"]).fails(2, "--budget goes with RULES only");
    folder.write("u", "");
    why(&["u"]).has("every reading of u is filled");
    why(&["u", "--csv", "--json"]).fails(2, "--csv and --json exclude each other");
    let empty = folder.plot_with(&["why", "-", "A[u]"], &[0; 12]);
    empty.fails(1, "refused 9");
}

/// The gaps of a chain are the ends of the paths that the reading of the paper gives.
#[test]
fn generated_chains() {
    let folder = Folder::new("why-generated");
    let mut random = Random::new(41);
    let mut asked = 0;
    for _ in 0..150 {
        let sizes = registers::sizes(&mut random);
        let bytes = registers::file(&mut random, sizes);
        let chain = chains::any(&mut random, sizes);
        let path = |u: usize| reference::path::path(&bytes, &chain, u as u64);
        let Some(Ok(_)) = (sizes.records > 0).then(|| path(0)) else {
            continue;
        };
        let mut gaps: BTreeMap<(usize, char), Vec<usize>> = BTreeMap::new();
        for u in 0..sizes.records {
            let hops = path(u).expect("it is not refused");
            let end = hops.last().filter(|hop| hop.cell.value().is_none());
            if let Some(hop) = end {
                let field = char::from(sizes.letter(hop.field));
                gaps.entry((hop.record, field)).or_default().push(u);
            }
        }
        let chain = String::from_utf8(chain).expect("it is a chain");
        let said = folder.plot_with(&["why", "-", &chain, "--json"], &bytes);
        for ((record, field), stops) in &gaps {
            let stops: Vec<String> = stops.iter().map(usize::to_string).collect();
            let stops = stops.join(",");
            let gap = format!("{{\"record\":{record},\"field\":\"{field}\",\"stops\":[{stops}]}}");
            assert!(said.out.contains(&gap), "{gap} is not in\n{}", said.out);
        }
        assert_eq!(said.out.matches("\"stops\"").count(), gaps.len());
        asked += 1;
    }
    assert!(asked >= 60, "only {asked} chains");
}

/// Every record that is unfilled at the end is told, with gaps of the register itself.
#[test]
fn generated_texts() {
    let folder = Folder::new("why-texts");
    let mut random = Random::new(42);
    let mut asked = 0;
    for _ in 0..120 {
        let case = Case::small(&mut random);
        let register = Register::from_bytes(case.register.as_slice()).expect("it loads");
        let run = register
            .run(&case.text, Machine::Direct, 50)
            .expect("it passes");
        let fields: Vec<char> = register.sizes().fields().collect();
        if run.end != End::Whole || fields.is_empty() {
            continue;
        }
        let field = random.pick(&fields);
        let records = 0..register.sizes().records;
        let unfilled = records.filter(|&u| run.register.cell(u, field) == Some(Cell::Unfilled));
        let unfilled = unfilled.count();
        folder.write("register", &case.register);
        folder.write("rules", &case.text);
        let field = field.to_string();
        let why = [
            "why", "register", "rules", &field, "--budget", "50", "-o", "diary",
        ];
        let told = match unfilled {
            0 => "every record has ".to_owned(),
            unfilled => format!("{unfilled} of "),
        };
        folder.plot(&why).has(&told);
        let diary = String::from_utf8(folder.read("diary")).expect("it is text");
        assert_eq!(diary.contains('?'), unfilled > 0, "{diary}");
        folder
            .plot(&["pack", "diary", "-o", "again"])
            .has("wrote again");
        assert_eq!(folder.read("again"), case.register);
        asked += 1;
    }
    assert!(asked >= 20, "only {asked} texts");
}

/// The largest register and the longest chain, which ends in a gap at every third
/// record.
#[test]
fn the_largest_register() {
    let folder = Folder::new("why-largest");
    let sizes = Sizes {
        records: 4096,
        references: 8,
        measures: 8,
    };
    let cells = (0..sizes.cells()).map(|place| {
        let (record, column) = (place / sizes.width(), place % sizes.width());
        match column < sizes.references {
            true => Some(((record * 7 + column + 1) % sizes.records) as i32),
            false => (record % 3 != 0).then_some(5),
        }
    });
    let cells: Vec<Option<i32>> = cells.collect();
    let register = Register::from_cells(sizes, &cells).expect("it loads");
    folder.write("largest", register.as_bytes());
    let chain = format!("M[{}u{}", "A[".repeat(15), "]".repeat(16));
    let began = Instant::now();
    let why = folder.plot(&["why", "largest", &chain]);
    let took = began.elapsed();
    why.has("1366 of 4096 readings")
        .has("1366 gaps stop them\n");
    println!("plot why, 4096 records and 16 hops: {took:?}");
    // Other tests run beside it.
    assert!(took.as_secs() < 5, "{took:?}");
}
