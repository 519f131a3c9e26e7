//! Names of records and fields, kept beside a register.

use crate::folder::{Folder, Said};

/// A folder with the clerk's register, its depths worked out in `depths`.
fn clerk(name: &str) -> Folder {
    let folder = Folder::with_cemetery(name);
    folder
        .plot(&["pack", "clerk.csv", "-o", "clerk"])
        .has("wrote clerk.names");
    folder
        .plot(&["run", "clerk", "depths.rules", "-o", "depths"])
        .has("6 cells changed");
    folder
}

#[test]
fn every_command_shows_them() {
    let folder = clerk("names");
    let plot = |words: &[&str]| folder.plot(words);
    plot(&["show", "clerk"])
        .has("  record  plot     A mark  M below mark  N below datum\n")
        .has("       4  East 1   Mark B           210              -\n");
    plot(&["show", "depths", "--gaps"]).has("  N  ~#~~~##~#. ~#  5  below datum\n");
    plot(&["read", "clerk", "A[u]", "East 1"]).is("Mark B\n");
    plot(&["read", "depths", "N[A[u]]", "North 1", "East 1-East 4"])
        .has("       4  East 1       65~\n");
    plot(&["path", "clerk", "N[A[u]]", "4"])
        .has("    1       4  East 1  A mark         Mark B\n")
        .has("N below datum of Mark B (record 10) is a gap, at hop 2.\n");
    plot(&["run", "clerk", "depths.rules"])
        .has("       0  North 1  N below datum       -   220~\n");
    plot(&["inspect", "clerk", "depths.rules", "1", "2"])
        .has("     0  Back  A[u]         1   Chapel   Chapel   Mark C   Chapel\n")
        .has("     1  Read  N[A[u]]      2   Mark B   Mark A   Mark B       40\n");
    folder.write("far.rules", "step\nN[u] := 2147483647 + M[u]\nend\n");
    let stopped = "Field N below datum of North 1 (record 0). ";
    plot(&["inspect", "clerk", "far.rules", "1", "1", "--after", "1"]).fails(1, stopped);
    let report = plot(&["report", "clerk", "far.rules", "-o", "far.html"]);
    assert!(report.err.contains(stopped), "{}", report.err);
    plot(&["why", "clerk", "N[A[u]]"])
        .has("N below datum of Mark B (record 10): stops 3 readings (East 1, ");
    plot(&["why", "clerk", "depths.rules", "below datum"])
        .has("       8  Chapel      3  N of Mark C");
    plot(&["unpack", "depths"]).has("East 1;Mark B;2.10;2.75~\n");
    let report = plot(&["report", "clerk", "depths.rules", "-o", "-"]).out;
    for text in [
        "<th scope=\"col\">M below mark",
        "<th scope=\"row\">4 East 1",
        ">M below mark of North 2 (record 1)</button> stops",
    ] {
        assert!(report.contains(text), "{text}");
    }
    plot(&["plan", "clerk", "depths.rules"]).has("\nfields: A mark, M below mark, N below datum\n");
    let plan = plot(&["plan", "clerk", "depths.rules", "--svg", "-"]);
    plan.has(">fields: A mark, M below mark, N below datum<");
    plot(&["set", "clerk", "East 2", "mark", "Mark B", "-o", "set"])
        .is("wrote set: A mark of East 2 (record 5) was -, is Mark B\n");
    plot(&["set", "set", "East 3", "M", "1.95", "--in-place"])
        .is("wrote set: M below mark of East 3 (record 6) was -, is 195\n");
    let differ = plot(&["diff", "clerk", "set"]);
    assert!(
        differ
            .out
            .contains("       5  East 2  A mark             -  Mark B\n"),
        "{}",
        differ.out
    );
    let range = b"step\nN[u] := N[u] + 2147483647\nend\n";
    let stopped = folder.plot_with(&["run", "clerk", "-"], range);
    stopped.fails(1, "Field N below datum of Mark A (record 9).");
    let picture = plot(&["show", "depths", "--svg", "-"]).out;
    for text in [">North 1<", ">M below mark<", ">Mark B<", ">275~<"] {
        assert!(picture.contains(text), "{text}");
    }
}

#[test]
fn programs_get_them_too() {
    let folder = clerk("names-json");
    let plot = |words: &[&str]| folder.plot(&[words, &["--json"]].concat());
    plot(&["show", "clerk"])
        .has("\"labels\":[\"North 1\",\"North 2\",")
        .has("\"names\":[\"mark\",\"below mark\",\"below datum\"]}");
    let cell = "{\"record\":10,\"label\":\"Mark B\",\"field\":\"N\",\"name\":\"below datum\"";
    plot(&["show", "clerk", "--gaps"]).has(&format!("{cell}}}"));
    plot(&["path", "clerk", "N[A[u]]", "4"])
        .has(&format!("{cell},\"cell\":null,\"worked_out\":false}}"));
    plot(&["run", "clerk", "depths.rules"]).has(&format!(
        "{cell},\"before\":null,\"before_worked_out\":false,\"after\":65,\"after_worked_out\":true}}"
    ));
    plot(&["why", "clerk", "N[A[u]]"]).has(&format!("{cell},\"stops\":[4,6,7]}}"));
    let plain = folder.plot(&["show", "clerk", "--json", "--no-names"]);
    assert!(!plain.out.contains("North"));
}

/// Without names all is as it would be with none there.
#[test]
fn names_can_be_left_out_or_taken_from_elsewhere() {
    let folder = clerk("names-options");
    folder.write("bare", folder.read("depths"));
    for words in [
        &["show"][..],
        &["show", "--gaps"],
        &["show", "--svg", "-"],
        &["read", "--all", "N[A[u]]"],
        &["path", "--all", "N[A[u]]"],
        &["why", "N[A[u]]"],
        &["why", "depths.rules", "N"],
        &["inspect", "depths.rules", "1", "2"],
        &["run", "ranking.rules"],
        &["unpack"],
    ] {
        let with = |register: &str, options: &[&str]| -> Said {
            let (command, rest) = words.split_first().expect("it has a command");
            let (options_first, operands): (Vec<&str>, Vec<&str>) =
                rest.iter().partition(|word| word.starts_with('-'));
            folder.plot(
                &[
                    &[*command, register],
                    &operands[..],
                    &options_first[..],
                    options,
                ]
                .concat(),
            )
        };
        assert_eq!(
            with("depths", &["--no-names"]),
            with("bare", &[]),
            "{words:?}"
        );
        let named = with("depths", &[]);
        assert_eq!(
            with("bare", &["--names", "clerk.names"]),
            named,
            "{words:?}"
        );
    }
    let both = ["show", "clerk", "--names", "clerk.names", "--no-names"];
    folder
        .plot(&both)
        .fails(2, "--names and --no-names exclude each other");
    folder
        .plot(&["show", "clerk", "--names", "nothing"])
        .fails(2, "cannot read nothing: there is no such file");
}

/// The names of a register that is written go beside it, and old ones do not stay.
#[test]
fn names_go_with_the_register() {
    let folder = clerk("names-written");
    assert_eq!(folder.read("depths.names"), folder.read("clerk.names"));
    folder.plot(&["run", "clerk", "depths.rules", "-o", "x", "--no-names"]);
    assert!(!folder.at("x.names").exists());
    let pack = ["pack", "clerk.csv", "-o", "x", "--names", "mine"];
    folder.plot(&pack).has("wrote mine: the names");
    assert_eq!(folder.read("mine"), folder.read("clerk.names"));
    assert!(!folder.at("x.names").exists());
    folder
        .plot(&["pack", "full.csv", "-o", "clerk"])
        .has("removed clerk.names: names of what stood there before\n");
    assert!(!folder.at("clerk.names").exists());
    folder
        .plot(&["run", "full.register", "ranking.rules", "-o", "depths"])
        .has("changed");
    assert!(!folder.at("depths.names").exists());
    folder.plot(&["pack", "clerk.csv", "-o", "y"]);
    folder
        .plot(&["run", "y", "depths.rules", "--in-place"])
        .has("North 1");
    folder.plot(&["show", "y"]).has("North 1");
    let lost = folder.plot(&["pack", "clerk.csv", "-o", "-"]);
    let left_out = "the names are left out: --names FILE tells where they go\n";
    assert!(lost.err.ends_with(left_out), "{}", lost.err);
    let one = ["pack", "clerk.csv", "-o", "w", "--names", "w"];
    folder.plot(&one).fails(2, "-o and --names are of one file");
    folder.write("z.names", "A\n");
    let over = ["pack", "z.names", "-o", "z"];
    folder.plot(&over).fails(
        2,
        "z.names is read here, and the names are not written over it",
    );
}

#[test]
fn names_that_do_not_fit() {
    let folder = Folder::new("names-faults");
    folder.plot_with(&["pack", "-", "-o", "r"], b"A,M\n1,5\n,\n");
    for (names, wrong) in [
        ("", "row 1: the first row is of,name,as"),
        ("name,of\n", "row 1: the first row is of,name,as"),
        (
            "of,name,as\n2,x,\n",
            "row 2: \"2\" is no field and no record of the register",
        ),
        ("of,name,as\nN,x,\n", "row 2: \"N\" is no field"),
        (
            "of,name,as\n0,x,\n1,x,\n",
            "row 3: \"x\" is the label of two records, 0 and 1",
        ),
        (
            "of,name,as\n0,x\n",
            "row 2: it has 2 cells, and the header 3",
        ),
        (
            "of,name,as\nA,x,metres\n",
            "row 2: \"metres\" is no way to write A",
        ),
        (
            "of,name,as\nsheet,,dot\n",
            "row 2: a delimiter is comma, semicolon or tab, not \"dot\"",
        ),
        (
            "of,name,as\n0,\u{1b}[2J,\n",
            "row 2: \"\\u{1b}[2J\" has control characters",
        ),
    ] {
        folder.write("r.names", names);
        for words in [
            &["show", "r"][..],
            &["read", "r", "u", "0"],
            &["unpack", "r"],
            &["why", "r", "u"],
        ] {
            let said = folder.plot(words).fails(1, wrong);
            assert!(said.err.contains("use --no-names"), "{}", said.err);
        }
        folder.plot(&["show", "r", "--no-names"]).has("2 records");
    }
    folder.write("r.names", [b"of,name,as\n".as_slice(), &[0xff]].concat());
    folder
        .plot(&["show", "r"])
        .fails(1, "row 2: this is no text in UTF-8");
    folder.write("r.names", "of,name,as\r\n\r\n0,\"a, \"\"b\"\"\",\r\n");
    folder
        .plot(&["show", "r"])
        .has("       0  a, \"b\"  1  5\n");
}

/// Where labels are numbers, a number is a label.
#[test]
fn labels_that_are_numbers() {
    let folder = Folder::new("names-numbers");
    let sheet = b"plot,A,M\n2,3,5\n3,2,6\n,#2,7\n";
    folder
        .plot_with(&["pack", "-", "-o", "r"], sheet)
        .has("wrote r.names");
    folder.plot(&["read", "r", "M[u]", "2"]).is("5\n");
    folder.plot(&["read", "r", "M[u]", "#2"]).is("7\n");
    folder
        .plot(&["read", "r", "M[u]", "2", "--no-names"])
        .is("7\n");
    folder.plot(&["read", "r", "A[u]", "#2"]).is("#2\n");
    folder
        .plot(&["read", "r", "M[u]", "0"])
        .fails(2, "RECORD is a number from 0 on");
    assert_eq!(folder.plot(&["unpack", "r"]).out.as_bytes(), sheet);
}

/// Control bytes of a file name are written out, and so do nothing to a terminal.
#[test]
fn names_of_files_are_escaped() {
    let folder = Folder::with_cemetery("names-escaped");
    let name = "a\u{1b}[31mb\nc";
    let shown = "a\\u{1b}[31mb\\nc";
    let only = |said: Said| assert!(!said.err.contains('\u{1b}') && !said.out.contains('\u{1b}'));
    only(
        folder
            .plot(&["show", name])
            .fails(2, &format!("cannot read {shown}: ")),
    );
    folder.write(name, b"short");
    only(
        folder
            .plot(&["show", name])
            .fails(1, &format!("{shown}: refused 1")),
    );
    only(
        folder
            .plot(&["check", "full.register", name])
            .fails(1, &format!("{shown}: refused 7")),
    );
    only(
        folder
            .plot(&["pack", name, "-o", "x"])
            .fails(1, &format!("{shown}: 1 thing is wrong")),
    );
    only(
        folder
            .plot(&["pack", name, "-o", name])
            .fails(2, &format!("{shown} is read here")),
    );
    only(
        folder
            .plot(&["pack", "clerk.csv", "-o", name])
            .has(&format!("wrote {shown}: 12 records")),
    );
    only(
        folder
            .plot(&["unpack", name, "-o", "no/\u{7}"])
            .fails(2, "cannot write no/\\u{7}: "),
    );
    only(
        folder
            .plot(&["show", "x", "--\u{1b}"])
            .fails(2, "there is no option --\\u{1b}"),
    );
}
