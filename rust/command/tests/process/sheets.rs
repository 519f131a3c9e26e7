//! `plot pack` and `plot unpack`.

use crate::folder::{Folder, PLOT};
use generate::random::Random;
use generate::registers;
use reference::register::Sizes;
use std::process::Command;

/// A register and a sheet say the same: each gives the other back.
#[test]
fn sheets_of_generated_registers() {
    let folder = Folder::new("sheets");
    let mut random = Random::new(35);
    let fieldless = Sizes {
        records: 3,
        references: 0,
        measures: 0,
    };
    let mut sizes = vec![registers::LARGEST, fieldless];
    sizes.extend((0..150).map(|_| registers::sizes(&mut random)));
    sizes.extend((0..3).map(|_| registers::large_sizes(&mut random)));
    for sizes in sizes {
        let bytes = registers::file(&mut random, sizes);
        folder.write("register", &bytes);
        folder
            .plot(&["unpack", "register", "-o", "sheet.csv"])
            .is("");
        folder
            .plot(&["pack", "sheet.csv", "-o", "again"])
            .has("wrote again: ");
        assert_eq!(folder.read("again"), bytes);
        let sheet = folder.read("sheet.csv");
        assert_eq!(
            sheet.iter().filter(|&&b| b == b'\n').count(),
            1 + sizes.records
        );
        let said = folder.plot(&["unpack", "again"]);
        assert_eq!(said.out.as_bytes(), sheet);
    }
}

#[test]
fn the_examples_come_back() {
    let folder = Folder::with_cemetery("sheet-examples");
    for name in ["full", "sparse"] {
        let sheet = folder.read(&format!("{name}.csv"));
        let said = folder.plot(&["unpack", &format!("{name}.register")]);
        assert_eq!(said.out.as_bytes(), sheet);
    }
}

#[test]
fn sheets_as_other_programs_write_them() {
    let folder = Folder::new("sheet-forms");
    let plain = "A,M\n1,\n0,-5\n";
    let packed = |sheet: &str| {
        folder.write("sheet.csv", sheet);
        let said = folder.plot(&["pack", "sheet.csv", "-o", "register"]);
        assert_eq!(said.status, 0, "{}", said.err);
        folder.read("register")
    };
    let expected = packed(plain);
    for sheet in [
        "A,M\r\n1,\r\n0,-5\r\n",
        "\u{feff}A,M\n1,\n0,-5\n",
        "\"A\",\"M\"\n\"1\",\"\"\n\"0\",\"-5\"\n",
        "A, M\n 1,\t\n0, -5",
    ] {
        assert_eq!(packed(sheet), expected, "{sheet:?}");
    }
    let said = folder.plot_with(&["pack", "-", "-o", "register"], plain.as_bytes());
    assert_eq!(said.status, 0);
    assert_eq!(folder.read("register"), expected);
    let said = folder.plot(&["pack", "sheet.csv", "-o", "-"]);
    assert!(said.out.starts_with("\u{2}\0\0\0"));
}

#[test]
fn each_bad_cell_is_told_and_nothing_is_written() {
    let folder = Folder::new("sheet-faults");
    folder.write("out", "as it was");
    folder.write(
        "sheet.csv",
        "A,B,M\n3,-1,x\n0,1,2147483648\n,,\n,007,-0\n1.5,+1,\"\"\"\n1,1\n1,1,1,1,1\n3~,01~,1,8~\n\
         0,1,1.8~\n0,1,21474836.48\n0,1,\"5\"6\n",
    );
    let said = folder.plot(&["pack", "sheet.csv", "-o", "out"]);
    let said = said.fails(
        1,
        "sheet.csv: 14 things are wrong, and nothing is written\n",
    );
    for fault in [
        "row 2, column 2: -1 is no record: there are 11 records here",
        "row 2, column 3: \"x\" is no whole number",
        "row 3, column 3: 2147483648 is out of range",
        "row 5, column 2: write 7 instead of \"007\"",
        "row 5, column 3: write 0 instead of \"-0\"",
        "row 6, column 1: \"1.5\" is no whole number",
        "row 6, column 2: write 1 instead of \"+1\"",
        "row 6, column 3: ",
        "row 7: it has 2 cells, and the header 3",
        "row 8: it has more than 3 cells, as many as the header has",
        "row 9: it has more than 3 cells",
        "row 10, column 3: write 1.80~ instead of \"1.8~\"",
        "row 11, column 3: 21474836.48 is out of range",
        "row 12, column 3: something stands behind the closing quote",
    ] {
        assert!(
            said.err.contains(fault),
            "{fault:?} is not in\n{}",
            said.err
        );
    }
    assert_eq!(folder.read("out"), b"as it was");
    let over = ["pack", "sheet.csv", "-o", "sheet.csv"];
    folder.plot(&over).fails(2, "sheet.csv is read here");
}

#[test]
fn headers_that_are_none() {
    let folder = Folder::new("sheet-headers");
    let pack = |sheet: &[u8]| folder.plot_with(&["pack", "-", "-o", "out"], sheet);
    pack(b"").fails(1, "row 1: the header row is missing");
    for (header, column) in [
        ("B,M", 1),
        ("A,C", 2),
        ("A,A", 2),
        ("M,A", 2),
        ("A|M", 1),
        ("plot,B", 2),
        ("A,plot", 2),
        ("A;C", 2),
        ("A mark;Mm", 2),
        ("A\tMm", 2),
        ("a", 1),
        ("A,,M", 2),
        ("A,B,C,D,E,F,G,H,I", 9),
        ("M,N,O,P,Q,R,S,T,U", 9),
        ("1,2", 1),
    ] {
        let sheet = format!("{header}\n");
        let said = pack(sheet.as_bytes()).fails(1, &format!("row 1, column {column}: "));
        assert!(said.err.contains("in the header"));
    }
    pack(b"A,M\n0,\xff\n").fails(1, "row 2: this is no text in UTF-8");
    let long = format!("M\n{}", "1\n".repeat(4097));
    pack(long.as_bytes()).fails(1, "row 4098: a register has at most 4096 records");
    assert!(!folder.at("out").exists());
    let json = folder.plot_with(&["pack", "-", "-o", "out", "--json"], b"M\nx\n");
    assert_eq!(json.status, 1);
    let wrong = "\\\"x\\\" is no whole number of centimetres, and no metres as 1.80";
    let expected = format!("{{\"faults\":[{{\"row\":2,\"column\":1,\"wrong\":\"{wrong}\"}}]}}\n");
    assert_eq!(json.out, expected);
}

/// A clerk's sheet: labels, names, metres, semicolons.
#[test]
fn a_clerks_sheet() {
    let folder = Folder::with_cemetery("clerk");
    folder.plot(&["pack", "clerk.csv", "-o", "clerk"]).is(
        "wrote clerk: 12 records, 1 reference field, 2 measure fields, 18 of 36 cells unfilled\n\
         wrote clerk.names: the names, and how the sheet is written\n",
    );
    let sheet = folder.read("clerk.csv");
    assert_eq!(folder.plot(&["unpack", "clerk"]).out.as_bytes(), sheet);
    folder.write("plain.csv", plain_of_clerk());
    folder
        .plot(&["pack", "plain.csv", "-o", "plain"])
        .has("wrote plain: ");
    assert_eq!(folder.read("plain"), folder.read("clerk"));
    assert!(!folder.at("plain.names").exists());
    let plain = folder.plot(&["unpack", "clerk", "--no-names"]);
    assert_eq!(plain.out, plain_of_clerk());
    let tabs = folder.plot(&["unpack", "clerk", "--delimiter", "tab"]);
    assert_eq!(tabs.out, String::from_utf8_lossy(&sheet).replace(';', "\t"));
    folder.write("tabs.csv", tabs.out);
    folder
        .plot(&["pack", "tabs.csv", "-o", "tabs"])
        .has("wrote tabs.names");
    assert_eq!(folder.read("tabs"), folder.read("clerk"));
}

/// The same with record numbers, centimetres and commas.
fn plain_of_clerk() -> String {
    "A,M,N\n9,180,\n9,,\n9,190,\n9,0,\n10,210,\n,205,\n10,,\n10,195,\n11,160,\n,,40\n9,25,\n,,\n"
        .to_owned()
}

/// Every way to write the same sheet gives the same register.
#[test]
fn sheets_as_clerks_write_them() {
    let folder = Folder::new("clerk-forms");
    let packed = |sheet: &str, words: &[&str]| {
        folder.write("sheet.csv", sheet);
        let words = [&["pack", "sheet.csv", "-o", "register"], words].concat();
        let said = folder.plot(&words);
        assert_eq!(said.status, 0, "{sheet:?}: {}", said.err);
        folder.read("register")
    };
    let expected = packed("A,M\n1,180\n,-5~\n", &[]);
    for sheet in [
        "A;M\n1;180\n;-5~\n",
        "A\tM\n1\t180\n\t-5~\n",
        "A;M\n1;1.80\n;-0.05~\n",
        "A mark;M depth\n1;1.80\n;-5 ~\n",
        "plot,A,M\nN 1,N 2,180\nN 2,,-5~\n",
        "Plot;A;M\n \"N;1\" ; N 2 ; 180 \n\"N 2\";?;-5~\n",
        "plot,A,M\nN 1,1,180\nN 2,,-5~\n",
        "plot,A,M\n1,2,180\n2,,-5~\n",
        "plot,A,M\n1,#1,180\n2,,-5~\n",
        "plot,A,M\n,#1,180\nN 2,,-5~\n",
        "A,M\n1,180\n,-5~\n\n \n\r\n",
        "A, M \r\n 1 ,180\r\n , -5~ \r\n\r\n",
        "A,\"M, in \"\"cm\"\"\"\n1,180\n,-5~\n",
    ] {
        let sheet = match sheet.contains("M, in") {
            true => sheet.replace("\"M, in", "\"M depth, in"),
            false => sheet.to_owned(),
        };
        assert_eq!(packed(&sheet, &[]), expected, "{sheet:?}");
        let back = folder.plot(&["unpack", "register"]).out;
        assert_eq!(
            packed(&back, &[]),
            expected,
            "{sheet:?} comes back as {back:?}"
        );
    }
    assert_eq!(
        packed("A mark,x;M\n1;180\n;-5~\n", &["--delimiter", ";"]),
        expected
    );
    assert_eq!(
        packed("A;M\n1;180\n;-5~\n", &["--delimiter=semicolon"]),
        expected
    );
    let pack = ["pack", "sheet.csv", "-o", "register", "--delimiter", "|"];
    folder
        .plot(&pack)
        .fails(2, "a delimiter is comma, semicolon or tab, not \"|\"");
}

#[test]
fn labels_and_names_that_are_none() {
    let folder = Folder::new("clerk-faults");
    let pack = |sheet: &str| folder.plot_with(&["pack", "-", "-o", "out"], sheet.as_bytes());
    let long = "x".repeat(41);
    for (sheet, wrong) in [
        (
            "plot,A\nN,\nN,\n".to_owned(),
            "row 3, column 1: \"N\" is the label of two records, 0 and 1",
        ),
        (
            "plot,A\nN,M\n".to_owned(),
            "row 2, column 2: \"M\" is no label and no record number",
        ),
        (
            "plot,A\nN,3\n".to_owned(),
            "row 2, column 2: 3 is no record: there are 1 record",
        ),
        (
            "plot,A\n7,0\n".to_owned(),
            "\"0\" is no label here; where labels are numbers, write #3",
        ),
        (
            "plot,A\n7,#1\n".to_owned(),
            "row 2, column 2: 1 is no record",
        ),
        (
            "plot,A\n#7,\n".to_owned(),
            "\"#7\" is no label: ?, -, # in front",
        ),
        ("plot,A\nN~,\n".to_owned(), "\"N~\" is no label"),
        ("plot,A\n?,\n".to_owned(), "\"?\" is no label"),
        (
            format!("plot,A\n{long},\n"),
            "is too long: a name has at most 40 characters",
        ),
        (
            format!("A {long}\n"),
            "row 1, column 1: \"xxxxxxxxxxxxxxxxxxxxxxxxxxxxxxxxxxxxxxxx..\" is too long",
        ),
        (
            "plot,A\nN\u{1b}[31m,\n".to_owned(),
            "row 2, column 1: \"N\\u{1b}[31m\" has control characters",
        ),
        ("M\n1,8\n".to_owned(), "row 2: it has more than 1 cell"),
        (
            "M;N\n1,8;\n".to_owned(),
            "row 2, column 1: write 1.80 instead of \"1,8\"",
        ),
        (
            "M\n1.805\n".to_owned(),
            "\"1.805\" is no whole number of centimetres, and no metres",
        ),
        ("M\n-0.00\n".to_owned(), "write 0.00 instead of \"-0.00\""),
        ("A\n1.00\n".to_owned(), "\"1.00\" is no whole number"),
        (
            "M,N\n\"1,2\n".to_owned(),
            "row 2, column 1: a quote is opened and not closed",
        ),
        (
            "M,N\n1,2\n\n3,4\n".to_owned(),
            "row 3: it has 0 cells, and the header 2",
        ),
        (
            format!("M\n{}\n", "y".repeat(1000)),
            "row 2, column 1: \"yyyyyyyyyyyyyyyyyyyyyyyyyyyyyyyyyyyyyyyy..\" is no whole",
        ),
    ] {
        let said = pack(&sheet).fails(1, wrong);
        assert!(said.err.len() < 500, "{}", said.err);
    }
    assert!(!folder.at("out").exists() && !folder.at("out.names").exists());
}

/// A spreadsheet may cut 2.00 to 2, so a field with both units is told.
#[test]
fn metres_beside_centimetres() {
    let folder = Folder::new("sheet-units");
    let pack = |sheet: &str| folder.plot_with(&["pack", "-", "-o", "r"], sheet.as_bytes());
    pack("M depth,N\n1.80,5\n0,6\n2,7\n3,\n")
        .has("M depth has metres, and centimetres in row 4: is that meant?\n");
    folder
        .plot(&["unpack", "r"])
        .is("M depth,N\n180,5\n0,6\n2,7\n3,\n");
    let said = pack("M depth\n1.80\n0\n2.00\n");
    assert!(!said.out.contains("is that meant"), "{}", said.out);
    folder
        .plot(&["unpack", "r"])
        .is("M depth\n1.80\n0.00\n2.00\n");
}

/// What is longer than any sheet is refused, and not read.
#[test]
fn a_file_that_is_too_long_for_a_sheet() {
    let folder = Folder::new("sheet-long");
    let file = std::fs::File::create(folder.at("long.csv")).expect("it can be made");
    file.set_len(1 << 30).expect("it can be made long");
    let began = std::time::Instant::now();
    let pack = ["pack", "long.csv", "-o", "out"];
    folder
        .plot(&pack)
        .fails(1, "long.csv: it has more than 16777216 bytes");
    // 50 MB, in blocks of 1024 bytes.
    let line = format!("ulimit -v 51200; exec {PLOT} pack - -o out <long.csv");
    let said = folder.run(Command::new("bash").args(["-c", &line]), b"");
    said.fails(1, "standard input: it has more than 16777216 bytes");
    assert!(began.elapsed().as_secs() < 4, "{:?}", began.elapsed());
    for name in ["show", "unpack"] {
        folder.plot(&[name, "long.csv"]).fails(1, "refused 1");
    }
    let text = ["check", "out", "long.csv"];
    folder
        .plot_with(&["pack", "-", "-o", "out"], b"M\n1\n")
        .has("wrote");
    folder.plot(&text).fails(1, "refused 6");
}
