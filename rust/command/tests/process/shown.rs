//! `plot show`.

use crate::folder::Folder;
use generate::random::Random;
use generate::registers;
use reference::register::{Cell, Register};

#[test]
fn a_register_as_a_table() {
    let folder = Folder::with_cemetery("show");
    let said = folder.plot(&["show", "full.register"]);
    assert_eq!(said.out.lines().count(), 2 + 12);
    said.has("  record   A  B  C  D    M   N  O\n")
        .has("       9   -  -  -  -    -  40  -\n")
        .has("12 records, 4 reference fields, 3 measure fields, 56 of 84 cells unfilled\n");
}

#[test]
fn a_register_from_standard_input() {
    let folder = Folder::with_cemetery("show-input");
    let register = folder.read("full.register");
    let said = folder.plot_with(&["show", "-"], &register);
    assert_eq!(said, folder.plot(&["show", "full.register"]));
}

#[test]
fn a_register_for_programs() {
    let folder = Folder::new("show-json");
    folder.write("three.csv", "A,M\n1,\n2,0\n,180~\n");
    folder.plot(&["pack", "three.csv", "-o", "three"]);
    folder.plot(&["show", "three", "--json"]).is(
        "{\"records\":3,\"fields\":[\"A\",\"M\"],\"cells\":[[1,null],[2,0],[null,180]],\
             \"worked_out\":[[false,false],[false,false],[false,true]]}\n",
    );
    folder
        .plot(&["show", "three", "--json", "--gaps"])
        .is("{\"unfilled\":[{\"record\":0,\"field\":\"M\"},{\"record\":2,\"field\":\"A\"}]}\n");
}

#[test]
fn gaps_at_a_look() {
    let folder = Folder::with_cemetery("gaps");
    folder
        .plot(&["show", "sparse.register", "--gaps"])
        .has("     0123456789 01\n  A  .....#...# .#  3\n");
    folder.write("marks.csv", "A,M\n0,5~\n,7\n");
    folder.plot(&["pack", "marks.csv", "-o", "marks"]);
    folder
        .plot(&["show", "marks", "--gaps"])
        .has("     01\n  A  .#  1\n  M  ~.  0\n. measured  ~ worked out  # unfilled\n");
    folder.write("full.csv", "A\n0\n0\n");
    folder.plot(&["pack", "full.csv", "-o", "full"]);
    folder
        .plot(&["show", "full", "--gaps"])
        .has("records 0 to 1: no gap\n");
}

/// Every cell of every register is in the table, and every gap in the grid.
#[test]
fn generated_registers_are_shown_whole() {
    let folder = Folder::new("show-generated");
    let mut random = Random::new(31);
    let mut sizes: Vec<_> = (0..60).map(|_| registers::sizes(&mut random)).collect();
    sizes.push(registers::LARGEST);
    for sizes in sizes {
        let bytes = registers::file(&mut random, sizes);
        let register = Register::load(&bytes).expect("it loads");
        let said = folder.plot_with(&["show", "-"], &bytes);
        let rows: Vec<Vec<&str>> = said.out.lines().skip(2).map(words).collect();
        assert_eq!(rows.len(), sizes.records);
        for (record, row) in rows.iter().enumerate() {
            assert_eq!(row[0], record.to_string());
            for (field, shown) in row[1..].iter().enumerate() {
                assert_eq!(*shown, expected(register.cell(record, field)));
            }
        }
        let gaps = register
            .cells()
            .iter()
            .filter(|&&c| c == Cell::Missing)
            .count();
        let grid = folder.plot_with(&["show", "-", "--gaps"], &bytes);
        let legend = ". measured  ~ worked out  # unfilled\n";
        let grid = grid.out.strip_suffix(legend).expect("it has a legend");
        assert_eq!(grid.matches('#').count(), gaps);
    }
}

fn words(line: &str) -> Vec<&str> {
    line.split_whitespace().collect()
}

fn expected(cell: Cell) -> String {
    match cell {
        Cell::Missing => "-".to_owned(),
        Cell::Measured(value) => value.to_string(),
        Cell::WorkedOut(value) => format!("{value}~"),
    }
}

#[test]
fn registers_that_are_refused() {
    let folder = Folder::new("show-refused");
    let show = |bytes: &[u8]| folder.plot_with(&["show", "-"], bytes);
    show(b"short").fails(1, "refused 1: the register file has the wrong length");
    show(b"short").fails(1, "It has 5 bytes.");
    show(&[0xff; 12]).fails(1, "refused 2: a size of the register is over its limit");
    let cell = |value: u8, mark: u8| {
        let header = [1, 0, 0, 0, 1, 0, 0, 0, 0, 0, 0, 0];
        show(&[&header[..], &[value, 0, 0, 0, mark]].concat())
    };
    cell(0, 1).has("1 record");
    cell(0, 3)
        .fails(1, "refused 3")
        .fails(1, "Field A of record 0 has value 0 and mark 3.");
    cell(7, 0)
        .fails(1, "refused 4")
        .fails(1, "value 7 and mark 0");
    cell(7, 1)
        .fails(1, "refused 5")
        .fails(1, "value 7 and mark 1");
    let json = folder.plot_with(&["show", "-", "--json"], b"short");
    assert_eq!(json.status, 1);
    let expected = "{\"refused\":1,\"line\":0,\"column\":null,\
                    \"meaning\":\"the register file has the wrong length\"}\n";
    assert_eq!(json.out, expected);
    assert!(json.err.contains("refused 1"));
}
