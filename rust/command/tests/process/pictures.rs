//! Pictures: they are whole, and show what there is.

use crate::folder::{Folder, root};
use generate::random::Random;
use generate::registers;
use reference::register::{Cell, Register, Sizes};
use std::env;
use std::fs;

/// The picture that a command draws; every shape is closed and lies inside.
fn picture(folder: &Folder, words: &[&str], input: &[u8]) -> String {
    let said = folder.plot_with(&[words, &["--svg", "-"]].concat(), input);
    assert_eq!((said.status, said.err.as_str()), (0, ""));
    let picture = said.out;
    assert!(picture.starts_with("<svg xmlns=") && picture.ends_with("</svg>\n"));
    let shapes: Vec<&str> = picture.lines().skip(1).collect();
    for shape in &shapes[..shapes.len() - 1] {
        let group = shape.starts_with("<g data-round=") || *shape == "</g>";
        let ends = ["/>", "</text>", "</title>"];
        assert!(
            group || ends.iter().any(|end| shape.ends_with(end)),
            "{shape}"
        );
    }
    let (width, height) = (number(&picture, "width"), number(&picture, "height"));
    assert!(width < 2500 && height < 40_000, "{width} by {height}");
    for text in shapes.iter().filter(|shape| shape.starts_with("<text")) {
        assert!(
            number(text, "x") < width && number(text, "y") < height,
            "{text}"
        );
    }
    picture
}

/// The first number that an attribute has.
fn number(shape: &str, attribute: &str) -> usize {
    let (_, rest) = shape
        .split_once(&format!(" {attribute}=\""))
        .expect("it has one");
    rest.split('"')
        .next()
        .expect("it ends")
        .parse()
        .expect("it is a number")
}

const GAP: &str = "fill=\"#d55e00\"";
const WORKED_OUT: &str = "fill=\"#5b9bd5\"";

/// The squares of this colour.
fn squares(picture: &str, fill: &str) -> usize {
    let paths = picture.lines().filter(|shape| shape.starts_with("<path"));
    let of_colour = paths.filter(|path| path.contains(fill));
    of_colour.map(|path| path.matches('z').count()).sum()
}

fn count(cells: &[Cell], wanted: impl Fn(Cell) -> bool) -> usize {
    cells.iter().filter(|cell| wanted(**cell)).count()
}

#[test]
fn few_records_are_a_table() {
    let folder = Folder::with_cemetery("picture-few");
    let picture = picture(&folder, &["show", "sparse.register"], b"");
    // One of them is in the legend.
    assert_eq!(picture.matches(GAP).count(), 60 + 1);
    assert!(picture.contains(">210</text>"));
    folder
        .plot(&["show", "sparse.register", "--svg", "sparse.svg"])
        .is("");
    assert_eq!(folder.read("sparse.svg"), picture.as_bytes());
}

#[test]
fn many_records_are_squares() {
    let folder = Folder::new("picture-many");
    let mut random = Random::new(37);
    let most = Sizes {
        records: 4096,
        references: 1,
        measures: 2,
    };
    let sizes = [65, 300, 1025].map(|records| Sizes { records, ..most });
    for sizes in sizes.into_iter().chain([most, registers::LARGEST]) {
        let register = registers::file(&mut random, sizes);
        let cells = Register::load(&register).expect("it loads").cells();
        let picture = picture(&folder, &["show", "-"], &register);
        let (gaps, worked_out) = (squares(&picture, GAP), squares(&picture, WORKED_OUT));
        assert_eq!(gaps, count(&cells, |cell| cell == Cell::Missing));
        let is_worked_out = |cell| matches!(cell, Cell::WorkedOut(_));
        assert_eq!(worked_out, count(&cells, is_worked_out));
        assert!(picture.contains(">worked out ~<"));
        assert!(picture.len() < 2_000_000);
    }
}

/// Measured, worked-out and unfilled cells are told apart.
#[test]
fn cells_of_each_sort_have_a_colour() {
    let folder = Folder::with_cemetery("picture-marks");
    folder.plot(&["run", "sparse.register", "depths.rules", "--in-place"]);
    let picture = picture(&folder, &["show", "sparse.register"], b"");
    assert_eq!(picture.matches(WORKED_OUT).count(), 6 + 1);
    assert_eq!(picture.matches(GAP).count(), 54 + 1);
    for text in [">measured<", ">worked out ~<", ">unfilled<", ">220~<"] {
        assert!(picture.contains(text), "{text}");
    }
}

#[test]
fn plans_are_arrows() {
    let folder = Folder::with_cemetery("picture-plan");
    let picture = picture(&folder, &["plan", "full.register", "components.rules"], b"");
    for text in [
        "step 1: ",
        "step 3: ",
        ">round 2<",
        ">D of r1<",
        "exchange 3: the remote writes",
    ] {
        assert!(picture.contains(text), "{text}");
    }
}

#[test]
fn long_values_fit_their_cells() {
    let folder = Folder::new("picture-long");
    let sheet = format!("M,N\n{},1\n", i32::MIN);
    let packed = folder.plot_with(&["pack", "-", "-o", "long"], sheet.as_bytes());
    assert_eq!(packed.status, 0);
    let picture = picture(&folder, &["show", "long"], b"");
    let cell = picture.lines().find(|shape| shape.contains("#cfe3f2"));
    assert!(number(cell.expect("a cell is filled"), "width") > 9 * i32::MIN.to_string().len());
}

/// The pictures of the manual are what the command draws.
#[test]
fn the_pictures_of_the_manual() {
    let folder = Folder::with_cemetery("picture-manual");
    let chain = format!("M[{}u{}", "A[".repeat(7), "]".repeat(8));
    folder.write("eight.rules", format!("step\nM[u] := {chain}\nend\n"));
    folder.plot(&["pack", "clerk.csv", "-o", "clerk.register"]);
    let run = [
        "run",
        "clerk.register",
        "depths.rules",
        "-o",
        "clerk-depths.register",
    ];
    folder.plot(&run).has("6 cells changed");
    for (name, words) in [
        (
            "docs/plan.svg",
            &["plan", "full.register", "eight.rules"][..],
        ),
        ("docs/clerk.svg", &["show", "clerk-depths.register"]),
    ] {
        let picture = picture(&folder, words, b"");
        let path = root().join(name);
        if env::var_os("UPDATE_SESSIONS").is_some() {
            fs::write(&path, &picture).expect("it can be written");
        }
        assert_eq!(fs::read_to_string(path).expect("it is there"), picture);
    }
}
