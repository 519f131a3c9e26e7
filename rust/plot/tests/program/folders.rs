//! The folders that the program is run in, by name.

use generate::random::Random;
use generate::{chains, padding, ranking, registers};
use reference::printed::{OUTPUT, SIZES, TEXT, register};
use reference::register::Cell::{self, Measured, Missing};
use reference::register::{Sizes, encode};

/// A folder: its files, if they are there, and how the program's output begins.
pub struct Folder {
    pub name: String,
    pub register: Option<Vec<u8>>,
    pub text: Option<Vec<u8>>,
    pub begins: String,
}

impl Folder {
    /// A folder with both files.
    pub fn new(name: &str, register: &[u8], text: &[u8], begins: &str) -> Folder {
        Folder {
            name: name.to_owned(),
            register: Some(register.to_vec()),
            text: Some(text.to_vec()),
            begins: begins.to_owned(),
        }
    }

    /// A folder that is refused with a number, at a line or so many finished steps.
    pub fn refused(name: &str, register: &[u8], text: &[u8], (number, at): (u32, usize)) -> Folder {
        let begins = format!("refused {number} at {at}\n");
        Folder::new(name, register, text, &begins)
    }

    /// A folder whose run ends whole: records, steps, exchanges and letters.
    fn whole(name: &str, register: &[u8], text: &[u8], counts: [u64; 4]) -> Folder {
        let [records, steps, exchanges, letters] = counts;
        let begins =
            format!("{records} records {steps} steps {exchanges} exchanges {letters} letters\n");
        Folder::new(name, register, text, &begins)
    }

    /// Register and text; a file that is not there counts as empty.
    pub fn inputs(&self) -> [&[u8]; 2] {
        [&self.register, &self.text].map(|file| file.as_deref().unwrap_or_default())
    }

    fn without_register(self) -> Folder {
        Folder {
            register: None,
            ..self
        }
    }

    fn without_text(self) -> Folder {
        Folder { text: None, ..self }
    }
}

/// The table.
pub fn folders() -> Vec<Folder> {
    [files(), register_files(), rules(), limits(), runs()]
        .into_iter()
        .flatten()
        .collect()
}

/// What the program prints of the printed register as it is.
const UNTOUCHED: &str = "3 records 0 steps 0 exchanges 0 letters\n0 1 -\n1 2 0\n2 - 180\n";

/// The same with the last depth worked out.
const WORKED_OUT: &str = "3 records 0 steps 0 exchanges 0 letters\n0 1 -\n1 2 0\n2 - 180~\n";

/// Files that are missing, empty and as printed.
fn files() -> Vec<Folder> {
    let row = |name, text| Folder::refused(name, b"", text, (1, 0));
    vec![
        Folder::new("printed example", &register(), TEXT, OUTPUT),
        Folder::new("no rules", &register(), b"", UNTOUCHED).without_text(),
        Folder::new("empty rules", &register(), b"", UNTOUCHED),
        Folder::new("a mark of 2", &with_byte(41, 2), b"", WORKED_OUT),
        row("no register", TEXT).without_register(),
        row("no files", b"").without_register().without_text(),
        row("empty register", TEXT),
        row("empty files", b""),
        row("empty register and no rules", b"").without_text(),
    ]
}

/// The printed register with another byte at a place.
fn with_byte(place: usize, byte: u8) -> Vec<u8> {
    let mut file = register();
    file[place] = byte;
    file
}

/// The three sizes alone.
fn header(numbers: [u32; 3]) -> Vec<u8> {
    numbers.map(u32::to_le_bytes).concat()
}

/// Registers that 1 to 5 refuse, whatever the rules; the text has no line.
fn register_files() -> Vec<Folder> {
    let row = |name, file: &[u8], number| Folder::refused(name, file, b"x", (number, 0));
    let file = register();
    let last = file.len() - 1;
    vec![
        row("a header of 11 bytes", &file[..11], 1),
        row("a byte too few", &file[..last], 1),
        row("a byte too many", &[&file[..], &[0]].concat(), 1),
        row("n 4,097", &header([4097, 0, 0]), 2),
        row("r 9", &header([0, 9, 0]), 2),
        row("m 9", &header([0, 0, 9]), 2),
        row("a product of 0", &header([1 << 31, 1 << 31, 0]), 2),
        row("a mark of 3", &with_byte(36, 3), 3),
        row("a last mark of 255", &with_byte(last, 255), 3),
        row("unfilled with a value", &with_byte(16, 1), 4),
        row("reference n", &with_byte(12, 3), 5),
        row("a negative reference", &with_byte(15, 255), 5),
    ]
}

/// A step of these rules.
fn step(rules: &str) -> Vec<u8> {
    format!("step\n{rules}\nend\n").into_bytes()
}

/// A rule that reads a chain of so many hops.
fn hops(count: usize) -> Vec<u8> {
    let chain = chains::text(&vec![b'A'; count]);
    step(&format!("A[u] := {}", String::from_utf8_lossy(&chain)))
}

/// Texts that 7 to 14 refuse, over the printed register.
fn rules() -> Vec<Folder> {
    let row = |name, text: &[u8], refusal| Folder::refused(name, &register(), text, refusal);
    let sorts = "remote M[u] += 1\nremote M[u] <?= 1";
    vec![
        row("no such line", b"step\nx\nend\n", (7, 2)),
        row("no byte 10 at the end", b"step\nend", (7, 2)),
        row("byte 0 and byte 255", b"\x00\xff\n", (7, 1)),
        row("out of place", b"end\n", (8, 1)),
        row("an empty loop", b"loop M\ndone\n", (8, 2)),
        row("unclosed", b"step\n", (8, 2)),
        row("no such field", &step("B[u] := u"), (9, 2)),
        row("no such loop", b"loop N\nstep\nend\ndone\n", (9, 1)),
        row("kind", &step("M[u] := u"), (10, 2)),
        row("17 hops", &hops(17), (11, 2)),
        row("a large number", &step("M[u] := 2147483648"), (12, 2)),
        row("33 steps", &b"step\nend\n".repeat(33), (13, 65)),
        row("33 rules", &step(&["M[u] := 1"; 33].join("\n")), (13, 34)),
        row("two sorts", &step(sorts), (14, 3)),
    ]
}

/// The file of so many records of one measure field.
fn measures(cells: &[Cell]) -> Vec<u8> {
    let sizes = Sizes {
        records: cells.len(),
        references: 0,
        measures: 1,
    };
    encode(sizes, cells)
}

/// A text of so many bytes that passes for the printed register.
fn long_text(bytes: usize) -> Vec<u8> {
    padding::pad(&mut Random::new(60), SIZES, b"", bytes).expect("it has room for a step")
}

/// Sizes of files and registers at their limits and beyond.
fn limits() -> Vec<Folder> {
    let too_large = |name, file: &[u8], text| Folder::new(name, file, text, "too large\n");
    let file = register();
    let full = measures(&[Missing; 100]);
    let beyond = [&full[..], &[0]].concat();
    let largest = registers::full_file(&mut Random::new(61), registers::LARGEST);
    let [none, fieldless] = [header([0, 1, 1]), header([4096, 0, 0])];
    vec![
        Folder::whole("register of 512 bytes", &full, b"", [100, 0, 0, 0]),
        too_large("register of 513 bytes", &beyond, b""),
        too_large("register of 513 bytes, no line", &beyond, b"x"),
        too_large("register of 517 bytes", &measures(&[Missing; 101]), b""),
        too_large("largest register", &largest, b""),
        Folder::new("rules of 8,192 bytes", &file, &long_text(8192), "3 rec"),
        Folder::refused("rules of 8,193 bytes", &file, &long_text(8193), (6, 0)),
        Folder::refused("rules of 64 KiB", &file, &[b'x'; 1 << 16], (6, 0)),
        Folder::refused("8,192 line ends", &file, &[b'\n'; 8192], (7, 1)),
        Folder::whole("n 0", &none, TEXT, [0, 1, 3, 0]),
        Folder::whole("16 hops", &none, &hops(16), [0, 1, 5, 0]),
        Folder::whole("no fields", &fieldless, b"step\nend\n", [4096, 1, 0, 0]),
        Folder::refused("a field of none", &fieldless, TEXT, (9, 2)),
    ]
}

/// A loop that adds 1 until this is reached.
fn count_to(limit: u32) -> Vec<u8> {
    format!("loop M\nstep\nif M[u] < {limit}: M[u] := M[u] + 1\nend\ndone\n").into_bytes()
}

/// Texts that run, and end whole, by 20 or by 21.
fn runs() -> Vec<Folder> {
    let [zero, most] = [0, i32::MAX].map(|value| measures(&[Measured(value)]));
    let ends = measures(&[Measured(i32::MIN), Measured(i32::MAX), Measured(-1)]);
    let amounts = step("remote M[u] += 1\nremote M[u] += -1");
    let late = b"step\nend\nstep\nM[u] := 2147483647 + 1\nend\n";
    let total = step("remote M[u] += 2147483647");
    let endless = b"loop M\nstep\nM[u] := 1 - M[u]\nend\ndone\n";
    vec![
        Folder::whole("own number", &register(), &step("A[u] := u"), [3, 1, 0, 0]),
        Folder::whole(
            "list ranking",
            &ranking::list(8),
            ranking::TEXT,
            [8, 4, 8, 96],
        ),
        Folder::whole("ends of the range", &ends, b"", [3, 0, 0, 0]),
        Folder::whole("amounts that cancel", &most, &amounts, [1, 1, 1, 2]),
        Folder::refused("a sum out of range", &register(), late, (21, 1)),
        Folder::refused("a total out of range", &register(), &total, (21, 0)),
        Folder::whole("1,000 steps", &zero, &count_to(999), [1, 1000, 0, 0]),
        Folder::refused("1,001 steps", &zero, &count_to(1000), (20, 1000)),
        Folder::refused("an endless loop", &zero, endless, (20, 1000)),
    ]
}
