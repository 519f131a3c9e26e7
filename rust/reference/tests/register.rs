//! "The register file" and refusals 1 to 5.

use reference::printed;
use reference::register::{Cell, Register, Sizes, encode};

/// The printed register, byte by byte as the paper lays a file out.
const PRINTED: [u8; 42] = [
    3, 0, 0, 0, 1, 0, 0, 0, 1, 0, 0, 0, // n, r, m
    1, 0, 0, 0, 0, 0, 0, 0, // record 0: A 1, M missing
    2, 0, 0, 0, 0, 0, 0, 0, // record 1: A 2, M 0
    0, 0, 0, 0, 180, 0, 0, 0, // record 2: A missing, M 180
    1, 0, 1, 1, 0, 1, // marks
];

fn refusal(file: &[u8]) -> u32 {
    match Register::load(file) {
        Ok(_) => 0,
        Err(refusal) => {
            assert_eq!(refusal.line, 0);
            refusal.reason.number()
        }
    }
}

fn changed(place: usize, byte: u8) -> Vec<u8> {
    let mut file = PRINTED.to_vec();
    file[place] = byte;
    file
}

fn header(records: u32, references: u32, measures: u32, length: usize) -> Vec<u8> {
    let mut file = vec![0; length];
    file[0..4].copy_from_slice(&records.to_le_bytes());
    file[4..8].copy_from_slice(&references.to_le_bytes());
    file[8..12].copy_from_slice(&measures.to_le_bytes());
    file
}

#[test]
fn printed_register_loads() {
    let register = Register::load(&PRINTED).unwrap();
    assert_eq!(register.sizes, printed::SIZES);
    assert_eq!(register.cells(), printed::CELLS);
    assert_eq!(register.cell(1, 1), Cell::Measured(0));
    assert_eq!(register.cell(2, 0), Cell::Missing);
}

#[test]
fn encoding_gives_the_file_back() {
    assert_eq!(printed::register(), PRINTED);
    let sizes = Sizes {
        records: 2,
        references: 0,
        measures: 1,
    };
    let cells = [Cell::Measured(i32::MIN), Cell::Measured(-1)];
    let file = encode(sizes, &cells);
    assert_eq!(file[12..], [0, 0, 0, 128, 255, 255, 255, 255, 1, 1]);
    assert_eq!(Register::load(&file).unwrap().cells(), cells);
}

#[test]
fn length_is_1() {
    assert_eq!(refusal(&[]), 1);
    assert_eq!(refusal(&PRINTED[..11]), 1);
    assert_eq!(refusal(&PRINTED[..41]), 1);
    let mut longer = PRINTED.to_vec();
    longer.push(0);
    assert_eq!(refusal(&longer), 1);
    assert_eq!(refusal(&header(0, 0, 0, 12)), 0);
    assert_eq!(refusal(&header(0, 8, 8, 12)), 0);
    assert_eq!(refusal(&header(4096, 0, 0, 12)), 0);
    assert_eq!(refusal(&header(0, 8, 8, 13)), 1);
}

#[test]
fn size_over_its_limit_is_2() {
    assert_eq!(refusal(&header(4097, 0, 0, 12)), 2);
    assert_eq!(refusal(&header(0, 9, 0, 12)), 2);
    assert_eq!(refusal(&header(0, 0, 9, 12)), 2);
    assert_eq!(refusal(&header(u32::MAX, u32::MAX, u32::MAX, 12)), 2);
    assert_eq!(refusal(&header(4096, 8, 8, 327_692)), 0);
}

#[test]
fn short_header_comes_before_sizes_and_sizes_before_length() {
    assert_eq!(refusal(&header(4097, 0, 0, 12)[..11]), 1);
    assert_eq!(refusal(&header(4097, 1, 0, 12)), 2);
    assert_eq!(refusal(&header(4097, 1, 0, 12 + 5 * 4097)), 2);
    assert_eq!(refusal(&header(4096, 1, 0, 12)), 1);
}

#[test]
fn mark_above_two_is_3() {
    assert_eq!(refusal(&changed(36, 3)), 3);
    assert_eq!(refusal(&changed(41, 255)), 3);
    assert_eq!(refusal(&changed(37, 1)), 0);
}

#[test]
fn mark_2_is_worked_out() {
    let file = changed(41, 2);
    let register = Register::load(&file).unwrap();
    assert_eq!(register.cell(2, 1), Cell::WorkedOut(180));
    assert_eq!(encode(register.sizes, &register.cells()), file);
    assert_eq!(refusal(&changed(37, 2)), 0);
}

#[test]
fn missing_with_a_value_is_4() {
    assert_eq!(refusal(&changed(41, 0)), 4);
    assert_eq!(refusal(&changed(19, 128)), 4);
    assert_eq!(refusal(&changed(39, 0)), 0);
}

#[test]
fn reference_outside_is_5() {
    assert_eq!(refusal(&changed(12, 3)), 5);
    assert_eq!(refusal(&changed(15, 255)), 5);
    assert_eq!(refusal(&changed(15, 128)), 5);
    assert_eq!(refusal(&changed(12, 2)), 0);
    assert_eq!(refusal(&changed(12, 0)), 0);
    assert_eq!(refusal(&changed(32, 3)), 0);
    let mut worked_out = changed(12, 3);
    worked_out[36] = 2;
    assert_eq!(refusal(&worked_out), 5);
}

#[test]
fn cells_are_looked_at_one_by_one() {
    let mut file = changed(12, 3);
    file[37] = 3;
    assert_eq!(refusal(&file), 5);
    file[36] = 3;
    assert_eq!(refusal(&file), 3);
    let mut file = changed(16, 1);
    file[20] = 3;
    assert_eq!(refusal(&file), 4);
}
