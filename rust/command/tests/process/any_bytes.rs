//! Whatever is given, a command ends with a result, a refusal or a complaint of its
//! own words, and never in the middle of something.

use crate::folder::{Folder, Said};
use generate::random::Random;
use generate::tally::Tally;
use generate::{chains, damage, mutations, registers, texts};

const CASES: usize = 150;

/// A register that loads, or one that is damaged.
fn register(random: &mut Random) -> (reference::register::Sizes, Vec<u8>) {
    let sizes = registers::sizes(random);
    let mut register = registers::file(random, sizes);
    if random.percent(30) {
        damage::damage(random, sizes, &mut register);
    }
    (sizes, register)
}

/// A text with some bytes and lines changed.
fn rules(random: &mut Random, sizes: reference::register::Sizes) -> Vec<u8> {
    let shape = texts::shape(random);
    let text = texts::text(random, sizes, shape);
    match random.percent(40) {
        true => text,
        false => mutations::several(random, &text),
    }
}

fn ended(tally: &mut Tally, said: Said) {
    assert!((0..=2).contains(&said.status), "{said:?}");
    assert!(!said.err.contains("panicked"), "{}", said.err);
    assert_eq!(said.status == 0, said.err.is_empty(), "{said:?}");
    tally.count(["done", "refused", "bad usage"][said.status as usize]);
}

#[test]
fn any_register_chain_and_text() {
    let folder = Folder::new("any-bytes");
    let mut random = Random::new(38);
    let mut tally = Tally::default();
    for _ in 0..CASES {
        let (sizes, register) = register(&mut random);
        folder.write("register", register);
        folder.write("rules", rules(&mut random, sizes));
        let chain = chains::any(&mut random, sizes);
        let chain = String::from_utf8_lossy(&chain).replace('\0', "?");
        let number = random.below(4).to_string();
        for words in [
            &["show", "register"][..],
            &["show", "register", "--gaps"],
            &["show", "register", "--svg", "-"],
            &["unpack", "register"],
            &["read", "register", "--", &chain, &number],
            &["path", "register", "--", &chain, &number],
            &["read", "register", "--all", "--", &chain],
            &["path", "register", "--", &chain, "0-3"],
            &["why", "register", "--", &chain],
            &["why", "register", "rules", "M", "--budget", "20"],
            &["check", "register", "rules"],
            &["plan", "register", "rules"],
            &["plan", "register", "rules", &number, "--svg", "-"],
            &["inspect", "register", "rules", "1", &number],
            &["run", "register", "rules", "--budget", "20"],
        ] {
            ended(&mut tally, folder.plot(words));
        }
    }
    tally.print("commands over generated and damaged input");
    tally.require(100, &["done", "refused"]);
}

/// A clerk's sheet with some bytes changed.
#[test]
fn any_clerks_sheet() {
    let folder = Folder::with_cemetery("any-clerk");
    let mut random = Random::new(40);
    let mut tally = Tally::default();
    for _ in 0..2 * CASES {
        let mut sheet = folder.read("clerk.csv");
        for _ in 0..1 + random.below(3) {
            let place = random.below(sheet.len());
            match random.pick(&[0, 1, 2]) {
                0 => sheet.insert(place, random.pick(b"\";,\t\n\r-#?~09A \xff")),
                1 => drop(sheet.remove(place)),
                _ => sheet[place] = random.byte(),
            }
        }
        let said = folder.plot_with(&["pack", "-", "-o", "packed"], &sheet);
        if said.status == 0 {
            folder.plot(&["show", "packed"]).has("record");
            let back = folder.plot(&["unpack", "packed"]).out;
            folder.plot_with(&["pack", "-", "-o", "again"], back.as_bytes());
            assert_eq!(folder.read("again"), folder.read("packed"), "{back}");
            assert_eq!(folder.plot(&["unpack", "again"]).out, back);
        }
        ended(&mut tally, said);
    }
    tally.require(10, &["done", "refused"]);
}

#[test]
fn any_sheet() {
    let folder = Folder::new("any-sheet");
    let mut random = Random::new(39);
    let mut tally = Tally::default();
    for _ in 0..CASES {
        let sizes = registers::sizes(&mut random);
        folder.write("register", registers::file(&mut random, sizes));
        let mut sheet = folder.plot(&["unpack", "register"]).out.into_bytes();
        for _ in 0..random.below(3) {
            let place = random.below(sheet.len() + 1);
            match random.pick(&[0, 1, 2]) {
                0 => sheet.insert(place, random.pick(b"\",\n\r-09AMZ \xff")),
                _ if place == sheet.len() => {}
                1 => drop(sheet.remove(place)),
                _ => sheet[place] = random.byte(),
            }
        }
        let said = folder.plot_with(&["pack", "-", "-o", "packed"], &sheet);
        if said.status == 0 {
            folder.plot(&["show", "packed"]).has("record");
        }
        ended(&mut tally, said);
    }
    tally.require(10, &["done", "refused"]);
}
