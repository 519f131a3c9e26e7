//! The scripts around the command: what is answered before anything is proved, what is
//! installed, and the library's crate by itself.

use crate::folder::{Folder, PLOT, Said, root};
use std::env;
use std::fs;
use std::process::Command;

/// A script of the project, run in a folder.
fn script(folder: &Folder, name: &str, words: &[&str]) -> Said {
    let mut bash = Command::new("bash");
    folder.run(bash.arg(root().join(name)).args(words), b"")
}

fn copy(folder: &Folder, name: &str) {
    let place = folder.at(name);
    fs::create_dir_all(place.parent().expect("it is below the folder")).expect("it can be made");
    let mut cp = Command::new("cp");
    let said = folder.run(cp.arg("-r").arg(root().join(name)).arg(place), b"");
    assert_eq!(said.status, 0, "{}", said.err);
}

/// What needs no library is answered in the command's own words.
#[test]
fn answers_without_the_library() {
    let folder = Folder::new("answer");
    for words in [
        &["--help"][..],
        &["-h"],
        &["--version"],
        &["help"],
        &["help", "run"],
        &["show", "--help"],
        &["run", "x", "y", "-h"],
        &[],
        &["run"],
        &["explain", "--json"],
        &["run", "x", "--tomatoes"],
        &["show", "x", "--gaps", "--tomatoes=1"],
        &["tomatoes"],
        &["help", "tomatoes"],
    ] {
        assert_eq!(
            script(&folder, "scripts/answer", words),
            folder.plot(words),
            "{words:?}"
        );
    }
    for words in [
        &["show", "x"][..],
        &["run", "x", "y", "--budget", "3"],
        &["run", "x", "y", "--budget=3", "-o", "z"],
        &["set", "x", "0", "M", "-5", "-o", "-"],
        &["read", "x", "--", "-y", "1"],
        &["help", "--man"],
    ] {
        let said = script(&folder, "scripts/answer", words);
        assert_eq!(
            (said.status, said.out.as_str(), said.err.as_str()),
            (3, "", ""),
            "{words:?}"
        );
    }
    let near = script(&folder, "scripts/answer", &["shwo"]);
    assert!(near.status == 2 && near.err.starts_with("plot: there is no command \"shwo\"\n"));
}

/// Where nothing is built, help is told at once and everything else begins to build.
#[test]
fn help_comes_before_the_proofs() {
    let folder = Folder::new("before");
    for name in ["plot", "scripts", "rust/command/help", "rust/Cargo.toml"] {
        copy(&folder, name);
    }
    fs::create_dir_all(folder.at("crates/one/src")).expect("it can be made");
    let run = |words: &[&str]| {
        let mut bash = Command::new("bash");
        let bash = bash.arg("plot").args(words).env("PATH", "/usr/bin:/bin");
        folder.run(bash, b"")
    };
    assert_eq!(run(&["--help"]), folder.plot(&["--help"]));
    assert_eq!(run(&["help", "set"]), folder.plot(&["help", "set"]));
    assert_eq!(run(&["run", "x", "--y"]), folder.plot(&["run", "x", "--y"]));
    let said = run(&["show", "x"]);
    assert_eq!((said.status, said.out.as_str()), (2, ""));
    assert!(
        said.err.contains("there is no rt on the PATH"),
        "{}",
        said.err
    );
}

/// The project as far as `install` needs it, with nothing to build.
fn to_install(folder: &Folder) {
    for name in [
        "install",
        "include/plot.h",
        "target/staticlib/libc_api.a",
        "scripts/shared_library",
    ] {
        copy(folder, name);
    }
    folder.write("scripts/build", "");
    let program = folder.at("rust/target/release");
    fs::create_dir_all(&program).expect("it can be made");
    fs::copy(PLOT, program.join("plot")).expect("it can be copied");
    let mut chmod = Command::new("chmod");
    folder.run(chmod.args(["+x", "scripts/build"]), b"");
}

const INSTALLED: [&str; 9] = [
    "bin/plot",
    "lib/libplot.a",
    "lib/libplot.so",
    "include/plot.h",
    "lib/pkgconfig/plot.pc",
    "share/man/man1/plot.1",
    "share/bash-completion/completions/plot",
    "share/zsh/site-functions/_plot",
    "share/fish/vendor_completions.d/plot.fish",
];

#[test]
fn everything_is_installed_and_removed() {
    let folder = Folder::new("install");
    to_install(&folder);
    let bash = |line: &str| folder.run(Command::new("bash").args(["-c", line]), b"");
    bash("bash install prefix").has("/prefix/bin/plot\n");
    for name in INSTALLED {
        let length = fs::metadata(folder.at("prefix").join(name))
            .expect(name)
            .len();
        assert!(length > 0, "{name}");
    }
    bash("prefix/bin/plot --version").has("plot 0.");
    let pc = String::from_utf8(folder.read("prefix/lib/pkgconfig/plot.pc")).expect("it is text");
    assert!(
        pc.contains("Libs: -L${libdir} -lplot\n") && pc.starts_with("prefix=/"),
        "{pc}"
    );
    let example = root().join("examples/c/reading.c").display().to_string();
    let data = root().join("crates/plotprint/data").display().to_string();
    for link in ["-lplot -Wl,-rpath,prefix/lib", "prefix/lib/libplot.a"] {
        bash(&format!(
            "cc -Iprefix/include {example} -Lprefix/lib {link} -o reading"
        ))
        .is("");
        bash(&format!(
            "./reading {data}/register.bin {data}/rules.txt 'M[u]' 0"
        ))
        .has("M[u] at 0 is 180\n");
    }
    bash("bash install --uninstall prefix").has("removed 9 files below ");
    bash("find prefix -type f").is("");
    bash("DESTDIR=$PWD/stage bash install /opt/plot").has("/stage/opt/plot/bin/plot\n");
    bash("head -n 1 stage/opt/plot/lib/pkgconfig/plot.pc").is("prefix=/opt/plot\n");
    bash("bash install --help").has("bash install [--uninstall] [PREFIX]\n");
    for words in ["--x", "a b"] {
        let said = bash(&format!("bash install {words}"));
        assert!(
            said.status == 2 && said.err.contains("usage: bash install"),
            "{words}"
        );
    }
}

/// The crate of the library builds from a copy, and says in one error what is missing.
#[test]
fn the_library_from_a_copy() {
    let folder = Folder::outside("copy");
    copy(&folder, "rust/plot");
    fs::create_dir_all(folder.at("user/src")).expect("it can be made");
    folder.write(
        "user/Cargo.toml",
        "[package]\nname = \"user\"\nversion = \"0.1.0\"\nedition = \"2024\"\n\n\
         [dependencies]\nplot = { path = \"../rust/plot\" }\n\n[workspace]\n",
    );
    folder.write(
        "user/src/main.rs",
        "fn main() {\n    println!(\"{}\", plot::Register::from_bytes(b\"short\").unwrap_err());\n}\n",
    );
    let cargo = |place: &str, words: &[&str], libraries: &str| {
        let mut cargo = Command::new(env!("CARGO"));
        let cargo = cargo.args(words).args(["--offline", "--quiet"]);
        let manifest = folder.at(place).join("Cargo.toml");
        let cargo = cargo.arg("--manifest-path").arg(manifest);
        let cargo = cargo.env("CARGO_TARGET_DIR", folder.at("built"));
        folder.run(cargo.env("PLOT_LIB_DIR", libraries), b"")
    };
    let libraries = root().join("target/staticlib").display().to_string();
    assert_eq!(cargo("rust/plot", &["build"], &libraries).err, "");
    cargo("user", &["run"], &libraries).is("refused 1: the register file has the wrong length\n");
    let said = cargo("user", &["run"], "nowhere");
    assert_ne!(said.status, 0);
    let told = "The proved library is missing: nowhere has neither libc_api.a nor libplot.a. \
                Set PLOT_LIB_DIR to the folder that has it";
    assert!(said.err.contains(told), "{}", said.err);
    assert_eq!(said.err.matches("missing").count(), 1, "{}", said.err);
}
