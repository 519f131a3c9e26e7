//! A folder of its own for each test, and the command run in it.

use std::fs;
use std::io::Write;
use std::path::{Path, PathBuf};
use std::process::{Command, Output, Stdio};

/// The command as cargo has built it.
pub const PLOT: &str = env!("CARGO_BIN_EXE_plot");

/// The root of the project.
pub fn root() -> PathBuf {
    Path::new(env!("CARGO_MANIFEST_DIR")).join("../..")
}

/// What a process said and how it ended.
#[derive(Debug, PartialEq, Eq)]
pub struct Said {
    pub status: i32,
    pub out: String,
    pub err: String,
}

impl Said {
    fn of(output: Output) -> Said {
        let text = |bytes: Vec<u8>| String::from_utf8_lossy(&bytes).into_owned();
        Said {
            status: output.status.code().expect("it ends by itself"),
            out: text(output.stdout),
            err: text(output.stderr),
        }
    }

    /// It went well, and said this.
    #[track_caller]
    pub fn is(self, out: &str) {
        assert_eq!((self.status, self.err.as_str()), (0, ""));
        assert_eq!(self.out, out);
    }

    /// It went well, and said this among other things.
    #[track_caller]
    pub fn has(self, part: &str) -> Said {
        assert_eq!((self.status, self.err.as_str()), (0, ""));
        assert!(self.out.contains(part), "{part:?} is not in\n{}", self.out);
        self
    }

    /// It ended with this status, said why on standard error, and nothing else.
    #[track_caller]
    pub fn fails(self, status: i32, why: &str) -> Said {
        assert_eq!(
            (self.status, self.out.as_str()),
            (status, ""),
            "{}",
            self.err
        );
        assert!(self.err.starts_with("plot: "), "{}", self.err);
        assert!(self.err.contains(why), "{why:?} is not in\n{}", self.err);
        self
    }
}

/// A folder that is there for one test.
pub struct Folder {
    path: PathBuf,
}

impl Folder {
    /// A new folder for the test with this name.
    pub fn new(name: &str) -> Folder {
        Folder::made(Path::new(env!("CARGO_TARGET_TMPDIR")).join(format!("command-{name}")))
    }

    /// The same outside the project.
    pub fn outside(name: &str) -> Folder {
        let name = format!("plot-{name}-{}", std::process::id());
        Folder::made(std::env::temp_dir().join(name))
    }

    fn made(path: PathBuf) -> Folder {
        let _ = fs::remove_dir_all(&path);
        fs::create_dir_all(&path).expect("the folder can be made");
        Folder { path }
    }

    /// The same with the small cemetery in it: `full.register`, `sparse.register`
    /// and the rules.
    pub fn with_cemetery(name: &str) -> Folder {
        let folder = Folder::new(name);
        let examples = root().join("examples/cemetery");
        for file in fs::read_dir(examples).expect("the examples are there") {
            let file = file.expect("it can be listed");
            let bytes = fs::read(file.path()).expect("it can be read");
            folder.write(&file.file_name().to_string_lossy(), bytes);
        }
        for sheet in ["full", "sparse"] {
            let (sheet, register) = (format!("{sheet}.csv"), format!("{sheet}.register"));
            let said = folder.plot(&["pack", &sheet, "-o", &register]);
            assert_eq!(said.status, 0, "{}", said.err);
        }
        folder
    }

    /// The place of a file in it.
    pub fn at(&self, name: &str) -> PathBuf {
        self.path.join(name)
    }

    /// Writes a file in it.
    pub fn write(&self, name: &str, bytes: impl AsRef<[u8]>) {
        fs::write(self.at(name), bytes).expect("the file can be written");
    }

    /// The bytes of a file in it.
    pub fn read(&self, name: &str) -> Vec<u8> {
        fs::read(self.at(name)).expect("the file can be read")
    }

    /// The names of the files in it, in order.
    pub fn names(&self) -> Vec<String> {
        let names = fs::read_dir(&self.path).expect("it can be listed");
        let names = names.map(|file| file.expect("it can be listed").file_name());
        let mut names: Vec<String> = names.map(|n| n.to_string_lossy().into_owned()).collect();
        names.sort();
        names
    }

    /// Runs the command in it, with nothing on standard input.
    pub fn plot(&self, words: &[&str]) -> Said {
        self.plot_with(words, b"")
    }

    /// The same with this on standard input.
    pub fn plot_with(&self, words: &[&str], input: &[u8]) -> Said {
        self.run(Command::new(PLOT).args(words), input)
    }

    /// Runs any command in it.
    pub fn run(&self, command: &mut Command, input: &[u8]) -> Said {
        Said::of(self.output(command, input))
    }

    /// The same, with the bytes that came out.
    pub fn output(&self, command: &mut Command, input: &[u8]) -> Output {
        let command = command.current_dir(&self.path).stdin(Stdio::piped());
        let command = command.stdout(Stdio::piped()).stderr(Stdio::piped());
        let mut child = command.spawn().expect("it can be started");
        let mut standard_input = child.stdin.take().expect("it is piped");
        // It may end without reading.
        let _ = standard_input.write_all(input);
        drop(standard_input);
        child.wait_with_output().expect("it ends")
    }
}

impl Drop for Folder {
    fn drop(&mut self) {
        if !std::thread::panicking() {
            let _ = fs::remove_dir_all(&self.path);
        }
    }
}
