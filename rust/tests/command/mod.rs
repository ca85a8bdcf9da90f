//! The command `cube`, run in a folder of the test's own.
#![allow(dead_code)]
use std::ffi::OsStr;
use std::fs;
use std::io::Write;
use std::path::{Path, PathBuf};
use std::process::{Command, Output, Stdio};

pub struct Folder(PathBuf);

/// An empty folder; the name is the test's.
pub fn folder(name: &str) -> Folder {
    let path = Path::new(env!("CARGO_TARGET_TMPDIR")).join(name);
    let _ = fs::remove_dir_all(&path);
    fs::create_dir_all(&path).unwrap();
    Folder(path)
}

/// The folder of the proved programs: the one that CUBE_BIN names, or ../target/bin.
pub fn programs() -> PathBuf {
    let folder = std::env::var_os("CUBE_BIN").map(PathBuf::from).unwrap_or_else(|| PathBuf::from("../target/bin"));
    folder.canonicalize().unwrap_or_else(|error| panic!("{}: {error}; run ./build, or set CUBE_BIN", folder.display()))
}

/// Exit status, standard output and standard error.
pub type Ended = (Option<i32>, String, String);

impl Folder {
    pub fn path(&self, name: &str) -> PathBuf {
        self.0.join(name)
    }

    pub fn write(&self, name: &str, bytes: impl AsRef<[u8]>) -> &Folder {
        fs::write(self.path(name), bytes).unwrap();
        self
    }

    pub fn read(&self, name: &str) -> Vec<u8> {
        fs::read(self.path(name)).unwrap_or_else(|error| panic!("{name}: {error}"))
    }

    pub fn text(&self, name: &str) -> String {
        String::from_utf8(self.read(name)).unwrap()
    }

    /// The names of the files.
    pub fn files(&self) -> Vec<String> {
        let names = fs::read_dir(&self.0).unwrap().map(|file| file.unwrap().file_name().into_string().unwrap());
        let mut names: Vec<String> = names.collect();
        names.sort();
        names
    }

    /// The command with words, parted by spaces, and an input. One that ends before it reads leaves the input.
    pub fn run_on(&self, words: &str, input: &[u8]) -> Ended {
        self.run_words(&words.split(' ').filter(|word| !word.is_empty()).collect::<Vec<_>>(), input)
    }

    pub fn run_words<W: AsRef<OsStr>>(&self, words: &[W], input: &[u8]) -> Ended {
        let Output { status, stdout, stderr } = self.started(Command::new(env!("CARGO_BIN_EXE_cube")).args(words), input);
        (status.code(), String::from_utf8_lossy(&stdout).into(), String::from_utf8_lossy(&stderr).into())
    }

    pub fn started(&self, command: &mut Command, input: &[u8]) -> Output {
        let pipes = command.current_dir(&self.0).stdin(Stdio::piped()).stdout(Stdio::piped()).stderr(Stdio::piped());
        let mut child = pipes.spawn().unwrap();
        let _ = child.stdin.take().unwrap().write_all(input);
        child.wait_with_output().unwrap()
    }

    pub fn run(&self, words: &str) -> Ended {
        self.run_on(words, &[])
    }

    /// The command succeeds, prints this and no error.
    #[track_caller]
    pub fn answers(&self, words: &str, printed: &str) {
        assert_eq!(self.run(words), (Some(0), printed.into(), String::new()), "cube {words}");
    }

    /// The command succeeds and prints nothing.
    #[track_caller]
    pub fn succeeds(&self, words: &str) -> &Folder {
        self.answers(words, "");
        self
    }

    /// The command prints nothing but this on standard error, and has status 1.
    #[track_caller]
    pub fn fails(&self, words: &str, error: &str) {
        assert_eq!(self.run(words), (Some(1), String::new(), format!("cube: {error}\n")), "cube {words}");
    }

    /// The command is wrong usage for this reason, and its usage is shown.
    #[track_caller]
    pub fn wrong_usage(&self, words: &str, reason: &str) {
        let (status, out, error) = self.run(words);
        assert_eq!((status, out), (Some(2), String::new()), "cube {words}: {error}");
        assert!(error.starts_with(&format!("cube: {reason}")), "cube {words}: {error}");
        assert!(error.contains("usage: cube ") || error.contains("'cube help'"), "cube {words}: {error}");
    }
}
