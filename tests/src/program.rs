//! The programs, run between pipes. They come from the folder that CUBE_BIN names, or from ../target/bin.
use std::fs::File;
use std::io::{ErrorKind, Read, Write};
use std::path::PathBuf;
use std::process::{Child, ChildStdin, ChildStdout, Command, ExitStatus, Stdio};
use std::thread;
use std::time::{Duration, Instant};

/// A program that runs longer has failed.
const LONGEST: Duration = Duration::from_secs(60);

#[derive(Clone, Copy, Debug)]
pub enum Program {
    Builder,
    Lister,
    SmallTables,
}

impl Program {
    /// What it prints for an input.
    pub fn prints(self, input: &[u8]) -> Vec<u8> {
        self.prints_for_pieces([input], Duration::ZERO)
    }

    /// What it prints for an input that comes in pieces, with a pause behind each.
    pub fn prints_for_pieces<'a>(self, pieces: impl IntoIterator<Item = &'a [u8]> + Send, pause: Duration) -> Vec<u8> {
        run(Command::new(self.path()).stdin(Stdio::piped()), |pipe| feed(pipe, pieces, pause), read_all)
    }

    /// What it prints for a file, from the file's place on. The place moves by what it reads.
    pub fn prints_for_file(self, file: &File) -> Vec<u8> {
        run(Command::new(self.path()).stdin(file.try_clone().unwrap()), |_| (), read_all)
    }

    /// What it prints to a reader that takes so many bytes at a time, with a pause before each.
    pub fn prints_to_slow_reader(self, input: &[u8], size: usize, pause: Duration) -> Vec<u8> {
        let mut command = Command::new(self.path());
        run(command.stdin(Stdio::piped()), |pipe| feed(pipe, [input], Duration::ZERO), |pipe| read_slowly(pipe, size, pause))
    }

    /// What it prints for an input with a stack of so many KiB.
    pub fn prints_with_stack(self, kib: u32, input: &[u8]) -> Vec<u8> {
        let mut shell = Command::new("sh");
        shell.arg("-c").arg(format!("ulimit -s {kib} && exec \"$0\"")).arg(self.path());
        run(shell.stdin(Stdio::piped()), |pipe| feed(pipe, [input], Duration::ZERO), read_all)
    }

    fn path(self) -> PathBuf {
        let folder = std::env::var_os("CUBE_BIN").map(PathBuf::from).unwrap_or_else(|| PathBuf::from("../target/bin"));
        let path = folder.join(match self {
            Program::Builder => "builder",
            Program::Lister => "lister",
            Program::SmallTables => "small_tables",
        });
        assert!(path.is_file(), "no file {}: run ./build, or set CUBE_BIN", path.display());
        path
    }
}

/// What a command prints. It must end in time, with status 0 and nothing on standard error.
fn run(command: &mut Command, feed: impl FnOnce(Option<ChildStdin>) + Send, read: impl FnOnce(ChildStdout) -> Vec<u8> + Send) -> Vec<u8> {
    let mut child = command.stdout(Stdio::piped()).stderr(Stdio::piped()).spawn().unwrap();
    let (input, output, errors) = (child.stdin.take(), child.stdout.take().unwrap(), child.stderr.take().unwrap());
    thread::scope(|threads| {
        threads.spawn(|| feed(input));
        let printed = threads.spawn(|| read(output));
        let errors = threads.spawn(|| read_all(errors));
        let status = end(&mut child);
        let (printed, errors) = (printed.join().unwrap(), errors.join().unwrap());
        assert!(status.success(), "{command:?}: {status}");
        assert!(errors.is_empty(), "{command:?} on standard error: {}", errors.escape_ascii());
        printed
    })
}

/// Waits until a process ends. One that runs too long is killed.
fn end(child: &mut Child) -> ExitStatus {
    let start = Instant::now();
    while start.elapsed() < LONGEST {
        if let Some(status) = child.try_wait().unwrap() {
            return status;
        }
        thread::sleep(Duration::from_micros(200));
    }
    child.kill().and_then(|()| child.wait()).unwrap();
    panic!("a program ran for more than {LONGEST:?}");
}

/// Writes the pieces. A program need not take all of its input: a broken pipe ends the writing.
fn feed<'a>(pipe: Option<ChildStdin>, pieces: impl IntoIterator<Item = &'a [u8]>, pause: Duration) {
    let mut pipe = pipe.unwrap();
    for piece in pieces {
        match pipe.write_all(piece) {
            Err(error) if error.kind() == ErrorKind::BrokenPipe => return,
            written => written.unwrap(),
        }
        thread::sleep(pause);
    }
}

fn read_all(mut pipe: impl Read) -> Vec<u8> {
    let mut all = Vec::new();
    pipe.read_to_end(&mut all).unwrap();
    all
}

fn read_slowly(mut pipe: impl Read, size: usize, pause: Duration) -> Vec<u8> {
    let (mut all, mut piece) = (Vec::new(), vec![0; size]);
    loop {
        thread::sleep(pause);
        match pipe.read(&mut piece).unwrap() {
            0 => return all,
            n => all.extend_from_slice(&piece[..n]),
        }
    }
}
