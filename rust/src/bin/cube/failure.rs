//! Why a command ends without its result.
use cube_archive::Stop;
use std::fmt;

pub type Outcome<T> = Result<T, Failure>;

pub enum Failure {
    /// The words are no command.
    Usage(String),
    /// A refusal, or what failed.
    Failed(String),
}

impl Failure {
    /// What is wrong with a file, or with standard input.
    pub fn of(name: impl fmt::Display, what: impl fmt::Display) -> Failure {
        Failure::Failed(format!("{name}: {what}"))
    }

    /// A stop at a file: its number, its words and what to do.
    pub fn stop(name: impl fmt::Display, stop: Stop) -> Failure {
        Failure::of(name, format!("refused {}: {}{}", stop.number(), stop.words(), advice(stop)))
    }

    pub fn status(&self) -> u8 {
        match self {
            Failure::Failed(_) => 1,
            Failure::Usage(_) => 2,
        }
    }
}

impl fmt::Display for Failure {
    fn fmt(&self, f: &mut fmt::Formatter) -> fmt::Result {
        match self {
            Failure::Usage(text) | Failure::Failed(text) => f.write_str(text.trim_end()),
        }
    }
}

const DAMAGED: &str = "; the file is damaged, take another copy";

/// What to do about a stop. `cube join` has words of its own for 17 and 18, so that 18 comes here from `cube add` alone.
fn advice(stop: Stop) -> &'static str {
    match stop {
        Stop::Opening => "; is it an archive? 'cube build' makes one from CSV",
        Stop::Cut => "; the file was cut short, take another copy",
        Stop::Fee => "; share a smaller fee",
        Stop::NoRows => "; there is no record to share a fee by",
        Stop::Many => "; keep the new record apart, in an archive of its own",
        Stop::Dimensions | Stop::Size | Stop::Rows | Stop::Code | Stop::Order | Stop::Amount | Stop::List => DAMAGED,
        Stop::Trailing | Stop::CheckWord | Stop::Entries => DAMAGED,
        _ => "",
    }
}
