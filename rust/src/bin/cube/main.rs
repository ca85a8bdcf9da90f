//! `cube`: makes archives from CSV, asks them, and reports on them. `cube help` says how; docs/COMMAND.md says more.
mod args;
mod columns;
mod commands;
mod escape;
mod failure;
mod input;
mod legend;
mod opened;
mod output;
mod progress;
mod report;

use args::Args;
use commands::Command;
use failure::{Failure, Outcome};
use std::ffi::OsString;
use std::process::ExitCode;

fn main() -> ExitCode {
    let words: Vec<OsString> = std::env::args_os().skip(1).collect();
    match run(&words) {
        Ok(()) => ExitCode::SUCCESS,
        Err(failure) => {
            eprintln!("cube: {failure}");
            ExitCode::from(failure.status())
        }
    }
}

/// Carries out the command that the words are.
fn run(words: &[OsString]) -> Outcome<()> {
    let texts: Vec<_> = words.iter().map(|word| word.to_string_lossy()).collect();
    match texts.iter().map(AsRef::as_ref).collect::<Vec<_>>()[..] {
        [] => Err(Failure::Usage(format!("a command is missing\n{}", commands::overview()))),
        ["help" | "--help" | "-h"] => output::print(commands::overview().as_bytes()),
        ["help", name] | [name, "--help" | "-h"] => output::print(command(name)?.help().as_bytes()),
        ["--version" | "-V"] => output::print(concat!("cube ", env!("CARGO_PKG_VERSION"), "\n").as_bytes()),
        [name, ..] => {
            let command = command(name)?;
            let usage = |failure| match failure {
                Failure::Usage(what) => Failure::Usage(format!("{what}\n{}", command.usage_line())),
                other => other,
            };
            Args::parse(&words[1..], command.options).and_then(|args| (command.run)(&args)).map_err(usage)
        }
    }
}

fn command(name: &str) -> Outcome<&'static Command> {
    commands::named(name).ok_or_else(|| Failure::Usage(format!("there is no command {name:?}; 'cube help' lists them")))
}
