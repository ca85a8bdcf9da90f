//! The commands in the documents print what the documents say. Lines that begin with `$` are run in a folder as ./demo leaves it;
//! the lines below are what they print, all of it.
mod command;

use command::{folder, programs};
use std::path::Path;
use std::process::Command;

/// A command, which may have several lines, and what the document shows below it.
type Shown = (String, String);

/// The commands of the indented blocks.
fn commands(document: &str) -> Vec<Shown> {
    let mut shown: Vec<Shown> = vec![];
    let mut inside = false;
    for line in document.lines() {
        let block = line.strip_prefix("    ").or(line.is_empty().then_some(""));
        match (block, shown.last_mut()) {
            (Some(line), Some((command, _))) if inside && command.matches('\'').count() % 2 == 1 => *command += &format!("\n{line}"),
            (Some(line), _) if line.starts_with("$ ") => {
                shown.push((line[2..].into(), String::new()));
                inside = true;
            }
            (Some(line), Some((_, printed))) if inside => *printed += &format!("{line}\n"),
            _ => inside = false,
        }
    }
    shown
}

fn hold(name: &str, document: &str) {
    let folder = folder(&format!("document_{name}"));
    for csv in ["bench.csv", "five-rows.csv"] {
        folder.write(csv, std::fs::read(Path::new("../examples").join(csv)).unwrap());
    }
    folder.succeeds("build five-rows.csv -o five-rows.cube");
    if !document.contains("$ cube build bench.csv") {
        folder.succeeds("build bench.csv --legend bench.legend -o bench.cube");
    }
    let cube = Path::new(env!("CARGO_BIN_EXE_cube")).parent().unwrap();
    let path = format!("{}:{}:{}", cube.display(), programs().display(), std::env::var("PATH").unwrap());
    let shown = commands(document);
    assert!(!shown.is_empty());
    for (command, wanted) in shown {
        let output = folder.started(Command::new("sh").arg("-c").arg(&command).env("PATH", &path), &[]);
        let printed = String::from_utf8(output.stdout).unwrap() + &String::from_utf8(output.stderr).unwrap();
        assert_eq!(printed.trim_end(), wanted.trim_end(), "{name}: $ {command}");
    }
}

#[test]
fn readme() {
    hold("readme", include_str!("../../README.md"));
}

#[test]
fn checklist() {
    hold("checklist", include_str!("../../docs/CHECKLIST.md"));
}

#[test]
fn legend() {
    hold("legend", include_str!("../../docs/LEGEND.md"));
}
