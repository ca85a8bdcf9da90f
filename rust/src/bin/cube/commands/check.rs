use super::Command;
use crate::args::Args;
use crate::columns::Columns;
use crate::failure::Outcome;
use crate::opened::Opened;

pub const COMMAND: Command = Command {
    name: "check",
    words: "ARCHIVE",
    about: "checks an archive and its legend, and counts the entries",
    more: "\
Every field is checked, and that the legend is the archive's. A damaged archive, or a file of another kind, is refused with the
stop's number and what is wrong.
",
    options: &["--legend", "--csv"],
    run,
};

fn run(args: &Args) -> Outcome<()> {
    let file = args.file()?;
    let opened = Opened::read(file, args)?;
    let counts = opened.ask(opened.archive.check())?;
    let answer = if args.csv {
        let mut columns = Columns::new(vec![], &["base entries", "normal entries"]);
        columns.push(vec![counts.bases.to_string(), counts.normals.to_string()]);
        columns.print(true)
    } else {
        format!("{}, {}\n", entries(counts.bases, "base"), entries(counts.normals, "normal"))
    };
    opened.deliver(args, &answer)
}

/// So many entries of a kind, in words.
pub fn entries(count: u32, kind: &str) -> String {
    format!("{count} {kind} {}", if count == 1 { "entry" } else { "entries" })
}
