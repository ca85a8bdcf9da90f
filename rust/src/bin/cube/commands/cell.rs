use super::Command;
use crate::args::Args;
use crate::columns::Columns;
use crate::failure::Outcome;
use crate::opened::Opened;

pub const COMMAND: Command = Command {
    name: "cell",
    words: "ARCHIVE [DIMENSION=CODE ..]",
    about: "one cell: its sum and count, or 'no record'",
    more: "\
A dimension that is not named is ALL, which is printed as *. Behind a dimension's name comes a label of its legend, behind its
number, counted from 1, a code: chip=A7 or 1=7. The entry is the number of the one that carries the cell, from 0 through base,
then normal entries.
",
    options: &["--legend", "--csv"],
    run,
};

fn run(args: &Args) -> Outcome<()> {
    let (file, words) = args.file_and_texts()?;
    let opened = Opened::read(file, args)?;
    let question = opened.question(&words)?;
    let found = opened.ask(opened.archive.look_up(&question))?;
    let told = found.map(|found| [found.sum.to_string(), found.count.to_string(), found.entry.to_string()]);
    let columns = Columns::of_cell(opened.names(), opened.labels(&question), ["sum", "count", "entry"], told, args.csv);
    opened.deliver(args, &columns.print(args.csv))
}
