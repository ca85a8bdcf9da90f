use super::Command;
use crate::args::Args;
use crate::failure::Outcome;
use crate::input::Input;
use crate::output;

pub const COMMAND: Command = Command {
    name: "list",
    words: "ARCHIVE",
    about: "the entries as they are stored: the text of the program lister",
    more: "\
First line: the number of dimensions, the base count and the normal count. Then for each entry its codes (* is ALL), sum and
count, and on base entries a colon and the smallest sets on which the row is single; in a set's number dimension i, counted
from 1, adds 2 to the power i-1. Unlike the program it takes archives of more than 65,536 bytes.
",
    options: &[],
    run,
};

fn run(args: &Args) -> Outcome<()> {
    let file = args.file()?;
    let input = Input::read(file)?;
    let text = input.archive()?.entries().to_string();
    output::deliver(args.output.as_deref(), &[input.source()], text.as_bytes())
}
