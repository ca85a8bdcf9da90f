use super::Command;
use crate::args::Args;
use crate::failure::Outcome;
use crate::opened::Opened;
use crate::report::page;

pub const COMMAND: Command = Command {
    name: "report",
    words: "ARCHIVE",
    about: "a page in HTML: the five points carried out, the totals of every dimension",
    more: "\
The five points are those of the field engineer's checklist. The page is one file without scripts and asks nothing of a network.
An archive that is refused has no page: the command says what is wrong with it.
",
    options: &["--legend"],
    run,
};

fn run(args: &Args) -> Outcome<()> {
    let file = args.file()?;
    let opened = Opened::read(file, args)?;
    opened.deliver(args, &page(&opened)?)
}
