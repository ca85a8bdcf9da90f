use super::Command;
use crate::args::Args;
use crate::columns::Columns;
use crate::failure::Outcome;
use crate::opened::Opened;

pub const COMMAND: Command = Command {
    name: "expand",
    words: "ARCHIVE",
    about: "every cell of the complete cube",
    more: "Sets of fewer dimensions come first. A dimension that a cell does not have is ALL, which is printed as *.\n",
    options: &["--legend", "--csv"],
    run,
};

fn run(args: &Args) -> Outcome<()> {
    let file = args.file()?;
    let opened = Opened::read(file, args)?;
    let cuboids = opened.ask(opened.archive.expand())?;
    let mut columns = Columns::new(opened.names(), &["sum", "count"]);
    for cell in cuboids.iter().flat_map(|cuboid| &cuboid.cells) {
        columns.push(opened.labels(&cell.codes).into_iter().chain([cell.sum.to_string(), cell.count.to_string()]).collect());
    }
    opened.deliver(args, &columns.print(args.csv))
}
