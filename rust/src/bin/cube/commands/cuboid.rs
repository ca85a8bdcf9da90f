use super::Command;
use crate::args::Args;
use crate::columns::Columns;
use crate::failure::{Failure, Outcome};
use crate::opened::{places, Opened};

pub const COMMAND: Command = Command {
    name: "cuboid",
    words: "ARCHIVE [DIMENSION,..]",
    about: "the cells of a set of dimensions",
    more: "Dimensions go by name or by number, counted from 1. Without any, the one cell is that of all records.\n",
    options: &["--legend", "--csv"],
    run,
};

fn run(args: &Args) -> Outcome<()> {
    let (file, words) = args.file_and_texts()?;
    let word = match words[..] {
        [] => "",
        [word] => word,
        _ => return Err(Failure::Usage("the dimensions are one word with commas between them".into())),
    };
    let opened = Opened::read(file, args)?;
    let set = opened.set(word)?;
    let cuboid = opened.ask(opened.archive.list_cuboid(set))?;
    let mut columns = Columns::new(places(set).map(|place| opened.name(place)).collect(), &["sum", "count"]);
    for cell in cuboid.cells {
        let labels = places(set).map(|place| opened.label(place, cell.codes[place]));
        columns.push(labels.chain([cell.sum.to_string(), cell.count.to_string()]).collect());
    }
    opened.deliver(args, &columns.print(args.csv))
}
