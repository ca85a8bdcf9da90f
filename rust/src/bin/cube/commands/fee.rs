use super::Command;
use crate::args::Args;
use crate::columns::Columns;
use crate::failure::{Failure, Outcome};
use crate::opened::{number, places, Opened};

pub const COMMAND: Command = Command {
    name: "fee",
    words: "ARCHIVE CENTS [DIMENSION,..]",
    about: "a fee shared over the cells of a set of dimensions by their counts",
    more: "\
Each cell gets its proportion in whole cents, rounded down; the cents left go one each to the largest remainders, the earlier
cell first if they are equal. The shares add up to the fee, which is at most 1,000,000,000 cents.
",
    options: &["--legend", "--csv"],
    run,
};

fn run(args: &Args) -> Outcome<()> {
    let (file, words) = args.file_and_texts()?;
    let (cents, word) = match words[..] {
        [cents] => (cents, ""),
        [cents, word] => (cents, word),
        _ => return Err(Failure::Usage("expected a fee in cents and dimensions with commas between them".into())),
    };
    let cents = number(cents).ok_or_else(|| Failure::Usage(format!("{cents:?} is no number of cents")))?;
    let opened = Opened::read(file, args)?;
    let set = opened.set(word)?;
    let shares = opened.ask(opened.archive.share_fee(cents, set))?;
    let cuboid = opened.ask(opened.archive.list_cuboid(set))?;
    let mut columns = Columns::new(places(set).map(|place| opened.name(place)).collect(), &["count", "cents"]);
    for (cell, cents) in cuboid.cells.iter().zip(shares) {
        let labels = places(set).map(|place| opened.label(place, cell.codes[place]));
        columns.push(labels.chain([cell.count.to_string(), cents.to_string()]).collect());
    }
    opened.deliver(args, &columns.print(args.csv))
}
