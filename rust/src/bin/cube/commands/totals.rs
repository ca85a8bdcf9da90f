use super::Command;
use crate::args::Args;
use crate::columns::Columns;
use crate::failure::Outcome;
use crate::opened::Opened;
use crate::report::Totals;

pub const COMMAND: Command = Command {
    name: "totals",
    words: "ARCHIVE [DIMENSION ..]",
    about: "the cells of dimensions added up, beside the grand total",
    more: "Without a dimension, all are added up. A record that was lost or counted twice in one of them makes it differ.\n",
    options: &["--legend", "--csv"],
    run,
};

fn run(args: &Args) -> Outcome<()> {
    let (file, words) = args.file_and_texts()?;
    let opened = Opened::read(file, args)?;
    let named = words.iter().map(|word| opened.place(word)).collect::<Outcome<Vec<_>>>()?;
    let places = if named.is_empty() { (0..opened.dims()).collect() } else { named };
    let heads = ["cells", "sum", "count", "sum in all", "count in all", "equal"];
    let mut columns = Columns::new(vec!["dimension".into()], &heads);
    for place in places {
        let totals = Totals::of(&opened, place)?;
        let (cells, all) = (&totals.cells, totals.all);
        let equal = if totals.equal() { "yes" } else { "NO" };
        let numbers =
            [cells.len().to_string(), totals.sum().to_string(), totals.count().to_string(), all.sum.to_string(), all.count.to_string()];
        columns.push([opened.name(place)].into_iter().chain(numbers).chain([equal.into()]).collect());
    }
    opened.deliver(args, &columns.print(args.csv))
}
