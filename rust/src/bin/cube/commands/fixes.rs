use super::Command;
use crate::args::Args;
use crate::columns::Columns;
use crate::failure::{Failure, Outcome};
use crate::opened::Opened;

pub const COMMAND: Command = Command {
    name: "fixes",
    words: "ARCHIVE DIMENSION,.. DIMENSION",
    about: "whether the codes of some dimensions settle that of another",
    more: "Yes: base rows that agree on the first dimensions agree on the last one too. '' is the empty set.\n",
    options: &["--legend", "--csv"],
    run,
};

fn run(args: &Args) -> Outcome<()> {
    let (file, words) = args.file_and_texts()?;
    let [set, dimension] = words[..] else { return Err(Failure::Usage("expected a set of dimensions and a dimension".into())) };
    let opened = Opened::read(file, args)?;
    let (set, place) = (opened.set(set)?, opened.place(dimension)?);
    let fixes = opened.ask(opened.archive.fixes(set, place as u32 + 1))?;
    let mut columns = Columns::new(["set", "dimension", "fixes"].map(String::from).to_vec(), &[]);
    let answer = if fixes { "yes" } else { "no" };
    columns.push(vec![opened.set_names(set), opened.name(place), answer.into()]);
    opened.deliver(args, &if args.csv { columns.print(true) } else { format!("{answer}\n") })
}
