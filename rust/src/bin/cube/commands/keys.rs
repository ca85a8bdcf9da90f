use super::Command;
use crate::args::Args;
use crate::columns::Columns;
use crate::failure::Outcome;
use crate::opened::Opened;

pub const COMMAND: Command = Command {
    name: "keys",
    words: "ARCHIVE",
    about: "the smallest sets of dimensions whose codes tell all the others",
    more: "\
A key is a set on which no two base rows agree. Listed are the keys that hold no other key; every set that holds one of them is
a key too. With no base row, or one, the empty set is the only smallest key: it is printed as (none), and as CSV as an empty
field.
",
    options: &["--legend", "--csv"],
    run,
};

fn run(args: &Args) -> Outcome<()> {
    let file = args.file()?;
    let opened = Opened::read(file, args)?;
    let keys = opened.ask(opened.archive.smallest_keys())?;
    let mut columns = Columns::new(vec!["key".into()], &[]);
    for key in keys {
        columns.push(vec![if key == 0 && !args.csv { "(none)".into() } else { opened.set_names(key) }]);
    }
    opened.deliver(args, &columns.print(args.csv))
}
