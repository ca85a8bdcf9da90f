use super::Command;
use crate::args::Args;
use crate::columns::Columns;
use crate::failure::{Failure, Outcome};
use crate::opened::Opened;

pub const COMMAND: Command = Command {
    name: "window",
    words: "ARCHIVE DIMENSION=CODE [DIMENSION=CODE ..]",
    about: "one cell, as one who may see a single chip is told it: its sum and count, or 'no record'",
    more: "\
The first dimension and code are the window; the others ask for a cell in it, as of 'cube cell'. No entry's number is told, and
nothing of records outside the window. A question that names the window's dimension once more must have its code there.
",
    options: &["--legend", "--csv"],
    run,
};

fn run(args: &Args) -> Outcome<()> {
    let (file, words) = args.file_and_texts()?;
    let Some((window, words)) = words.split_first() else { return Err(Failure::Usage("a window is missing".into())) };
    let opened = Opened::read(file, args)?;
    let (place, code) = the_window(&opened, window)?;
    let mut question = opened.question(words)?;
    if !words.iter().any(|word| names_place(&opened, word, place)) {
        question[place] = Some(code);
    }
    let seen = opened.ask(opened.archive.window(place as u32 + 1, code, &question))?;
    let told = seen.map(|seen| [seen.sum.to_string(), seen.count.to_string()]);
    let columns = Columns::of_cell(opened.names(), opened.labels(&question), ["sum", "count"], told, args.csv);
    opened.deliver(args, &columns.print(args.csv))
}

/// The place of the window's dimension, counted from 0, and its code.
fn the_window(opened: &Opened, word: &str) -> Outcome<(usize, u16)> {
    let window = opened.question(&[word])?.into_iter().enumerate().find_map(|(place, code)| Some((place, code?)));
    window.ok_or_else(|| Failure::Usage(format!("{word:?} is no window: it has one code of one dimension")))
}

/// Whether a word of a question names the dimension of this place.
fn names_place(opened: &Opened, word: &str, place: usize) -> bool {
    word.split_once('=').is_some_and(|(dimension, _)| opened.place(dimension).is_ok_and(|one| one == place))
}
