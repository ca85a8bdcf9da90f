//! The commands, each in a file of its own, and what `cube help` says of them.
mod add;
mod build;
mod cell;
mod check;
mod cuboid;
mod expand;
mod fee;
mod fixes;
mod join;
mod keys;
mod list;
mod report;
mod totals;
mod window;

use crate::args::Args;
use crate::failure::Outcome;
pub use check::entries;

pub struct Command {
    pub name: &'static str,
    /// The words behind the name.
    pub words: &'static str,
    /// What it does, in a line.
    pub about: &'static str,
    /// What else there is to know.
    pub more: &'static str,
    /// Its options besides `-o`.
    pub options: &'static [&'static str],
    pub run: fn(&Args) -> Outcome<()>,
}

const COMMANDS: [&Command; 14] = [
    &build::COMMAND,
    &check::COMMAND,
    &cell::COMMAND,
    &cuboid::COMMAND,
    &expand::COMMAND,
    &list::COMMAND,
    &keys::COMMAND,
    &fixes::COMMAND,
    &join::COMMAND,
    &add::COMMAND,
    &window::COMMAND,
    &totals::COMMAND,
    &fee::COMMAND,
    &report::COMMAND,
];

/// The options and what they do.
const OPTIONS: [(&str, &str); 5] = [
    ("-o FILE", "write to FILE, which keeps its old content unless the new one is whole"),
    ("--legend FILE", "names and labels; without it build has none, and others take the file of the archive's name that ends in .legend"),
    ("--csv", "for programs: the answer as CSV"),
    ("--reading COLUMN", "the column of the readings; else the last one"),
    ("--table", "write the table, which the program builder reads, and not the archive"),
];

pub fn named(name: &str) -> Option<&'static Command> {
    COMMANDS.into_iter().find(|command| command.name == name)
}

/// All commands, a line each.
pub fn overview() -> String {
    let width = COMMANDS.iter().map(|command| command.form().len()).max().unwrap_or(0);
    let lines: String = COMMANDS.iter().map(|command| format!("  {:width$}  {}\n", command.form(), command.about)).collect();
    format!(
        "usage: cube COMMAND ..\n\n{lines}\n\
         A file that is called - is standard input. 'cube help COMMAND' tells more of a command, 'cube --version' the version.\n\
         Exit status: 0 for an answer ('no record' is one), 1 for a refusal or a failure, 2 for wrong usage.\n"
    )
}

impl Command {
    /// The command and its words.
    fn form(&self) -> String {
        format!("{} {}", self.name, self.words)
    }

    pub fn usage_line(&self) -> String {
        format!("usage: cube {}; 'cube help {}' tells more", self.form(), self.name)
    }

    pub fn help(&self) -> String {
        let has = |option: &str| option.starts_with("-o") || self.options.iter().any(|one| option.starts_with(one));
        let options = OPTIONS.iter().filter(|(option, _)| has(option));
        let options: String = options.map(|(option, about)| format!("  {option:16}  {about}\n")).collect();
        format!("usage: cube {}\n\n{}.\n{}\n{options}", self.form(), capital(self.about), self.more)
    }
}

fn capital(text: &str) -> String {
    text[..1].to_uppercase() + &text[1..]
}
