use super::Command;
use crate::args::Args;
use crate::failure::{Failure, Outcome};
use crate::legend::agree_beside;
use crate::opened::Opened;
use crate::output;
use cube_archive::csv::Fault;
use std::path::Path;

pub const COMMAND: Command = Command {
    name: "add",
    words: "ARCHIVE READING DIMENSION=CODE ..",
    about: "an archive with one late record added",
    more: "\
Every dimension is named once; behind its name comes a label of its legend, behind its number, counted from 1, a code. The new
archive is that of all the records, built afresh. A label that the legend has not is added by 'cube build --legend' and 'cube join'.
",
    options: &["--legend"],
    run,
};

fn run(args: &Args) -> Outcome<()> {
    let (file, words) = args.file_and_texts()?;
    let Some((reading, words)) = words.split_first() else { return Err(Failure::Usage("a reading is missing".into())) };
    let reading = reading.parse().map_err(|_| Failure::Usage(Fault::Reading(reading.to_string()).to_string()))?;
    output::not_to_a_terminal(args.output.as_deref())?;
    let opened = Opened::read(file, args)?;
    let codes = codes(&opened, words)?;
    if let Some(archive) = &args.output {
        agree_beside(archive, opened.legend.as_ref().map(|(_, legend)| legend))?;
    }
    let late = opened.ask(opened.archive.add(&codes, reading))?;
    if let Some((path, legend)) = &opened.legend {
        legend.fits(&late).map_err(|what| Failure::of(path.display(), format!("{what}: a record has a label in each dimension")))?;
    }
    output::deliver(args.output.as_deref(), &opened.sources().collect::<Vec<&Path>>(), late.as_bytes())
}

/// The record's code in each dimension.
fn codes(opened: &Opened, words: &[&str]) -> Outcome<Vec<u16>> {
    let codes = opened.question(words)?.into_iter().enumerate().map(|(place, code)| {
        code.ok_or_else(|| Failure::Usage(format!("dimension {:?} is missing: a record has a code for each", opened.name(place))))
    });
    codes.collect()
}
