use super::Command;
use crate::args::Args;
use crate::failure::{Failure, Outcome};
use crate::input::Stream;
use crate::legend::{agree_beside, Labels, Legend};
use crate::output::{self, Draft};
use crate::progress::Progress;
use cube_archive::csv::{Error, Fault, Reader};
use cube_archive::{Archive, Records};
use std::io::BufRead;
use std::path::Path;

pub const COMMAND: Command = Command {
    name: "build",
    words: "RECORDS.csv",
    about: "makes the archive of records",
    more: "\
The first line of the CSV names the columns: one is the reading, a whole number; the others are one to eight dimensions. Without
a legend their fields are codes, numbers from 0 on, and NAME:SIZE in the header gives a dimension its size.

With --legend their fields are labels, any text. A legend that is there keeps its codes, and new labels come behind them, which
standard error tells; one that is not there is made. It needs -o.

An archive holds up to 1,048,576 records with up to 1,024 different combinations of codes; a table, up to 1,024 records.
",
    options: &["--legend", "--reading", "--table"],
    run,
};

fn run(args: &Args) -> Outcome<()> {
    let file = args.file()?;
    output::not_to_a_terminal(args.output.as_deref())?;
    match (&args.legend, &args.output) {
        (None, _) => without_legend(args, Stream::open(file)?),
        (Some(legend), Some(archive)) => with_legend(args, Stream::open(file)?, legend, archive),
        (Some(_), None) => Err(Failure::Usage("--legend needs -o FILE: a legend is kept beside its archives".into())),
    }
}

fn reader(args: &Args, text: Box<dyn BufRead>) -> Result<Reader<Box<dyn BufRead>>, Error> {
    Reader::new(text, args.reading.as_deref())
}

/// The bytes of the archive of records, or of their table.
fn made(args: &Args, name: &str, records: &mut Records) -> Outcome<Vec<u8>> {
    if !args.table {
        return records.archive().map(Archive::into_bytes).map_err(|many| Failure::of(name, Error::from(many)));
    }
    let table = records.table().map_err(|error| {
        let line = records.place(1_024).expect("there are too many records");
        let more = "without --table they become an archive, which is built in parts";
        Failure::of(name, format!("line {line}: {error}, and there are {}; {more}", records.len()))
    })?;
    Ok(table.to_bytes())
}

fn without_legend(args: &Args, input: Stream) -> Outcome<()> {
    args.output.as_deref().map_or(Ok(()), |archive| agree_beside(archive, None))?;
    let (name, source) = (input.name.clone(), input.source());
    let mut progress = Progress::new();
    let records = reader(args, input.text).and_then(|reader| reader.codes(|count| progress.records(count)));
    let mut records = records.map_err(|error| match error.fault {
        Fault::Code(_) => Failure::of(&name, format!("{error}; --legend FILE keeps labels")),
        _ => Failure::of(&name, error),
    })?;
    output::deliver(args.output.as_deref(), &[&source], &made(args, &name, &mut records)?)
}

/// Builds with a legend. A lock keeps other builds from taking in labels at the same time.
fn with_legend(args: &Args, input: Stream, path: &Path, archive: &Path) -> Outcome<()> {
    let (name, source) = (input.name.clone(), input.source());
    let mut progress = Progress::new();
    let reader = reader(args, input.text).map_err(|error| Failure::of(&name, error))?;
    let mut labels = Labels::read(reader, |count| progress.records(count)).map_err(|what| Failure::of(&name, what))?;
    let lock = output::lock(path)?;
    let old = path.exists().then(|| Legend::read(path)).transpose()?;
    let mut legend = old.clone().unwrap_or_else(|| Legend::new(labels.columns.iter().map(|column| column.name.clone())));
    legend.code(&mut labels).map_err(|what| Failure::of(&name, format!("line {}: {what}", labels.line)))?;
    agree_beside(archive, Some(&legend))?;
    let archive = Draft::write(archive, &[&source, path], &made(args, &name, &mut labels.records)?)?;
    if old.as_ref() != Some(&legend) {
        Draft::write(path, &[&source], legend.text().as_bytes())?.put()?;
    }
    archive.put()?;
    drop((lock, progress));
    for news in old.map_or(vec![], |old| legend.news(&old)) {
        eprintln!("cube: {}: {news}", path.display());
    }
    Ok(())
}
