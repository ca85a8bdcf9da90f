use super::Command;
use crate::args::Args;
use crate::failure::{Failure, Outcome};
use crate::legend::agree_beside;
use crate::opened::Opened;
use crate::output;
use cube_archive::{Archive, Stop};
use std::ffi::OsStr;
use std::path::Path;

pub const COMMAND: Command = Command {
    name: "join",
    words: "ARCHIVE ARCHIVE ..",
    about: "archives of the same dimensions and sizes as one",
    more: "\
Records of all are added up as if they had been one table; the order of the archives does not matter. If one has a legend, all must
have one, and any two must give every code the same label; the joined archive has that legend too, the longest one if they differ
in length.
",
    options: &["--legend"],
    run,
};

fn run(args: &Args) -> Outcome<()> {
    let files = args.files(2)?;
    output::not_to_a_terminal(args.output.as_deref())?;
    if files.iter().filter(|&&file| file == OsStr::new("-")).count() > 1 {
        return Err(Failure::Usage("standard input is one archive and not two".into()));
    }
    let all = files.into_iter().map(|file| Opened::read(file, args)).collect::<Outcome<Vec<_>>>()?;
    for (i, opened) in all.iter().enumerate() {
        all[..i].iter().try_for_each(|before| agree(before, opened))?;
    }
    if let Some(archive) = &args.output {
        all.iter().try_for_each(|opened| agree_beside(archive, opened.legend.as_ref().map(|(_, legend)| legend)))?;
    }
    let joined = joined(&all)?;
    let inputs: Vec<&Path> = all.iter().flat_map(Opened::sources).collect();
    output::deliver(args.output.as_deref(), &inputs, joined.as_bytes())
}

/// One archive behind the other is joined to those before it, so that the one which cannot be is known.
fn joined(all: &[Opened]) -> Outcome<Archive> {
    let mut joined = all[0].archive.clone();
    for (i, opened) in all.iter().enumerate().skip(1) {
        joined = joined.join(&opened.archive).map_err(|stop| match stop {
            Stop::Sizes => other_sizes(&all[0], opened),
            Stop::Many => too_many(&joined, &all[..i], opened),
            _ => Failure::stop(&opened.input.name, stop),
        })?;
    }
    Ok(joined)
}

/// An archive has other sizes than the first, which those between them have too.
fn other_sizes(first: &Opened, other: &Opened) -> Failure {
    let sizes = |opened: &Opened| opened.archive.sizes().iter().map(u16::to_string).collect::<Vec<_>>().join(", ");
    let what = format!("its sizes are {}, those of {} are {}", sizes(other), first.input.name, sizes(first));
    let advice = "build both with one legend that already has all labels, or give both headers the same sizes (NAME:SIZE)";
    refused(Stop::Sizes, other, format!("{what}; {advice}"))
}

/// An archive cannot be joined to those before it, which are joined already: which limit it is.
fn too_many(joined: &Archive, before: &[Opened], other: &Opened) -> Failure {
    let before = match before {
        [one] => one.input.name.clone(),
        _ => format!("the {} archives before it", before.len()),
    };
    let count = |archive: &Archive| archive.list_cuboid(0).map_or(0, |cuboid| cuboid.cells[0].count);
    let what = match count(joined) + count(&other.archive) {
        ..=1_048_576 => "more than the 1,024 different combinations of codes that an archive holds".into(),
        records => format!("{records} records, and an archive holds 1,048,576"),
    };
    refused(Stop::Many, other, format!("together with {before} there are {what}; keep it apart"))
}

fn refused(stop: Stop, opened: &Opened, what: String) -> Failure {
    Failure::of(&opened.input.name, format!("refused {}: {what}", stop.number()))
}

/// Both archives have legends that agree, or neither has one.
fn agree(first: &Opened, second: &Opened) -> Outcome<()> {
    let both = "both archives need one legend, --legend FILE";
    match (&first.legend, &second.legend) {
        (Some((path, a)), Some((other, b))) if !a.agrees(b) => {
            Err(Failure::of(path.display(), format!("its codes have other labels in {}: {both}", other.display())))
        }
        (Some((path, _)), None) => Err(alone(path, &second.input.name)),
        (None, Some((path, _))) => Err(alone(path, &first.input.name)),
        _ => Ok(()),
    }
}

/// There is a legend for one archive and none for another.
fn alone(legend: &Path, without: &str) -> Failure {
    Failure::of(legend.display(), format!("{without} has no legend beside it: both archives need one, --legend FILE"))
}
