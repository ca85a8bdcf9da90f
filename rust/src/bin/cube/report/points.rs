//! The five points of the field engineer's checklist, carried out.
use super::questions::{lone, needed, never_met};
use super::{heading, Asked, Totals};
use crate::commands::entries;
use crate::failure::Outcome;
use crate::opened::Opened;
use cube_archive::{Code, Found};

pub struct Point {
    pub title: &'static str,
    /// What kind of wrong archive it catches.
    pub catches: &'static str,
    pub asked: String,
    pub answer: String,
    pub right: bool,
}

pub fn all(asked: &Asked) -> Outcome<[Point; 5]> {
    Ok([accepted(asked), added_up(asked), no_record(asked)?, one_record(asked)?, counted(asked)])
}

fn accepted(asked: &Asked) -> Point {
    let (counts, bytes) = (asked.counts, asked.opened.archive.as_bytes());
    let hex = |bytes: &[u8]| bytes.iter().map(|byte| format!("{byte:02x}")).collect::<Vec<_>>().join(" ");
    Point {
        title: "Opening bytes and check word",
        catches: "Catches damage, and files of another kind.",
        asked: "every field, the check word, and every list and normal entry against the base entries".into(),
        answer: format!(
            "accepted: {}, {}; the first four bytes are {}, the check word is {}",
            entries(counts.bases, "base"),
            entries(counts.normals, "normal"),
            hex(&bytes[..4]),
            hex(&bytes[bytes.len() - 4..])
        ),
        right: true,
    }
}

fn added_up(asked: &Asked) -> Point {
    let (opened, totals, all) = (asked.opened, &asked.totals, asked.all());
    let line = |(place, totals): (usize, &Totals)| format!("{}: {} in {}", heading(opened, place), totals.sum(), records(totals.count()));
    let sums = totals.iter().enumerate().map(line);
    Point {
        title: "Totals of each dimension against the grand total",
        catches: "Catches a record lost or counted twice.",
        asked: format!("the cells of each dimension added up, against {} in {}", all.sum, records(all.count)),
        answer: sums.collect::<Vec<_>>().join("; "),
        right: totals.iter().all(Totals::equal),
    }
}

fn no_record(asked: &Asked) -> Outcome<Point> {
    let opened = asked.opened;
    let (asked, answer, right) = match never_met(&asked.cuboids, &opened.archive.sizes()) {
        None => ("two codes that never met".into(), "all have met: there is nothing to ask".into(), true),
        Some(question) => {
            let found = look_up(opened, &question)?;
            (cell(opened, &question), found.map_or("no record".into(), carried), found.is_none())
        }
    };
    let (title, catches) = ("Codes that never met", "Catches a zero where the truth is ‘no record’.");
    Ok(Point { title, catches, asked, answer, right })
}

fn one_record(asked: &Asked) -> Outcome<Point> {
    let opened = asked.opened;
    let (asked, answer, right) = match lone(&asked.cuboids) {
        None => ("a cell that one record falls in".into(), "each has more records: there is nothing to ask".into(), true),
        Some((lone, own)) => {
            let (found, record) = (look_up(opened, &lone.codes)?, look_up(opened, &own.codes)?);
            let said = |found: Option<Found>| found.map_or("no record".into(), carried);
            let answer = format!("{}; its record, {}: {}", said(found), cell(opened, &own.codes), said(record));
            (cell(opened, &lone.codes), answer, found == record && found.is_some_and(|found| found.count == 1))
        }
    };
    let (title, catches) = ("A cell fed by one record", "Catches a sum that took in a neighbour.");
    Ok(Point { title, catches, asked, answer, right })
}

fn counted(asked: &Asked) -> Point {
    let (counts, (bases, normals)) = (asked.counts, needed(&asked.cuboids));
    Point {
        title: "The entries counted",
        catches: "Catches cells stored although one record already stands for them.",
        asked: "how many entries there are, and how many are needed".into(),
        answer: format!(
            "{} and {} there; {bases} and {normals} needed: one for each base row, and one for each cell that two or more of them share",
            entries(counts.bases, "base"),
            entries(counts.normals, "normal")
        ),
        right: (counts.bases, counts.normals) == (bases, normals),
    }
}

fn look_up(opened: &Opened, question: &[Code]) -> Outcome<Option<Found>> {
    opened.ask(opened.archive.look_up(question))
}

/// A cell as it is asked for: the dimensions that are not ALL.
fn cell(opened: &Opened, codes: &[Code]) -> String {
    let named = codes.iter().enumerate().filter(|(_, code)| code.is_some());
    let words: Vec<String> = named.map(|(place, &code)| format!("{}={}", opened.name(place), opened.label(place, code))).collect();
    if words.is_empty() {
        "all records".into()
    } else {
        words.join(", ")
    }
}

fn carried(found: Found) -> String {
    format!("{} in {}, entry {}", found.sum, records(found.count), found.entry)
}

fn records(count: u32) -> String {
    format!("{count} record{}", if count == 1 { "" } else { "s" })
}
