//! The page of a report.
use super::html::{label, text};
use super::points::{self, Point};
use super::{heading, Asked, Totals};
use crate::commands::entries;
use crate::failure::Outcome;
use crate::opened::Opened;

/// The page.
pub fn page(opened: &Opened) -> Outcome<String> {
    let asked = Asked::of(opened)?;
    let points = points::all(&asked)?;
    let name = opened.input.path.as_ref().and_then(|path| path.file_name()).map_or("archive".into(), |name| name.to_string_lossy());
    let verdict = match points.iter().filter(|point| !point.right).count() {
        0 => "<p class=\"verdict right\">All five points are right.</p>".to_string(),
        wrong => format!("<p class=\"verdict wrong\">{wrong} of the five points are not right.</p>"),
    };
    let points: String = points.iter().zip(1..).map(|(point, number)| card(point, number)).collect();
    let bars: String = (0..).zip(&asked.totals).map(|(place, totals)| bars(opened, place, totals)).collect();
    Ok(format!(
        include_str!("page.html"),
        name = text(&name),
        style = include_str!("style.css"),
        facts = facts(&asked),
        verdict = verdict,
        points = points,
        bars = bars,
        version = env!("CARGO_PKG_VERSION"),
    ))
}

/// What the archive holds, in a few lines.
fn facts(asked: &Asked) -> String {
    let (opened, counts, all) = (asked.opened, asked.counts, asked.all());
    let sizes = (0..).zip(opened.archive.sizes());
    let dimensions: Vec<String> = sizes.map(|(place, size)| format!("{} ({size})", text(&heading(opened, place)))).collect();
    let legend = opened.legend.as_ref().map_or("none: dimensions and codes are numbers".into(), |(path, _)| {
        let name = path.file_name().unwrap_or_default().to_string_lossy();
        text(&name)
    });
    let facts = [
        ("Records", all.count.to_string()),
        ("Sum of all readings", all.sum.to_string()),
        ("Entries", format!("{}, {}", entries(counts.bases, "base"), entries(counts.normals, "normal"))),
        ("Dimensions (sizes)", dimensions.join(", ")),
        ("Bytes", opened.input.bytes.len().to_string()),
        ("Legend", legend),
    ];
    facts.iter().map(|(name, fact)| format!("<div><dt>{name}</dt><dd>{fact}</dd></div>\n")).collect()
}

fn card(point: &Point, number: usize) -> String {
    let (class, words) = if point.right { ("right", "&#10003; right") } else { ("wrong", "&#10007; not right") };
    format!(
        "<li class=\"{class}\">\n<h3><span>{number}. {}</span> <strong>{words}</strong></h3>\n<p class=\"catches\">{}</p>\n\
         <dl>\n<div><dt>Asked</dt><dd>{}</dd></div>\n<div><dt>Came back</dt><dd>{}</dd></div>\n</dl>\n</li>\n",
        point.title,
        point.catches,
        text(&point.asked),
        text(&point.answer)
    )
}

/// The cells of a dimension as bars, and their total against the grand total.
fn bars(opened: &Opened, place: usize, totals: &Totals) -> String {
    let sums = || totals.cells.iter().map(|cell| cell.sum as f64);
    let (low, high) = (sums().fold(0.0, f64::min), sums().fold(0.0, f64::max));
    let percent = |part: f64| if high > low { 100.0 * part / (high - low) } else { 0.0 };
    let row = |cell: &cube_archive::Cell| {
        let sum = cell.sum as f64;
        format!(
            "<tr><th scope=\"row\">{}</th><td class=\"bar\"><span{} style=\"margin-left:{:.2}%;width:{:.2}%\"></span></td><td>{}</td><td>{}</td></tr>\n",
            label(&opened.label(place, cell.codes[place])),
            if cell.sum < 0 { " class=\"below\"" } else { "" },
            percent(sum.min(0.0) - low),
            percent(sum.abs()),
            cell.sum,
            cell.count
        )
    };
    let rows: String = totals.cells.iter().map(row).collect();
    let (class, words) = if totals.equal() { ("right", "&#10003; equal") } else { ("wrong", "&#10007; not equal") };
    format!(
        "<section class=\"totals\">\n<h3>{name}</h3>\n<table>\n<thead><tr><th></th><th></th><th scope=\"col\">sum</th><th scope=\"col\">count</th></tr></thead>\n\
         <tbody>\n{rows}</tbody>\n<tfoot>\n<tr><th scope=\"row\" colspan=\"2\">added up</th><td>{}</td><td>{}</td></tr>\n\
         <tr class=\"{class}\"><th scope=\"row\" colspan=\"2\">all records <strong>{words}</strong></th><td>{}</td><td>{}</td></tr>\n</tfoot>\n</table>\n</section>\n",
        totals.sum(),
        totals.count(),
        totals.all.sum,
        totals.all.count,
        name = text(&heading(opened, place)),
    )
}

#[cfg(test)]
mod tests {
    use super::*;
    use cube_archive::{Cell, Found};

    /// No accepted archive has such a point; the page would show it.
    #[test]
    fn a_point_that_is_not_right() {
        let point = Point { title: "T", catches: "C", asked: "1 < 2".into(), answer: "3 & 4".into(), right: false };
        let card = card(&point, 2);
        assert!(card.starts_with("<li class=\"wrong\">\n<h3><span>2. T</span> <strong>&#10007; not right</strong></h3>"), "{card}");
        assert!(card.contains("<dd>1 &lt; 2</dd>") && card.contains("<dd>3 &amp; 4</dd>"), "{card}");
    }

    /// A record lost, and a record counted twice.
    #[test]
    fn totals_that_are_not_equal() {
        let cells = vec![Cell { codes: vec![Some(0)], sum: 5, count: 2 }, Cell { codes: vec![Some(1)], sum: -7, count: 1 }];
        let equal = |sum, count| Totals { cells: cells.clone(), all: Found { sum, count, entry: 0 } }.equal();
        assert_eq!([equal(-2, 3), equal(-1, 3), equal(-2, 4)], [true, false, false]);
    }
}
