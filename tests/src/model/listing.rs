//! The text of an archive: "First line: D, base count, normal count. Then for each entry its codes (`*` is ALL), sum, count, and on base
//! entries a colon and the list. An empty list ends the line at the colon. One space parts fields."
use super::{Accepted, Base, Row, ALL};

pub fn listing(archive: &Accepted) -> String {
    let first = [archive.dims(), archive.bases.len(), archive.normals.len()].map(|n| n.to_string()).to_vec();
    let entries = archive.bases.iter().map(base).chain(archive.normals.iter().map(cell));
    std::iter::once(first).chain(entries).map(|fields| fields.join(" ") + "\n").collect()
}

/// Codes, sum and count.
fn cell(row: &Row) -> Vec<String> {
    let code = |&code: &u32| if code == ALL { "*".to_string() } else { code.to_string() };
    row.codes.iter().map(code).chain([row.sum.to_string(), row.count.to_string()]).collect()
}

/// The same of a base entry, a colon and the list.
fn base(base: &Base) -> Vec<String> {
    let list = base.list.iter().map(u32::to_string);
    cell(&base.row).into_iter().chain([":".to_string()]).chain(list).collect()
}
