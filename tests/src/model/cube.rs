//! The cube in exact terms: each definition of document 01, with document 02's cell of the empty table and extremes, as plainly as it is said
//! there.
use crate::calls::Extremes;
use std::collections::BTreeMap;

/// The value that stands for ALL.
pub const ALL: u32 = 65_535;

/// A base row, or a cell with its sum and count, and with its extremes if they are known.
#[derive(Clone, Debug, PartialEq, Eq)]
pub struct Row {
    pub codes: Vec<u32>,
    pub sum: i64,
    pub count: u32,
    pub extremes: Option<Extremes>,
}

impl Row {
    /// With extremes unknown.
    pub fn new(codes: Vec<u32>, sum: i64, count: u32) -> Row {
        Row { codes, sum, count, extremes: None }
    }

    /// A table's row.
    pub fn record(codes: Vec<u32>, reading: i32) -> Row {
        Row { codes, sum: reading as i64, count: 1, extremes: Some(Extremes { least: reading, greatest: reading }) }
    }
}

/// A base entry.
#[derive(Clone, Debug, PartialEq, Eq)]
pub struct Base {
    pub row: Row,
    pub list: Vec<u32>,
}

/// Totals over rows, and how many rows they are over. The extremes "are known just if all its base rows' are. The empty total's are unknown."
#[derive(Clone, Copy, Default)]
pub struct Total {
    pub sum: i64,
    pub count: u32,
    pub rows: u32,
    pub extremes: Option<Extremes>,
}

impl Total {
    pub fn with(self, row: &Row) -> Total {
        let extremes = if self.rows == 0 { row.extremes } else { both(self.extremes, row.extremes) };
        Total { sum: self.sum + row.sum, count: self.count + row.count, rows: self.rows + 1, extremes }
    }

    pub fn over<'a>(rows: impl Iterator<Item = &'a Row>) -> Total {
        rows.fold(Total::default(), Total::with)
    }

    /// The cell of these codes with these totals.
    pub fn at(self, codes: Vec<u32>) -> Row {
        Row { codes, sum: self.sum, count: self.count, extremes: self.extremes }
    }
}

/// The extremes of two parts, known just if both parts' are.
fn both(a: Option<Extremes>, b: Option<Extremes>) -> Option<Extremes> {
    let (a, b) = (a?, b?);
    Some(Extremes { least: a.least.min(b.least), greatest: a.greatest.max(b.greatest) })
}

/// Base rows: a table's rows with equal codes folded into one, rising by codes.
pub fn folded(rows: &[(Vec<u32>, i32)]) -> Vec<Row> {
    fold(rows.iter().map(|(codes, reading)| Row::record(codes.clone(), *reading)))
}

/// Rows with equal codes as one, rising by codes.
pub fn fold(rows: impl IntoIterator<Item = Row>) -> Vec<Row> {
    let mut by_codes: BTreeMap<Vec<u32>, Total> = BTreeMap::new();
    for row in rows {
        let total = by_codes.entry(row.codes.clone()).or_default();
        *total = total.with(&row);
    }
    by_codes.into_iter().map(|(codes, total)| total.at(codes)).collect()
}

/// Whether an archive may have these base rows: at most 1,024, and 1,048,576 readings.
pub fn few_enough(rows: &[Row]) -> bool {
    rows.len() <= 1_024 && rows.iter().map(|row| row.count as u64).sum::<u64>() <= 1_048_576
}

/// The set with all dimensions.
pub fn full(dims: usize) -> u32 {
    (1 << dims) - 1
}

/// The sets of D dimensions in lattice order: fewer dimensions first, then the smaller number.
pub fn lattice(dims: usize) -> Vec<u32> {
    let mut sets: Vec<u32> = (0..=full(dims)).collect();
    sets.sort_by_key(|set| (set.count_ones(), *set));
    sets
}

/// Whether the set of dimensions holds the other.
pub fn holds(set: u32, other: u32) -> bool {
    set & other == other
}

/// Whether the codes are equal on the set.
pub fn agree(a: &[u32], b: &[u32], set: u32) -> bool {
    (0..a.len()).all(|i| set >> i & 1 == 0 || a[i] == b[i])
}

/// Whether no other base row agrees with row i on the set.
pub fn single(rows: &[Row], i: usize, set: u32) -> bool {
    !(0..rows.len()).any(|j| j != i && agree(&rows[i].codes, &rows[j].codes, set))
}

/// Our list for row i: the smallest sets, other than the full set, on which it is single.
pub fn list(dims: usize, rows: &[Row], i: usize) -> Vec<u32> {
    let singles: Vec<u32> = lattice(dims).into_iter().filter(|&set| set != full(dims) && single(rows, i, set)).collect();
    let smallest = |set: &u32| !singles.iter().any(|&other| other != *set && holds(*set, other));
    singles.iter().copied().filter(smallest).collect()
}

/// The cell of the set that the codes fall in: codes on the set, ALL elsewhere.
pub fn cell(codes: &[u32], set: u32) -> Vec<u32> {
    (0..codes.len()).map(|i| if set >> i & 1 == 1 { codes[i] } else { ALL }).collect()
}

/// Whether a cell of the set is the one of an empty table: all ALL, with sum 0 and count 0.
pub fn empty(rows: &[Row], set: u32) -> bool {
    rows.is_empty() && set == 0
}

/// The cells of a set, by codes.
pub fn cells(dims: usize, rows: &[Row], set: u32) -> BTreeMap<Vec<u32>, Total> {
    let mut cells: BTreeMap<Vec<u32>, Total> = BTreeMap::new();
    if empty(rows, set) {
        cells.insert(vec![ALL; dims], Total::default());
    }
    for row in rows {
        let total = cells.entry(cell(&row.codes, set)).or_default();
        *total = total.with(row);
    }
    cells
}

/// Our normal entries: the cells outside the full set in which two or more base rows fall, and that of an empty table.
pub fn normals(dims: usize, rows: &[Row]) -> Vec<Row> {
    let sets = lattice(dims).into_iter().filter(|&set| set != full(dims));
    let cells = sets.flat_map(|set| cells(dims, rows, set)).filter(|(_, total)| total.rows >= 2 || rows.is_empty());
    cells.map(|(codes, total)| total.at(codes)).collect()
}

/// Our base entries.
pub fn bases(dims: usize, rows: &[Row]) -> Vec<Base> {
    (0..rows.len()).map(|i| Base { row: rows[i].clone(), list: list(dims, rows, i) }).collect()
}
