//! The base rows of two archives merged.
use super::measure::Measure;
use super::rows::Rows;
use crate::calls::Stop;

/// One pass over both, which rise by codes: the lower codes first, rows with equal codes as one. Stops 17 and 18.
pub fn merged<M: Measure>(a: &Rows<M>, b: &Rows<M>) -> Result<Rows<M>, Stop> {
    if (a.dims, a.sizes) != (b.dims, b.sizes) {
        return Err(17);
    }
    if a.readings() + b.readings() > 1_048_576 {
        return Err(18);
    }
    let mut rows = Rows::new(a.dims, a.sizes, a.len() + b.len());
    let (mut i, mut j) = (0, 0);
    while i < a.len() && j < b.len() {
        let (x, y) = (a.codes[i], b.codes[j]);
        let (of_a, of_b) = (x <= y, y <= x);
        let mut total = if of_a { a.totals[i] } else { b.totals[j] };
        if of_a && of_b {
            total.add(&b.totals[j]);
        }
        rows.push(x.min(y), total);
        i += of_a as usize;
        j += of_b as usize;
    }
    for (rest, from) in [(a, i), (b, j)] {
        rows.codes.extend_from_slice(&rest.codes[from..]);
        rows.totals.extend_from_slice(&rest.totals[from..]);
    }
    if rows.len() > 1_024 {
        return Err(18);
    }
    Ok(rows)
}
