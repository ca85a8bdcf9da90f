//! A record added to base rows.
use super::codes::Codes;
use super::condense::Condensed;
use super::measure::Measure;
use super::rows::Rows;
use crate::calls::Stop;

/// The codes of a record.
pub fn codes(sizes: &[u32], codes: &[u32]) -> Result<Codes, Stop> {
    if codes.len() != sizes.len() || codes.iter().zip(sizes).any(|(code, size)| code >= size) {
        return Err(13);
    }
    let mut found = [0; 8];
    found.iter_mut().zip(codes).for_each(|(place, &code)| *place = code as u16);
    Ok(found)
}

/// Adds the record. Rows with the same codes as before condense as before.
pub fn record<M: Measure>(rows: &mut Rows<M>, condensed: Condensed, codes: Codes, reading: i32) -> Result<Condensed, Stop> {
    if rows.readings() == 1_048_576 {
        return Err(18);
    }
    match rows.codes.binary_search(&codes) {
        Ok(i) => {
            rows.totals[i].add(&M::record(reading));
            Ok(condensed)
        }
        Err(_) if rows.len() == 1_024 => Err(18),
        Err(i) => {
            rows.codes.insert(i, codes);
            rows.totals.insert(i, M::record(reading));
            Ok(Condensed::of(rows, false))
        }
    }
}
