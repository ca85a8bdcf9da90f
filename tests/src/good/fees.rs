//! A fee shared by counts.
use std::cmp::Reverse;

/// Writes the number of counts, then the cents of each, into bytes that just hold them: quotients, then one cent more for the largest
/// remainders, which a partial sort finds.
pub fn write(fee: u32, counts: &[u32], out: &mut [u8]) {
    let total: u64 = counts.iter().map(|&count| count as u64).sum();
    let mut left = fee as u64;
    let mut cents = Vec::with_capacity(counts.len());
    let mut rests = Vec::with_capacity(counts.len());
    for (i, &count) in counts.iter().enumerate() {
        let product = fee as u64 * count as u64;
        left -= product / total;
        cents.push((product / total) as u32);
        rests.push((Reverse((product % total) as u32), i as u32));
    }
    if left > 0 {
        rests.select_nth_unstable(left as usize - 1);
    }
    for (_, i) in &rests[..left as usize] {
        cents[*i as usize] += 1;
    }
    let fields = [counts.len() as u32].into_iter().chain(cents);
    out.chunks_exact_mut(4).zip(fields).for_each(|(place, field)| place.copy_from_slice(&field.to_le_bytes()));
}
