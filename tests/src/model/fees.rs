//! The bench fee shared (document 02, C-22), in exact integers.

/// Each cell's whole cents, by the cells' counts in listing order. "Each gets the rounded-down proportion; the cents left go one each to the
/// largest remainders, the earlier cell first if equal."
pub fn shares(fee: u32, counts: &[u32]) -> Vec<u32> {
    let total: i128 = counts.iter().map(|&count| count as i128).sum();
    let proportion = |i: usize| fee as i128 * counts[i] as i128;
    let mut cents: Vec<i128> = (0..counts.len()).map(|i| proportion(i) / total).collect();
    let mut without: Vec<(usize, i128)> = (0..counts.len()).map(|i| (i, proportion(i) % total)).collect();
    for _ in cents.iter().sum()..fee as i128 {
        let largest = without.iter().map(|cell| cell.1).max().unwrap();
        let first = without.iter().position(|cell| cell.1 == largest).unwrap();
        cents[without.remove(first).0] += 1;
    }
    cents.into_iter().map(|cents| cents.try_into().unwrap()).collect()
}

/// How far cents are from the exact proportions in all, in parts of a cent of which the counts' total makes one.
pub fn apart(fee: u32, counts: &[u32], cents: &[i128]) -> i128 {
    let total: i128 = counts.iter().map(|&count| count as i128).sum();
    counts.iter().zip(cents).map(|(&count, &cents)| (cents * total - fee as i128 * count as i128).abs()).sum()
}
