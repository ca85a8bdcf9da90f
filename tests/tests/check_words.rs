//! Check words of files of every length in words, right and wrong: the sum of all words before it, modulo 2 to the power 32.
use calls::compare::{Compare, BUILD, CHECK};
use calls::random::Random;
use calls::write::{table_bytes, File};

/// A file with wrong check words: a word before it left out of the sum, or taken twice, and a bit turned.
fn wrong(file: &[u8], random: &mut Random) -> Vec<Vec<u8>> {
    let (body, word) = file.split_at(file.len() - 4);
    let le = |w: &[u8]| u32::from_le_bytes(w.try_into().unwrap());
    let right = le(word);
    let sums = body.chunks_exact(4).map(le).filter(|&w| w != 0).flat_map(|w| [right.wrapping_sub(w), right.wrapping_add(w)]);
    sums.chain([right ^ 1 << random.below(32)]).map(|sum| [body, &sum.to_le_bytes()].concat()).collect()
}

/// An archive with no base entry and so many normal entries of the words that are drawn.
fn archive(dims: usize, entries: usize, mut draw: impl FnMut() -> u32) -> Vec<u8> {
    let words: Vec<u32> = (0..entries * (dims + 3)).map(|_| draw()).collect();
    File::archive().head(&vec![5; dims], 0).word(entries as u32).words(&words).closed()
}

/// Tables and archives of few words: each length from 4 to 36 is there.
#[test]
fn every_length() {
    let mut random = Random::seeded(601);
    let mut compare = Compare::new();
    let mut lengths = vec![false; 200];
    for (dims, count) in (1..=8).flat_map(|dims| (0..=16).map(move |count| (dims, count))) {
        let what = format!("{count} rows or entries, D {dims}");
        let sizes = random.sizes(dims);
        let table = table_bytes(&sizes, &random.table_rows(&sizes, count));
        compare.table(&table, &what).unwrap();
        for file in wrong(&table, &mut random) {
            assert_eq!(compare.table(&file, &what), Err(11));
        }
        let archive = archive(dims, count, || random.draw() as u32);
        assert_ne!(compare.archive(&archive, &what).err(), Some(11));
        for file in wrong(&archive, &mut random) {
            assert_eq!(compare.archive(&file, &what).err(), Some(11));
        }
        lengths[table.len() / 4 - 1] = true;
        lengths[archive.len() / 4 - 1] = true;
    }
    assert!(lengths[4..=36].iter().all(|&there| there), "{lengths:?}");
    compare.had(BUILD, &[0, 11]);
    compare.had(CHECK, &[11, 12]);
}

/// Sums that pass 2 to the power 32 many times, at every place: words of any value, and the highest alone. Four lengths beyond 2 MiB, where
/// the sum goes four words a step from the back, leave each remainder.
#[test]
fn large_sums() {
    let mut random = Random::seeded(602);
    let mut compare = Compare::new();
    for (dims, entries) in [(1, 1), (2, 33), (5, 100), (8, 1_000), (8, 77_272), (2, 104_900), (2, 104_901), (2, 104_902), (2, 104_903)] {
        for file in [archive(dims, entries, || random.draw() as u32), archive(dims, entries, || u32::MAX)] {
            let what = format!("{entries} entries, D {dims}");
            assert_eq!(compare.archive(&file, &what).err(), Some(12));
            for file in wrong(&file[file.len() - 8..], &mut random).into_iter().map(|end| [&file[..file.len() - 8], &end].concat()) {
                assert_eq!(compare.archive(&file, &what).err(), Some(11));
            }
        }
    }
    compare.had(CHECK, &[11, 12]);
}
