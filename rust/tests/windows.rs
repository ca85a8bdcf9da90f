//! Questions through a window against brute force, and with other rows outside the window.
mod cube;

use cube::random::Random;
use cube::Records;
use cube_archive::{Archive, Code, Seen, Stop};

/// What 02 says of a question: 20 unless it has the window's code, else the total of its rows or 'no record'.
fn wanted(records: &Records, dim: usize, code: u16, question: &[Code]) -> Result<Option<Seen>, Stop> {
    if question[dim] != Some(code) {
        return Err(Stop::Window);
    }
    Ok(records.total(question).map(|(sum, count)| Seen { sum, count }))
}

/// The same rows in the window, and others outside.
fn changed(records: &Records, random: &mut Random, dim: usize, code: u16) -> Records {
    let inside = records.rows.iter().filter(|(codes, _)| codes[dim] == code).cloned();
    let outside =
        (0..random.below(20)).map(|_| (records.sizes.iter().map(|&size| random.code(size)).collect::<Vec<_>>(), random.reading()));
    let mut rows: Vec<_> = outside.filter(|(codes, _)| codes[dim] != code).collect();
    rows.extend(inside);
    Records { sizes: records.sizes.clone(), rows }
}

#[test]
fn rows_outside_are_not_told() {
    let (mut told, mut other) = (0, 0);
    for seed in 0..400 {
        println!("seed {seed}");
        let random = &mut Random(seed);
        let records = random.records(1 + seed as usize % 8, 30);
        let dim = random.below(records.dims() as u64) as usize;
        let code = random.code(records.sizes[dim]);
        let elsewhere = changed(&records, random, dim, code);
        let archives: [Archive; 2] = [records.archive(), elsewhere.archive()];
        other += usize::from(archives[0] != archives[1]);
        for _ in 0..16 {
            let mut question = random.question(&records.sizes);
            if random.below(4) > 0 {
                question[dim] = Some(code);
            }
            let answers = archives.each_ref().map(|archive| archive.window(dim as u32 + 1, code, &question));
            assert_eq!(answers[0], wanted(&records, dim, code, &question), "{question:?}");
            assert_eq!(answers[0], answers[1], "{question:?}");
            told += usize::from(matches!(answers[0], Ok(Some(_))));
        }
    }
    assert!(told > 1_000 && other > 200, "{told} cells, {other} pairs of archives that differ");
}
