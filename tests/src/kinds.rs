//! Large tables of several kinds, for tests and times: 1,024 rows, eight dimensions of size 65,535.
use crate::model::families::{Dimension, Families};
use crate::random::Random;
use crate::ROWS;

pub const SIZES: [u32; 8] = [65_535; 8];

/// A kind's name and its rows.
pub type Kind = (&'static str, Vec<(Vec<u32>, i32)>);

pub fn kinds(random: &mut Random) -> Vec<Kind> {
    vec![
        ("sparse codes", codes_below(65_535, random)),
        ("codes below 32", codes_below(32, random)),
        ("codes below 4", codes_below(4, random)),
        ("codes below 3", codes_below(3, random)),
        ("codes below 2", codes_below(2, random)),
        ("clustered", clustered(random)),
        ("far pairs", far(2, random)),
        ("far eights", far(8, random)),
        ("one long dimension", one_long_dimension(random)),
        ("grid 32 by 32", grid(random)),
        ("four codes by seven twos", four_by_twos(random)),
    ]
}

fn codes_below(size: u64, random: &mut Random) -> Vec<(Vec<u32>, i32)> {
    (0..ROWS).map(|_| ((0..8).map(|_| random.below(size) as u32).collect(), random.draw() as i32)).collect()
}

/// Each row is one of 32 centres with two codes changed.
fn clustered(random: &mut Random) -> Vec<(Vec<u32>, i32)> {
    let centres: Vec<_> = codes_below(65_535, random).into_iter().take(32).map(|(codes, _)| codes).collect();
    let mut row = || {
        let mut codes = centres[random.place(32)].clone();
        for _ in 0..2 {
            codes[random.place(8)] = random.below(65_535) as u32;
        }
        (codes, random.draw() as i32)
    };
    (0..ROWS).map(|_| row()).collect()
}

/// Each row has partners, which differ in the first code alone and so stand as far behind each other as there are rows of one code.
fn far(partners: usize, random: &mut Random) -> Vec<(Vec<u32>, i32)> {
    let mut rows = codes_below(65_535, random);
    rows.truncate(ROWS / partners);
    let side = |first: usize| rows.clone().into_iter().map(move |(codes, reading)| ([&[first as u32], &codes[1..]].concat(), reading));
    (0..partners).flat_map(side).collect()
}

/// Each row has a code of its own in the fourth dimension, and codes below 2 in the others.
fn one_long_dimension(random: &mut Random) -> Vec<(Vec<u32>, i32)> {
    let mut rows = codes_below(2, random);
    rows.iter_mut().enumerate().for_each(|(i, row)| row.0[3] = i as u32);
    rows
}

/// Each pair of codes below 32 in the first two dimensions, and one code in the others.
fn grid(random: &mut Random) -> Vec<(Vec<u32>, i32)> {
    let codes = |i: usize| vec![i as u32 / 32, i as u32 % 32, 0, 0, 0, 0, 0, 0];
    (0..ROWS).map(|i| (codes(i), random.draw() as i32)).collect()
}

/// All codes below 4 in the first dimension and below 2 in the others, each row twice.
fn four_by_twos(random: &mut Random) -> Vec<(Vec<u32>, i32)> {
    let codes = |i: usize| (0..8).map(|dim| if dim == 0 { i as u32 % 4 } else { (i >> (dim + 1)) as u32 % 2 }).collect();
    (0..ROWS).map(|i| (codes(i), random.draw() as i32)).collect()
}

/// Families over rows, of so many levels in each dimension: a level has a quarter of the codes of the one below, in their order.
pub fn families(rows: &[(Vec<u32>, i32)], levels: &[usize]) -> Families {
    let dimension = |(dim, &levels): (usize, &usize)| {
        let mut dimension = Dimension::flat(1 + rows.iter().map(|(codes, _)| codes[dim]).max().unwrap_or(0));
        while dimension.levels() < levels {
            let below = dimension.sizes[dimension.levels() - 1];
            dimension.sizes.push(below.div_ceil(4));
            dimension.tables.push((0..below).map(|code| code / 4).collect());
        }
        dimension
    };
    Families(levels.iter().enumerate().map(dimension).collect())
}
