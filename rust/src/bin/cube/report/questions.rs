//! Cells that are worth asking for, and entries that are needed: found by going through the listed cells.
use cube_archive::{Cell, Code, Cuboid};
use std::collections::{HashMap, HashSet};

/// Two codes that records have, but never together; else one code that no record has. None if all codes have met.
pub fn never_met(cuboids: &[Cuboid], sizes: &[u16]) -> Option<Vec<Code>> {
    let dims = sizes.len();
    let mut pairs = (0..dims).flat_map(|i| (i + 1..dims).map(move |j| (i, j)));
    pairs.find_map(|(i, j)| apart(cuboids, dims, i, j)).or_else(|| (0..dims).find_map(|i| unused(cuboids, sizes, i)))
}

/// A code at one place and a code at another that never met.
fn apart(cuboids: &[Cuboid], dims: usize, i: usize, j: usize) -> Option<Vec<Code>> {
    let met: HashSet<&Vec<Code>> = cells(cuboids, 1 << i | 1 << j).iter().map(|cell| &cell.codes).collect();
    let mut questions = codes(cuboids, i).flat_map(|a| codes(cuboids, j).map(move |b| question(dims, &[(i, a), (j, b)])));
    questions.find(|question| !met.contains(question))
}

/// A code at a place that no record has.
fn unused(cuboids: &[Cuboid], sizes: &[u16], i: usize) -> Option<Vec<Code>> {
    let used: HashSet<u16> = codes(cuboids, i).collect();
    (0..sizes[i]).find(|code| !used.contains(code)).map(|code| question(sizes.len(), &[(i, code)]))
}

/// The question with these codes at their places, and ALL elsewhere.
fn question(dims: usize, codes: &[(usize, u16)]) -> Vec<Code> {
    let mut question = vec![None; dims];
    codes.iter().for_each(|&(place, code)| question[place] = Some(code));
    question
}

/// The first cell that one record alone falls in, and that record's own cell.
pub fn lone(cuboids: &[Cuboid]) -> Option<(&Cell, &Cell)> {
    let cell = cuboids.iter().flat_map(|cuboid| &cuboid.cells).find(|cell| cell.count == 1)?;
    let falls = |row: &&Cell| cell.codes.iter().zip(&row.codes).all(|(wanted, code)| wanted.is_none() || wanted == code);
    rows(cuboids).iter().find(falls).map(|row| (cell, row))
}

/// How many base and normal entries are needed: the base rows, and the cells outside the full set that two or more of them share;
/// without base rows, all ALL.
pub fn needed(cuboids: &[Cuboid]) -> (u32, u32) {
    let rows = rows(cuboids);
    let full = cuboids.len() as u32 - 1;
    let shared = (0..full).map(|set| {
        let mut falling = HashMap::<Vec<Code>, u32>::new();
        for row in rows {
            let cell = row.codes.iter().enumerate().map(|(place, &code)| code.filter(|_| set >> place & 1 == 1));
            *falling.entry(cell.collect()).or_default() += 1;
        }
        falling.values().filter(|&&rows| rows > 1).count() as u32
    });
    (rows.len() as u32, if rows.is_empty() { 1 } else { shared.sum() })
}

/// The cells of the full set, which is the last cuboid: the base rows.
fn rows(cuboids: &[Cuboid]) -> &[Cell] {
    &cuboids[cuboids.len() - 1].cells
}

/// The cells of a set.
pub fn cells(cuboids: &[Cuboid], set: u32) -> &[Cell] {
    cuboids.iter().find(|cuboid| cuboid.set == set).map_or(&[], |cuboid| &cuboid.cells)
}

/// The codes that records have at a place.
fn codes(cuboids: &[Cuboid], place: usize) -> impl Iterator<Item = u16> + '_ {
    cells(cuboids, 1 << place).iter().filter_map(move |cell| cell.codes[place])
}
