//! Base entries in archives of either edition, their extremes unknown: how many there are, and their order.
use super::Cases;
use crate::model::cube::{cell, full, lattice};
use crate::model::editions::Edition;
use crate::model::{Base, Row, ALL};
use crate::write::{archive_bytes, mend};

pub fn add(c: &mut Cases, edition: Edition) {
    base_counts(c, edition);
    order(c, edition);
    order_of_1024(c, edition);
}

/// A base entry of sum 0 and count 1.
fn base(codes: &[u32], list: &[u32]) -> Base {
    Base { row: Row::new(codes.to_vec(), 0, 1), list: list.to_vec() }
}

/// The total of so many of them, the one normal entry if no two share a code.
fn total(dims: usize, count: u32) -> Row {
    Row::new(vec![ALL; dims], 0, count)
}

/// A right archive with one dimension and so many entries, two or more.
fn line(edition: Edition, count: u32) -> Vec<u8> {
    archive_bytes(edition, &[65_535], &(0..count).map(|code| base(&[code], &[])).collect::<Vec<_>>(), &[total(1, count)])
}

fn base_counts(c: &mut Cases, edition: Edition) {
    c.about = 5;
    c.pass("1,024 base entries", line(edition, 1_024), 1_024, 1);
    c.stop("1,025 base entries", line(edition, 1_025), 5);
    c.pass("1,023 base entries", line(edition, 1_023), 1_023, 1);
    let each = [1, 2, 4, 8, 16, 32, 64, 128];
    let wide = |count: u32| {
        let bases: Vec<Base> = (0..count).map(|i| base(&[64_000 + i; 8], &each)).collect();
        archive_bytes(edition, &[65_535; 8], &bases, &[total(8, count)])
    };
    c.pass("1,024 base entries at D 8", wide(1_024), 1_024, 1);
    c.stop("1,025 base entries at D 8", wide(1_025), 5);
}

/// Two entries: on each dimension in which they differ both are single, and on no set of the others.
fn pair(edition: Edition, x: &[u32], y: &[u32]) -> (Vec<u8>, u32) {
    let dims = x.len();
    let apart: u32 = (0..dims).filter(|&i| x[i] != y[i]).map(|i| 1 << i).sum();
    let list: Vec<u32> = (0..dims).map(|i| 1 << i).filter(|set| set & apart != 0 && *set != full(dims)).collect();
    let shared = lattice(dims).into_iter().filter(|set| set & apart == 0 && *set != full(dims));
    let normals: Vec<Row> = shared.map(|set| Row::new(cell(x, set), 0, 2)).collect();
    (archive_bytes(edition, &vec![65_535; dims], &[base(x, &list), base(y, &list)], &normals), normals.len() as u32)
}

fn order(c: &mut Cases, edition: Edition) {
    c.about = 7;
    for (x, y) in [
        (vec![3], vec![3]),
        (vec![3], vec![2]),
        (vec![0], vec![0]),
        (vec![256], vec![255]),
        (vec![256], vec![1]),
        (vec![65_534], vec![0]),
        (vec![32_768], vec![32_767]),
        (vec![3, 3], vec![3, 3]),
        (vec![3, 3], vec![3, 2]),
        (vec![3, 3], vec![2, 4]),
        (vec![3, 0], vec![2, 65_534]),
        (vec![1, 2, 3, 4, 5, 6, 7, 8], vec![1, 2, 3, 4, 5, 6, 7, 8]),
        (vec![1, 2, 3, 4, 5, 6, 7, 8], vec![1, 2, 3, 4, 5, 6, 7, 7]),
        (vec![1, 2, 3, 4, 5, 6, 7, 8], vec![0, 9, 9, 9, 9, 9, 9, 9]),
        (vec![1, 2, 3, 4, 5, 6, 7, 8], vec![1, 2, 3, 3, 9, 9, 9, 9]),
    ] {
        c.stop(&format!("{y:?} behind {x:?}"), pair(edition, &x, &y).0, 7);
        if x != y {
            let (bytes, normals) = pair(edition, &y, &x);
            c.pass(&format!("{x:?} behind {y:?}"), bytes, 2, normals);
        }
    }
    c.pass("a first entry of zeros", archive_bytes(edition, &[9; 2], &[base(&[0, 0], &[0])], &[]), 1, 0);
}

fn order_of_1024(c: &mut Cases, edition: Edition) {
    c.about = 7;
    let mut b = line(edition, 1_024);
    c.pass("1,024 that rise", b.clone(), 1_024, 1);
    let width = if edition == Edition::One { 20 } else { 32 };
    let (before, last) = (16 + 1_022 * width, 16 + 1_023 * width);
    b.copy_within(before..before + 4, last);
    mend(&mut b);
    c.stop("the last two of 1,024 are equal", b, 7);
}
