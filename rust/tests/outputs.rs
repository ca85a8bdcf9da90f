//! Calls that write into an output of the caller's.
mod cube;

use cube::Records;
use cube_archive::{raw, room, Stop};

type Written = Result<usize, Stop>;

/// Tries outputs of every length up to the room that is always enough: too short, they keep every byte; otherwise the result
/// stands in front and the bytes beyond keep their values.
fn try_lengths(length: usize, enough: usize, call: impl Fn(&mut [u8]) -> Written) {
    let mut result = vec![0; enough];
    assert_eq!(call(&mut result), Ok(length));
    for room in 0..=enough {
        let before: Vec<u8> = (0..room).map(|i| result[i] ^ 0xA5).collect();
        let mut out = before.clone();
        let answer = call(&mut out);
        if room < length {
            assert_eq!((answer, &out), (Err(Stop::Output), &before));
        } else {
            assert_eq!((answer, &out[..length], &out[length..]), (Ok(length), &result[..length], &before[length..]));
        }
    }
}

#[test]
fn the_five_rows() {
    let (table, archive) = (Records::five().table(), Records::five().archive().into_bytes());
    try_lengths(324, room::archive(3, 5), |out| raw::build(&table, out));
    for (set, cells) in [1, 5, 3, 5, 2, 5, 4, 5].into_iter().enumerate() {
        try_lengths(4 + cells * 24, room::cuboid(3, 5), |out| raw::list_cuboid(&archive, set as u32, out));
    }
    try_lengths(8 * 4 + 30 * 24, room::expansion(3, 5), |out| raw::expand(&archive, out));
}

/// By the number of cells, which is just enough, and by the base count.
#[test]
fn a_fee() {
    let archive = Records::five().archive().into_bytes();
    for (set, cells) in [1, 5, 3, 5, 2, 5, 4, 5].into_iter().enumerate() {
        for rows in [cells, 5] {
            try_lengths(room::fee(cells), room::fee(rows), |out| raw::share_fee(&archive, 1_001, set as u32, out));
        }
    }
}

#[test]
fn two_archives_joined() {
    let archive = Records::five().archive().into_bytes();
    try_lengths(324, room::join(3, 5, 5), |out| raw::join(&archive, &archive, out));
    let empty = Records { sizes: vec![1], rows: vec![] }.archive().into_bytes();
    try_lengths(40, room::join(1, 0, 0), |out| raw::join(&empty, &empty, out));
    assert_eq!(room::join(8, 1_000, 24), room::archive(8, 1_024));
    assert_eq!(room::join(8, 1_024, 1_024), room::archive(8, 1_024));
}

#[test]
fn no_rows() {
    let empty = Records { sizes: vec![1], rows: vec![] };
    let (table, archive) = (empty.table(), empty.archive().into_bytes());
    try_lengths(40, room::archive(1, 0), |out| raw::build(&table, out));
    try_lengths(20, room::cuboid(1, 0), |out| raw::list_cuboid(&archive, 0, out));
    try_lengths(4, room::cuboid(1, 0), |out| raw::list_cuboid(&archive, 1, out));
    try_lengths(24, room::expansion(1, 0), |out| raw::expand(&archive, out));
}

/// The bounds are reached: by two rows that share a cell of the one other set, by base rows under the full set, by one row, and under the
/// empty set by no row.
#[test]
fn the_rooms_are_no_longer_than_needed() {
    let two = Records { sizes: vec![2], rows: vec![(vec![0], 1), (vec![1], 1)] };
    assert_eq!(two.archive().as_bytes().len(), room::archive(1, 2));
    for dims in 1..=8 {
        let rows = |n: u16| Records { sizes: vec![9; dims], rows: (0..n).map(|i| (vec![i; dims], 1)).collect() };
        let full = (1 << dims) - 1;
        for (n, set) in [(0, 0), (1, full), (9, full)] {
            let mut out = vec![0; room::cuboid(dims, n.into())];
            assert_eq!(raw::list_cuboid(rows(n).archive().as_bytes(), set, &mut out), Ok(out.len()));
        }
        let mut out = vec![0; room::expansion(dims, 1)];
        assert_eq!(raw::expand(rows(1).archive().as_bytes(), &mut out), Ok(out.len()));
    }
}

/// The bound for an archive, each base row with every set other than the full one, as the C header has it.
#[test]
fn the_largest_rooms() {
    assert_eq!(room::archive(8, 1_024), 52 + 1_024 * (48 + 255 * 22));
    assert_eq!(room::cuboid(8, 1_024), 45_060);
    assert_eq!(room::expansion(8, 1_024), 11_535_360);
}

/// An empty table has a cell too.
#[test]
fn no_rows_need_the_room_of_one() {
    for dims in 1..=8 {
        assert_eq!(room::archive(dims, 0), room::archive(dims, 1));
        assert_eq!(room::cuboid(dims, 0), room::cuboid(dims, 1));
        assert_eq!(room::expansion(dims, 0), room::expansion(dims, 1));
    }
}
