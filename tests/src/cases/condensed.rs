//! Stop 12: lists and normal entries that are not what the base entries require.
use super::{five_archive, Cases};
use crate::model::ALL;
use crate::write::{mend, File};

pub fn add(c: &mut Cases) {
    c.about = 12;
    c.pass("the five-row archive", five_archive(), 5, 5);
    lists(c);
    lists_of_one_entry(c);
    amounts_of_base_entries(c);
    normal_counts(c);
    normal_entries(c);
    normal_fields(c);
    no_rows(c);
    one_row_and_a_zero_total(c);
    after_10_and_11(c);
}

/// A normal entry of the five-row archive.
type Normal = ([u32; 3], i64, u32);

const NORMALS: [Normal; 5] =
    [([ALL, ALL, ALL], 360, 5), ([ALL, 1, ALL], 150, 2), ([ALL, 5, ALL], 150, 2), ([ALL, ALL, 1], 280, 4), ([ALL, 1, 1], 150, 2)];

/// The five-row archive with other lists and normal entries.
fn five(lists: [&[u32]; 5], normals: &[Normal]) -> File {
    let rows = [([0, 1, 1], 50), ([1, 1, 1], 100), ([2, 3, 1], 60), ([4, 5, 1], 70), ([6, 5, 2], 80)];
    let front = rows.iter().zip(lists).fold(File::archive().head(&[7, 6, 3], 5), |f, ((codes, sum), list)| f.base(codes, *sum, 1, list));
    normals.iter().fold(front.word(normals.len() as u32), |f, (codes, sum, count)| f.normal(codes, *sum, *count))
}

const LISTS: [&[u32]; 5] = [&[1], &[1], &[1, 2], &[1, 6], &[1, 4]];

fn lists(c: &mut Cases) {
    c.pass("the same from its parts", five(LISTS, &NORMALS).closed(), 5, 5);
    let changes: [(usize, &[u32], &str); 14] = [
        (0, &[], "no set"),
        (0, &[3], "a set that holds the required one"),
        (0, &[1, 3], "a set beside a smaller one it holds"),
        (0, &[1, 1], "a set twice"),
        (0, &[0], "a set on which the row is not single"),
        (0, &[2], "another set on which the row is not single"),
        (0, &[1, 7], "the full set beside the required one"),
        (0, &[1, 8], "a set number that D has not"),
        (0, &[257], "a set number with a bit above"),
        (3, &[6, 1], "the sets in another order"),
        (3, &[1], "the last set missing"),
        (3, &[6], "the first set missing"),
        (3, &[1, 5, 6], "a set between"),
        (4, &[1, 6], "the list of the entry before"),
    ];
    for (i, list, name) in changes {
        let mut lists = LISTS;
        lists[i] = list;
        c.stop(&format!("{name}: entry {i} lists {list:?}"), five(lists, &NORMALS).closed(), 12);
    }
}

fn lists_of_one_entry(c: &mut Cases) {
    let lone = |dims: usize, list: &[u32]| File::archive().head(&vec![2; dims], 1).base(&vec![1; dims], 7, 1, list).word(0).closed();
    for dims in 1..=8 {
        let full = (1 << dims) - 1;
        c.pass(&format!("a lone row at D {dims} lists the empty set"), lone(dims, &[0]), 1, 0);
        c.stop(&format!("a lone row at D {dims} lists nothing"), lone(dims, &[]), 12);
        c.stop(&format!("a lone row at D {dims} lists the full set"), lone(dims, &[full]), 12);
        c.stop(&format!("a lone row at D {dims} lists 0 twice"), lone(dims, &[0, 0]), 12);
        c.stop(&format!("a lone row at D {dims} lists 0 and 1"), lone(dims, &[0, 1]), 12);
        c.stop(&format!("a lone row at D {dims} lists {}", full + 1), lone(dims, &[full + 1]), 12);
        c.stop(&format!("a lone row at D {dims} lists 2^31"), lone(dims, &[1 << 31]), 12);
        c.stop(&format!("a lone row at D {dims} lists 256"), lone(dims, &[256]), 12);
    }
}

/// A base entry's sum or count that readings could make, but then the normal entries are not right.
fn amounts_of_base_entries(c: &mut Cases) {
    let two = |sum: i64, count: u32| {
        let f = File::archive().head(&[2], 2).base(&[0], 5, 1, &[]).base(&[1], sum, count, &[]);
        f.word(1).normal(&[ALL], 5, 2).closed()
    };
    c.pass("a sum of 0", two(0, 1), 2, 1);
    c.stop("a sum one higher", two(1, 1), 12);
    c.stop("a sum one lower", two(-1, 1), 12);
    c.stop("a count one higher", two(0, 2), 12);
}

fn normal_counts(c: &mut Cases) {
    for (i, &normal) in NORMALS.iter().enumerate() {
        let mut normals = NORMALS.to_vec();
        normals.remove(i);
        c.stop(&format!("normal entry {i} missing"), five(LISTS, &normals).closed(), 12);
        normals.insert(i, normal);
        normals.insert(i, normal);
        c.stop(&format!("normal entry {i} twice"), five(LISTS, &normals).closed(), 12);
    }
    c.stop("no normal entry", five(LISTS, &[]).closed(), 12);
    let more: [(usize, Normal, &str); 7] = [
        (1, ([0, ALL, ALL], 50, 1), "a cell of one row"),
        (5, ([ALL, 5, 1], 70, 1), "a cell of one row at the end"),
        (5, ([0, 1, 1], 50, 1), "a cell of the full set"),
        (4, ([ALL, ALL, 0], 0, 0), "a cell that does not exist"),
        (0, ([ALL, ALL, ALL], 0, 0), "the total of no row before that of all rows"),
        (1, ([ALL, ALL, ALL], 0, 0), "the total of no row behind that of all rows"),
        (5, ([ALL, ALL, ALL], 0, 0), "the total of no row at the end"),
    ];
    for (at, cell, name) in more {
        let mut normals = NORMALS.to_vec();
        normals.insert(at, cell);
        c.stop(&format!("{name} besides"), five(LISTS, &normals).closed(), 12);
    }
}

fn normal_entries(c: &mut Cases) {
    for (i, j) in (0..5).flat_map(|j| (0..j).map(move |i| (i, j))) {
        let mut normals = NORMALS.to_vec();
        normals.swap(i, j);
        c.stop(&format!("normal entries {i} and {j} swapped"), five(LISTS, &normals).closed(), 12);
    }
    let mut b = five_archive();
    b[200..320].rotate_left(24);
    c.stop("the normal entries turned round", b, 12);
}

fn normal_fields(c: &mut Cases) {
    for at in (200..320).step_by(4) {
        for (name, change) in [("one higher", 1), ("one lower", u32::MAX), ("2^16 higher", 1 << 16), ("2^31 higher", 1 << 31)] {
            let mut b = five_archive();
            let word = u32::from_le_bytes(b[at..at + 4].try_into().unwrap()).wrapping_add(change);
            b[at..at + 4].copy_from_slice(&word.to_le_bytes());
            c.stop(&format!("the word at {at} {name}, the check word left"), b.clone(), 11);
            mend(&mut b);
            c.stop(&format!("the word at {at} {name}, the check word mended"), b, 12);
        }
    }
}

/// An archive without rows has one normal entry: all ALL, with sum 0 and count 0.
fn no_rows(c: &mut Cases) {
    for dims in 1..=8 {
        let head = |normals: u32| File::archive().head(&vec![3; dims], 0).word(normals);
        let one = |codes: &[u32], sum: i64, count: u32| head(1).normal(codes, sum, count).closed();
        let all = vec![ALL; dims];
        c.pass(&format!("no row at D {dims}"), one(&all, 0, 0), 0, 1);
        c.stop(&format!("no row at D {dims}, and no normal entry"), head(0).closed(), 12);
        c.stop(&format!("no row at D {dims}, and the total twice"), head(2).normal(&all, 0, 0).normal(&all, 0, 0).closed(), 12);
        for sum in [1, -1, 1 << 31, 1 << 32, i64::MAX, i64::MIN] {
            c.stop(&format!("no row at D {dims}, and the sum {sum}"), one(&all, sum, 0), 12);
        }
        for count in [1, 2, 1 << 16, 1 << 31, u32::MAX] {
            c.stop(&format!("no row at D {dims}, and the count {count}"), one(&all, 0, count), 12);
        }
        for (dim, code) in (0..dims).flat_map(|dim| [0, 1, 2, 65_534, 65_536, u32::MAX].map(|code| (dim, code))) {
            let mut codes = all.clone();
            codes[dim] = code;
            c.stop(&format!("no row at D {dims}, and a cell with code {code}"), one(&codes, 0, 0), 12);
            let two = head(2).normal(&all, 0, 0).normal(&codes, 0, 0).closed();
            c.stop(&format!("no row at D {dims}, and a cell with code {code} besides"), two, 12);
        }
    }
}

/// A row's total is its own; a base entry of count 0 is stop 8 and one of ALL stop 6, also where the rest is that of an empty table.
fn one_row_and_a_zero_total(c: &mut Cases) {
    for dims in 1..=8 {
        let base = |codes: &[u32], count: u32| File::archive().head(&vec![3; dims], 1).base(codes, 0, count, &[0]);
        let (zeros, all) = (vec![0; dims], vec![ALL; dims]);
        c.pass(&format!("a row of sum 0 at D {dims}"), base(&zeros, 1).word(0).closed(), 1, 0);
        c.stop(&format!("a row of sum 0 and the total of no row at D {dims}"), base(&zeros, 1).no_rows(dims).closed(), 12);
        c.stop(&format!("a base entry of count 0 at D {dims}"), base(&zeros, 0).word(0).closed(), 8);
        c.stop(&format!("the same and the total of no row at D {dims}"), base(&zeros, 0).no_rows(dims).closed(), 8);
        c.stop(&format!("a base entry all ALL of count 0 at D {dims}"), base(&all, 0).word(0).closed(), 6);
    }
    let two = File::archive().head(&[3], 2).base(&[0], 5, 1, &[]).base(&[1], -5, 1, &[]).word(1);
    c.pass("two rows that add up to 0", two.clone().normal(&[ALL], 0, 2).closed(), 2, 1);
    c.stop("two rows, and the total of no row for theirs", two.normal(&[ALL], 0, 0).closed(), 12);
}

fn after_10_and_11(c: &mut Cases) {
    let mut wrong = five([&[0], &[1], &[1, 2], &[1, 6], &[1, 4]], &NORMALS).closed();
    c.stop("a wrong list", wrong.clone(), 12);
    c.stop("a wrong list and a byte behind", [&wrong[..], &[0]].concat(), 10);
    c.stop("a wrong list and a byte missing", wrong[..wrong.len() - 1].to_vec(), 2);
    *wrong.last_mut().unwrap() ^= 1;
    c.stop("a wrong list and a wrong check word", wrong, 11);
}
