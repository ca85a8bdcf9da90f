//! Tables and archives with families of several levels: numbers 21 and 22, and what comes before and behind them.
use super::Cases;
use crate::calls::Extremes;
use crate::model::families::{Dimension, Families};
use crate::model::{Row, ALL};
use crate::write::{family_archive_bytes, family_table_bytes, File};

/// What the two files have of their own: the opening, and how a right file without rows goes on behind its levels.
struct Kind {
    open: fn() -> File,
    empty: fn(File, &Families) -> File,
    /// The answer on a file without rows, for D.
    answer: fn(u32) -> (u32, u32),
}

const TABLE: Kind = Kind { open: File::family_table, empty: |f, _| f.word(0), answer: |dims| (dims, 0) };

const ARCHIVE: Kind = Kind {
    open: File::family_archive,
    empty: |f, families| f.words(&[0, 1, families.nodes() - 1]).normal(&vec![ALL; families.0.len()], 0, 0).extremes(None),
    answer: |_| (0, 1),
};

impl Kind {
    fn right(&self, families: &Families) -> Vec<u8> {
        (self.empty)((self.open)().families(families), families).closed()
    }

    fn pass(&self, c: &mut Cases, name: &str, families: &Families) {
        c.add(name, self.right(families), Ok((self.answer)(families.0.len() as u32)));
    }
}

pub fn add_tables(c: &mut Cases) {
    add(c, &TABLE);
    tables(c);
}

pub fn add_archives(c: &mut Cases) {
    add(c, &ARCHIVE);
    lists(c);
    condensed(c);
}

fn add(c: &mut Cases, kind: &Kind) {
    openings(c, kind);
    level_counts(c, kind);
    level_sizes(c, kind);
    level_tables(c, kind);
    nodes(c, kind);
    behind_the_levels(c, kind);
}

fn dimension(sizes: &[u32], tables: &[&[u32]]) -> Dimension {
    Dimension { sizes: sizes.to_vec(), tables: tables.iter().map(|table| table.to_vec()).collect() }
}

/// Two dimensions: three codes in two families, and two codes.
fn small() -> Families {
    Families(vec![dimension(&[3, 2], &[&[0, 1, 1]]), Dimension::flat(2)])
}

/// So many dimensions of as many levels each, of size 1.
fn tall(counts: &[usize]) -> Families {
    Families(counts.iter().map(|&levels| Dimension { sizes: vec![1; levels], tables: vec![vec![0]; levels - 1] }).collect())
}

fn openings(c: &mut Cases, kind: &Kind) {
    c.about = 1;
    let right = kind.right(&small());
    for other in [b"FACT", b"CUBE", b"CUB2", b"FAMC", b"CUBf", b"\0\0\0\0"] {
        c.stop(&format!("the opening {}", other.escape_ascii()), [other, &right[4..]].concat(), 1);
    }
    kind.pass(c, "the right opening", &small());
    c.about = 2;
    for end in 4..right.len() {
        c.stop(&format!("cut to {end} bytes"), right[..end].to_vec(), 2);
    }
    kind.pass(c, "nothing cut", &small());
}

/// All level counts come before the first table, each with its own 2 and 21.
fn level_counts(c: &mut Cases, kind: &Kind) {
    c.about = 21;
    let sized = || (kind.open)().words(&[2, 3, 2]);
    for count in [0, 5, 6, 8, 256, 257, 65_537, 1 << 31, u32::MAX] {
        c.stop(&format!("a level count of {count}, and nothing behind"), sized().word(count).cut(), 21);
        c.stop(&format!("a second level count of {count}, and nothing behind"), sized().words(&[2, count]).cut(), 21);
        c.stop(&format!("a level count of {count} before one of 9"), sized().words(&[count, 9]).cut(), 21);
    }
    for n in 1..4 {
        c.stop(&format!("{n} bytes of a level count of 5"), sized().raw(&5u32.to_le_bytes()[..n]).cut(), 2);
    }
    c.stop("one level count of two", sized().word(1).cut(), 2);
    c.stop("a size of 0 before a level count of 0", (kind.open)().words(&[2, 3, 0, 0]).cut(), 4);
    c.stop("D 9 before anything", (kind.open)().words(&[9, 0, 0]).cut(), 3);
    for levels in 1..=4 {
        kind.pass(c, &format!("{levels} levels"), &tall(&[levels]));
        kind.pass(c, &format!("{levels} levels behind one"), &tall(&[1, levels]));
    }
}

fn level_sizes(c: &mut Cases, kind: &Kind) {
    c.about = 21;
    let counted = || (kind.open)().words(&[2, 3, 2, 2, 2]);
    for size in [0, 65_536, 65_537, 1 << 31, u32::MAX] {
        c.stop(&format!("a level's size of {size}, and nothing behind"), counted().word(size).cut(), 21);
        let second = counted().word(2).words(&[0, 1, 1]).word(size).cut();
        c.stop(&format!("a second dimension's level's size of {size}, and nothing behind"), second, 21);
    }
    c.stop("no size of a next level", counted().cut(), 2);
    c.stop("three bytes of a size of 0", counted().raw(&[0; 3]).cut(), 2);
    for size in [1, 2, 3, 4, 255, 65_534, 65_535] {
        kind.pass(
            c,
            &format!("a next level of size {size} over three codes"),
            &Families(vec![dimension(&[3, size], &[&[0, size - 1, 0]])]),
        );
    }
    let wide = Families(vec![Dimension { sizes: vec![65_535, 1, 65_535], tables: vec![vec![0; 65_535], vec![65_534]] }]);
    kind.pass(c, "65,535 codes in one family, and a larger level above", &wide);
}

/// A table has an entry for each code of the level below, each below the new level's size.
fn level_tables(c: &mut Cases, kind: &Kind) {
    c.about = 21;
    let sized = || (kind.open)().words(&[1, 3, 3, 2]);
    for entry in [2, 3, 65_535, 65_536, 1 << 31, u32::MAX] {
        for place in 0..3 {
            let mut table = [0, 1, 0];
            table[place] = entry;
            c.stop(&format!("entry {place} is {entry}, and nothing behind the table"), sized().words(&table).cut(), 21);
            c.stop(&format!("entry {place} is {entry}, and nothing behind it"), sized().words(&table[..=place]).cut(), 21);
        }
        let above = sized().words(&[0, 1, 0]).word(1);
        c.stop(&format!("entry 1 of the next table is {entry}"), above.words(&[0, entry]).cut(), 21);
    }
    for n in 1..4 {
        c.stop(&format!("{n} bytes of an entry of 2"), sized().words(&[0, 1]).raw(&2u32.to_le_bytes()[..n]).cut(), 2);
    }
    c.stop("two entries of three", sized().words(&[0, 1]).cut(), 2);
    c.stop("three entries, and no next level's size", sized().words(&[0, 1, 0]).cut(), 2);
    c.stop("two entries of three: the next size is the third, and the next entry a size of 0", sized().words(&[0, 1, 1, 0, 0]).cut(), 21);
    kind.pass(c, "a table that is not onto", &Families(vec![dimension(&[3, 9], &[&[4, 4, 4]])]));
}

/// 22 waits for the last table, and every 21 comes before it.
fn nodes(c: &mut Cases, kind: &Kind) {
    c.about = 22;
    for counts in [&[4; 6][..], &[3; 7], &[2; 8], &[4; 8], &[4, 3, 3, 2, 2, 2, 1]] {
        let families = tall(counts);
        let what = format!("{} nodes", families.nodes());
        c.stop(&what, kind.right(&families), 22);
        let levels = (kind.open)().families(&families).cut();
        let end = levels.len() - 4;
        c.stop(&format!("{what}, and nothing behind the last table"), levels.clone(), 22);
        c.stop(&format!("{what}, and the last entry cut"), levels[..end + 3].to_vec(), 2);
        c.stop(&format!("{what}, and the last entry too high"), [&levels[..end], &[1, 0, 0, 0]].concat(), 21);
        c.stop(&format!("{what}, before a count of 1,025"), [&levels[..], &1_025u32.to_le_bytes()].concat(), 22);
    }
    for counts in [&[3; 6][..], &[4; 5], &[1; 8], &[3, 3, 3, 3, 1, 1, 1, 1]] {
        let families = tall(counts);
        kind.pass(c, &format!("{} nodes", families.nodes()), &families);
    }
}

fn behind_the_levels(c: &mut Cases, kind: &Kind) {
    c.about = 5;
    let levels = || (kind.open)().families(&small());
    c.stop("a count of 1,025, and nothing behind", levels().word(1_025).cut(), 5);
    c.stop("a count of 1,024, and nothing behind", levels().word(1_024).cut(), 2);
    kind.pass(c, "a count of 0", &small());
    c.about = 6;
    c.stop("a code of the first level's size", levels().words(&[1, 3]).cut(), 6);
    c.stop("a code of the second level's size, but below the first's", levels().words(&[1, 2]).cut(), 2);
    c.stop("a second code too high", levels().words(&[1, 2, 2]).cut(), 6);
    kind.pass(c, "no code", &small());
    c.about = 10;
    c.stop("a byte behind the check word", [&kind.right(&small())[..], &[0]].concat(), 10);
    kind.pass(c, "no byte behind", &small());
    c.about = 11;
    let right = kind.right(&small());
    for bit in [0, 7, 31] {
        let mut wrong = right.clone();
        let last = wrong.len() - 4 + bit / 8;
        wrong[last] ^= 1 << (bit % 8);
        c.stop(&format!("bit {bit} of the check word turned"), wrong, 11);
    }
    let mut wrong = right;
    wrong[8 + 16 + 4] = 1;
    c.stop("an entry of a table changed", wrong, 11);
    kind.pass(c, "the right check word", &small());
}

fn tables(c: &mut Cases) {
    c.about = 21;
    let rows = [(vec![2, 1], 7), (vec![0, 0], 5), (vec![2, 1], -7)];
    c.pass("rows in any order, repeated", family_table_bytes(&small(), &rows), 2, 2);
}

/// A base entry of reading 5.
fn base(f: File, codes: &[u32], list: &[u32]) -> File {
    f.words(codes).sum(5).word(1).extremes(Some(Extremes { least: 5, greatest: 5 })).word(list.len() as u32).words(list)
}

/// Lists of up to 4,096 nodes.
fn lists(c: &mut Cases) {
    c.about = 9;
    let front = || File::family_archive().families(&small()).word(1);
    let listed = |n: u32| base(front(), &[0, 0], &vec![5; n as usize]).word(0).closed();
    let fitting = || front().words(&[0, 0]).sum(5).word(1).words(&[1, 5, 5]);
    for n in [4_097, 4_098, 65_536, 1 << 31, u32::MAX] {
        c.stop(&format!("list count {n}, and nothing behind"), fitting().word(n).cut(), 9);
    }
    c.stop("4,097 nodes", listed(4_097), 9);
    c.stop("4,096 nodes, which are not required", listed(4_096), 12);
    c.stop("71 nodes, which are not required", listed(71), 12);
    let cut = listed(4_096);
    c.stop("list count 4,096, and a node missing", cut[..cut.len() - 12].to_vec(), 2);
    c.pass("the one node that is required", listed(1), 1, 0);
    c.about = 19;
    let faulty = front().words(&[0, 0]).sum(5).word(1).words(&[1, 5, 6]);
    c.stop("extremes that do not fit, and no list count", faulty.clone().cut(), 19);
    c.stop("extremes that do not fit, and a list count of 4,097", faulty.word(4_097).cut(), 19);
    c.stop("extremes cut", front().words(&[0, 0]).sum(5).word(1).words(&[7, 5]).cut(), 2);
    c.pass("extremes that fit", listed(1), 1, 0);
    c.about = 7;
    let two = base(base(File::family_archive().families(&small()).word(2), &[1, 0], &[]), &[1, 0], &[]);
    c.stop("equal codes", two.cut(), 7);
    c.pass("codes that rise", small().archive_of(&rows()), 3, 4);
    c.about = 8;
    c.stop("count 0", front().words(&[0, 0]).sum(0).word(0).cut(), 8);
    c.pass("counts of 1", small().archive_of(&rows()), 3, 4);
}

/// Two chips of one family on a port, and one of another family on another.
fn rows() -> Vec<Row> {
    vec![Row::record(vec![0, 1], -9), Row::record(vec![1, 0], 5), Row::record(vec![2, 0], 7)]
}

/// Entries that are not as the base entries require, with right check words.
fn condensed(c: &mut Cases) {
    c.about = 12;
    let (families, rows) = (small(), rows());
    let (bases, normals) = (families.bases(&rows), families.normals(&rows));
    c.pass("the archive of three rows", family_archive_bytes(&families, &bases, &normals), 3, 4);
    let lists: Vec<&[u32]> = bases.iter().map(|base| &base.list[..]).collect();
    assert_eq!(lists, [&[4, 2][..], &[3], &[3]]);
    let nodes: Vec<u32> = normals.iter().map(|normal| normal.0).collect();
    assert_eq!(nodes, [5, 4, 2, 1]);
    for list in [&[2, 4][..], &[4], &[2], &[4, 2, 0], &[4, 2, 2], &[4, 3, 2], &[5, 4, 2], &[], &[6], &[4_096, 4, 2], &[3]] {
        let mut bases = bases.clone();
        bases[0].list = list.to_vec();
        c.stop(&format!("a list of {list:?}"), family_archive_bytes(&families, &bases, &normals), 12);
    }
    for (name, order) in
        [("rising", &[3, 2, 1, 0][..]), ("two swapped", &[1, 0, 2, 3]), ("one missing", &[0, 1, 2]), ("one twice", &[0, 0, 1, 2, 3])]
    {
        let normals: Vec<(u32, Row)> = order.iter().map(|&i| normals[i].clone()).collect();
        c.stop(&format!("normal entries, {name}"), family_archive_bytes(&families, &bases, &normals), 12);
    }
    for node in [0, 1, 3, 5, 6, u32::MAX] {
        let mut normals = normals.clone();
        normals[1].0 = node;
        c.stop(&format!("node {node} for 4"), family_archive_bytes(&families, &bases, &normals), 12);
    }
    let own = (0, rows[0].clone());
    c.stop("a row's own cell as a normal entry", family_archive_bytes(&families, &bases, &[&normals[..], &[own]].concat()), 12);
    let all = family_archive_bytes(&families, &[], &[(5, Row::new(vec![ALL; 2], 0, 0))]);
    c.pass("the total of no rows", all, 0, 1);
    c.stop("the total of no rows at node 0", family_archive_bytes(&families, &[], &[(0, Row::new(vec![ALL; 2], 0, 0))]), 12);
    c.stop("no rows, and no total", family_archive_bytes(&families, &[], &[]), 12);
    let known = Row { extremes: Some(Extremes { least: 0, greatest: 0 }), ..Row::new(vec![ALL; 2], 0, 0) };
    c.stop("the total of no rows with known extremes", family_archive_bytes(&families, &[], &[(5, known)]), 12);
}
