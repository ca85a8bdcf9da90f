//! Stops that tables and archives of both editions and with families have in the same bytes.
use super::Cases;
use crate::model::editions::Edition;
use crate::model::ALL;
use crate::write::{check_word, mend, File};

/// One of these files.
pub struct Kind {
    open: fn() -> File,
    other: fn() -> File,
    /// What comes between the sizes and the row count or base count, for D.
    levels: fn(File, usize) -> File,
    /// The rest of a file without rows, for D.
    empty: fn(File, usize) -> File,
    /// The answer on a file without rows, for D.
    answer: fn(u32) -> (u32, u32),
}

pub const TABLE: Kind = Kind { open: File::table, other: File::archive, levels: |f, _| f, empty: |f, _| f, answer: |dims| (dims, 0) };
pub const ARCHIVE: Kind = Kind { open: File::archive, other: File::table, levels: |f, _| f, empty: File::no_rows, answer: |_| (0, 1) };
pub const EDITION_TWO: Kind = Kind { open: || File::edition(Edition::Two), empty: |f, dims| f.no_rows(dims).extremes(None), ..ARCHIVE };
/// One level everywhere.
pub const FAMILY_TABLE: Kind = Kind { open: File::family_table, other: File::table, levels: |f, dims| f.words(&vec![1; dims]), ..TABLE };
pub const FAMILY_ARCHIVE: Kind = Kind {
    open: File::family_archive,
    other: || File::edition(Edition::Two),
    levels: FAMILY_TABLE.levels,
    empty: |f, dims| f.words(&[1, (1 << dims) - 1]).normal(&vec![ALL; dims], 0, 0).extremes(None),
    ..ARCHIVE
};

impl Kind {
    /// The file up to the row count or base count.
    fn head(&self, sizes: &[u32], count: u32) -> File {
        (self.levels)((self.open)().word(sizes.len() as u32).words(sizes), sizes.len()).word(count)
    }

    /// A right file without rows.
    fn right(&self, sizes: &[u32]) -> Vec<u8> {
        (self.empty)(self.head(sizes, 0), sizes.len()).closed()
    }

    fn accepted(&self, c: &mut Cases, name: &str, bytes: Vec<u8>, dims: u32) {
        c.add(name, bytes, Ok((self.answer)(dims)));
    }
}

pub fn add(c: &mut Cases, kind: &Kind) {
    stop_1(c, kind);
    stop_2(c, kind);
    stop_3(c, kind);
    stop_4(c, kind);
    stop_5(c, kind);
    stop_6(c, kind);
    stop_6_in_a_row(c, kind);
    stop_10(c, kind);
    stop_11(c, kind);
    stop_11_of_other_sums(c, kind);
}

fn stop_1(c: &mut Cases, kind: &Kind) {
    c.about = 1;
    let opening = (kind.open)().cut();
    c.stop("no byte", vec![], 1);
    for n in 1..4 {
        c.stop(&format!("{n} bytes of the right opening"), opening[..n].to_vec(), 1);
    }
    c.stop("three bytes of the right opening, then another", [&opening[..3], &[0]].concat(), 1);
    for (i, bit) in (0..4).flat_map(|i| [(i, 0x01), (i, 0x20), (i, 0x80)]) {
        let mut b = kind.right(&[1]);
        b[i] ^= bit;
        mend(&mut b);
        c.stop(&format!("byte {i} of the opening has another bit {bit:#x}"), b, 1);
    }
    c.stop("the opening of the other file", (kind.empty)((kind.other)().head(&[1], 0), 1).closed(), 1);
    c.stop("a zero byte before the opening", [&[0], &kind.right(&[1])[..]].concat(), 1);
    c.stop("the opening backwards", opening.iter().rev().copied().chain(kind.right(&[1])[4..].iter().copied()).collect(), 1);
    c.stop("just the opening", opening, 2);
    kind.accepted(c, "the right opening", kind.right(&[1]), 1);
}

fn stop_2(c: &mut Cases, kind: &Kind) {
    c.about = 2;
    let open = kind.open;
    let counted = || (kind.levels)(open().words(&[1, 5]), 1);
    for n in 1..4 {
        c.stop(&format!("{n} bytes of a D of 9"), open().raw(&9u32.to_le_bytes()[..n]).cut(), 2);
        c.stop(&format!("{n} bytes of a size of 0"), open().word(2).raw(&[0, 0, 0][..n]).cut(), 2);
        c.stop(&format!("{n} bytes of a second size of 65,536"), open().words(&[2, 5]).raw(&[0, 0, 1][..n]).cut(), 2);
        c.stop(&format!("{n} bytes of a count of 4,294,967,295"), counted().raw(&[255; 3][..n]).cut(), 2);
        let file = kind.right(&[3, 4]);
        c.stop(&format!("{n} bytes of the check word"), file[..file.len() - 4 + n].to_vec(), 2);
        let wrong = (kind.empty)(kind.head(&[3, 4], 0), 2).raw(&[7; 3][..n]).cut();
        c.stop(&format!("{n} bytes of a wrong check word"), wrong, 2);
    }
    c.stop("no D", open().cut(), 2);
    c.stop("no size", open().word(1).cut(), 2);
    c.stop("D 8 and seven sizes", open().word(8).words(&[9; 7]).cut(), 2);
    c.stop("no count", counted().cut(), 2);
    c.stop("no check word", (kind.empty)(kind.head(&[5], 0), 1).cut(), 2);
    kind.accepted(c, "nothing missing", kind.right(&[3, 4]), 2);
}

fn stop_3(c: &mut Cases, kind: &Kind) {
    c.about = 3;
    let open = kind.open;
    for d in [0, 9, 10, 255, 256, 257, 264, 65_537, 1 << 24, 1 << 31, u32::MAX] {
        c.stop(&format!("D {d} and nothing behind"), open().word(d).cut(), 3);
        c.stop(&format!("D {d} and sizes"), (kind.empty)(open().word(d).words(&[2; 9]).word(0), 9).closed(), 3);
    }
    c.stop("D 9 before a size of 0", open().words(&[9, 0]).cut(), 3);
    c.stop("D 9 in a whole file", kind.right(&[2; 9]), 3);
    for d in 1..=8 {
        kind.accepted(c, &format!("D {d}"), kind.right(&vec![2; d as usize]), d);
        c.stop(&format!("D {d} and nothing behind"), open().word(d).cut(), 2);
    }
}

fn stop_4(c: &mut Cases, kind: &Kind) {
    c.about = 4;
    for z in [0, 65_536, 65_537, 131_071, 1 << 24, 1 << 31, u32::MAX] {
        c.stop(&format!("size {z}"), kind.right(&[z]), 4);
        c.stop(&format!("size {z} and nothing behind"), (kind.open)().words(&[3, z]).cut(), 4);
        c.stop(&format!("eighth size {z}"), kind.right(&[1, 2, 3, 4, 5, 6, 7, z]), 4);
        c.stop(&format!("middle size {z}"), kind.right(&[65_535, z, 65_535]), 4);
    }
    c.stop("size 0 before a count of 1,025", (kind.open)().words(&[1, 0, 1_025]).cut(), 4);
    for z in [1, 2, 255, 256, 65_534, 65_535] {
        kind.accepted(c, &format!("size {z}"), kind.right(&[z]), 1);
        kind.accepted(c, &format!("eight sizes {z}"), kind.right(&[z; 8]), 8);
    }
}

fn stop_5(c: &mut Cases, kind: &Kind) {
    c.about = 5;
    for n in [1_025, 1_026, 2_048, 65_536, 66_560, 1 << 24, 1 << 31, u32::MAX] {
        c.stop(&format!("count {n} and nothing behind"), kind.head(&[5], n).cut(), 5);
        c.stop(&format!("count {n} before a code that is too large"), kind.head(&[5], n).word(5).cut(), 5);
    }
    for n in [1, 2, 1_023, 1_024] {
        c.stop(&format!("count {n} and nothing behind"), kind.head(&[5], n).cut(), 2);
    }
    kind.accepted(c, "count 0", kind.right(&[5]), 1);
}

fn stop_6(c: &mut Cases, kind: &Kind) {
    c.about = 6;
    for (size, code) in [(1, 1), (5, 5), (5, 6), (255, 256), (256, 256), (5, 256), (65_534, 65_534), (65_535, 65_535), (5, 65_535)] {
        c.stop(&format!("code {code} at size {size}, and nothing behind"), kind.head(&[size], 1).word(code).cut(), 6);
    }
    for code in [65_536, 65_537, 1 << 24, 1 << 31, u32::MAX] {
        for size in [1, 2, 65_535] {
            c.stop(&format!("code {code} at size {size}"), kind.head(&[size], 1).word(code).cut(), 6);
        }
    }
    for n in 0..4 {
        let cut = kind.head(&[5], 1).raw(&u32::MAX.to_le_bytes()[..n]).cut();
        c.stop(&format!("{n} bytes of a code that is too large"), cut, 2);
    }
}

fn stop_6_in_a_row(c: &mut Cases, kind: &Kind) {
    c.about = 6;
    for i in 0..8usize {
        let mut codes = [1; 8];
        codes[i] = 2;
        let cut = kind.head(&[2; 8], 1).words(&codes[..=i]).cut();
        c.stop(&format!("the code of dimension {} is too large, and nothing behind", i + 1), cut, 6);
        codes[i] = 1;
        let cut = kind.head(&[2; 8], 1).words(&codes[..=i]).cut();
        c.stop(&format!("the codes to dimension {} are right, and nothing behind", i + 1), cut, 2);
    }
    c.stop("a code below the first size, not below its own", kind.head(&[5, 2], 1).words(&[0, 3]).cut(), 6);
    c.stop("a code below its own size, not below the second", kind.head(&[5, 2], 1).words(&[3, 0]).cut(), 2);
    c.stop("a code too large in row 0 of a file that says 1,024", kind.head(&[5], 1_024).word(5).cut(), 6);
}

fn stop_10(c: &mut Cases, kind: &Kind) {
    c.about = 10;
    for n in [1, 2, 3, 4, 5, 8, 100] {
        c.stop(&format!("{n} zero bytes behind"), [kind.right(&[5]), vec![0; n]].concat(), 10);
        let mut wrong = kind.right(&[5]);
        *wrong.last_mut().unwrap() ^= 1;
        c.stop(&format!("{n} bytes behind a wrong check word"), [wrong, vec![1; n]].concat(), 10);
    }
    let mut mended = [kind.right(&[5]), vec![0; 4]].concat();
    mend(&mut mended);
    c.stop("a check word behind the check word", mended, 10);
    kind.accepted(c, "nothing behind", kind.right(&[5]), 1);
}

fn stop_11(c: &mut Cases, kind: &Kind) {
    c.about = 11;
    let file = kind.right(&[5, 6]);
    let end = file.len() - 4;
    for bit in 0..32 {
        let mut b = file.clone();
        b[end + bit / 8] ^= 1 << (bit % 8);
        c.stop(&format!("bit {bit} of the check word is wrong"), b, 11);
    }
    for at in [8, 12] {
        let mut b = file.clone();
        b[at] += 1;
        c.stop(&format!("the size at {at} changed, the check word left"), b, 11);
    }
    kind.accepted(c, "the right check word", file, 2);
    kind.accepted(c, "a check word beyond 2 to the power 32", kind.right(&[65_535; 8]), 8);
}

fn stop_11_of_other_sums(c: &mut Cases, kind: &Kind) {
    c.about = 11;
    let file = kind.right(&[5, 6]);
    let end = file.len() - 4;
    let word = check_word(&file[..end]);
    for (name, wrong) in [
        ("one too high", word.wrapping_add(1)),
        ("one too low", word.wrapping_sub(1)),
        ("0", 0),
        ("negated", word.wrapping_neg()),
        ("without the opening", check_word(&file[4..end])),
        ("with itself", word.wrapping_mul(2)),
        ("of bytes", file[..end].iter().map(|&b| b as u32).sum()),
        ("with its bytes backwards", word.swap_bytes()),
    ] {
        let mut b = file.clone();
        b[end..].copy_from_slice(&wrong.to_le_bytes());
        c.stop(&format!("check word {name}"), b, 11);
    }
}
