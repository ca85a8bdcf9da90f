//! Stops in the entries of an archive of edition one, but for numbers 8 and 12.
use super::{five_archive, five_table, Cases};
use crate::write::{mend, File};

pub fn add(c: &mut Cases) {
    openings_and_cuts(c);
    cuts_in_a_base_entry(c);
    cuts_in_a_normal_entry(c);
    high_normal_counts(c);
    counts_that_are_not_right(c);
    codes(c);
    order_before_the_rest(c);
    list_counts(c);
    list_counts_and_cuts(c);
    ends(c);
    check_words(c);
}

/// The front of an archive with one dimension and so many base entries.
fn one(count: u32) -> File {
    File::archive().head(&[9], count)
}

/// The same with two dimensions.
fn two(count: u32) -> File {
    File::archive().head(&[1_000, 1_000], count)
}

fn openings_and_cuts(c: &mut Cases) {
    c.about = 1;
    c.stop("the five-row table", five_table(), 1);
    c.pass("the five-row archive", five_archive(), 5, 5);
    c.about = 2;
    let five = five_archive();
    for end in 4..five.len() {
        c.stop(&format!("the five-row archive cut to {end} bytes"), five[..end].to_vec(), 2);
    }
}

fn cuts_in_a_base_entry(c: &mut Cases) {
    c.about = 2;
    for n in 0..8 {
        c.stop(&format!("{n} bytes of a sum that is too large"), one(1).word(3).raw(&[127; 8][..n]).cut(), 2);
    }
    let counted = || one(1).word(3).sum(0).word(1);
    let second = || one(2).base(&[3], 0, 1, &[]);
    for n in 0..4 {
        c.stop(&format!("a sum that is too large, and {n} bytes of the count"), one(1).word(3).sum(i64::MAX).raw(&[0; 4][..n]).cut(), 2);
        c.stop(&format!("{n} bytes of a count that is too large"), one(1).word(3).sum(0).raw(&[255; 4][..n]).cut(), 2);
        c.stop(&format!("{n} bytes of a list count of 71"), counted().raw(&71u32.to_le_bytes()[..n]).cut(), 2);
        c.stop(&format!("{n} bytes of a set number"), counted().word(1).raw(&[0; 4][..n]).cut(), 2);
        let last = counted().word(70).words(&[0; 69]).raw(&[0; 4][..n]).cut();
        c.stop(&format!("{n} bytes of the last of 70 set numbers"), last, 2);
        c.stop(&format!("{n} bytes of a second entry's code that is too large"), second().raw(&[255; 4][..n]).cut(), 2);
        c.stop(&format!("{n} bytes of a second entry's code that is too small"), second().raw(&[2, 0, 0, 0][..n]).cut(), 2);
    }
}

fn cuts_in_a_normal_entry(c: &mut Cases) {
    c.about = 2;
    for n in 0..8 {
        c.stop(&format!("{n} bytes of a normal sum"), one(0).word(1).word(0).raw(&[0; 8][..n]).cut(), 2);
    }
    for n in 0..4 {
        c.stop(&format!("{n} bytes of the normal count"), one(0).raw(&[255; 4][..n]).cut(), 2);
        c.stop(&format!("{n} bytes of a normal code"), one(0).word(1).raw(&[255; 4][..n]).cut(), 2);
        c.stop(&format!("{n} bytes of a normal count field"), one(0).word(1).word(0).sum(0).raw(&[0; 4][..n]).cut(), 2);
    }
}

/// Count times the entry's size is 0 in 32 bits, or just the rest of the file.
fn high_normal_counts(c: &mut Cases) {
    c.about = 2;
    c.stop("a normal count of 4,294,967,295 and nothing behind", one(0).word(u32::MAX).cut(), 2);
    c.stop("the same with a check word", one(0).word(u32::MAX).closed(), 2);
    c.stop("the same with a normal entry", one(0).word(u32::MAX).normal(&[0], 0, 2).closed(), 2);
    let five = |count: u32| File::archive().head(&[2; 5], 0).word(count);
    c.stop("a normal count of 2^28 at D 1 (16 bytes each)", one(0).word(1 << 28).closed(), 2);
    c.stop("a normal count of 2^28 + 1 at D 1, with one entry", one(0).word((1 << 28) + 1).normal(&[0], 0, 2).closed(), 2);
    c.stop("a normal count of 2^27 at D 5 (32 bytes each)", five(1 << 27).closed(), 2);
    c.stop("a normal count of 2^27 + 1 at D 5, with one entry", five((1 << 27) + 1).normal(&[0; 5], 0, 2).closed(), 2);
    for d in 1..=8u32 {
        let width = 4 * d as u64 + 12;
        let sizes = vec![2; d as usize];
        for n in [(1u64 << 32) / width, (1u64 << 32).div_ceil(width), 1 << 31, (1 << 31) - 1, 1 << 30] {
            let file = File::archive().head(&sizes, 0).word(n as u32).normal(&sizes, 0, 2).closed();
            c.stop(&format!("a normal count of {n} at D {d}"), file, 2);
        }
    }
}

fn counts_that_are_not_right(c: &mut Cases) {
    c.about = 2;
    c.stop("a normal count one too high", one(0).word(2).normal(&[0], 0, 2).closed(), 2);
    c.stop("a normal count as high as the entries behind it", one(0).word(1).normal(&[0], 0, 2).closed(), 12);
    c.stop("a base count one too high, and nothing behind the entries", one(2).base(&[3], 0, 1, &[]).cut(), 2);
    c.stop("the same: the normal count 0 is a code that does not rise", one(2).base(&[3], 0, 1, &[]).word(0).closed(), 7);
    c.stop("the same: the normal count 8 is a code that rises", one(2).base(&[3], 0, 1, &[]).word(8).closed(), 2);
}

fn codes(c: &mut Cases) {
    c.about = 6;
    let code = |size: u32, code: u32| File::archive().head(&[size], 1).base(&[code], 0, 1, &[0]).word(0).closed();
    c.pass("code 65,534 at size 65,535", code(65_535, 65_534), 1, 0);
    c.stop("code 65,535 at size 65,535", code(65_535, 65_535), 6);
    c.stop("code 65,534 at size 65,534", code(65_534, 65_534), 6);
    c.pass("code 0 at size 1", code(1, 0), 1, 0);
    c.stop("code 1 at size 1", code(1, 1), 6);
    c.stop("6 before 7: out of order, and a later code too large", two(2).base(&[5, 5], 0, 1, &[]).words(&[4, 1_000]).cut(), 6);
    c.stop("out of order, and the later code right", two(2).base(&[5, 5], 0, 1, &[]).words(&[4, 999]).cut(), 7);
    c.stop("6 before 8: a count of 0 behind it", one(1).base(&[9], 0, 0, &[]).cut(), 6);
    c.stop("a code too large in the last entry", two(2).base(&[5, 5], 0, 1, &[]).base(&[6, 1_000], 0, 1, &[]).word(0).closed(), 6);
    c.stop("a normal code is no code of a base entry", one(0).word(1).normal(&[65_536], 0, 2).closed(), 12);
}

fn order_before_the_rest(c: &mut Cases) {
    c.about = 7;
    c.stop("equal codes, and the sum cut off", one(2).base(&[3], 0, 1, &[]).word(3).cut(), 7);
    c.stop("the sum cut off, and the codes rise", one(2).base(&[3], 0, 1, &[]).word(4).cut(), 2);
    for n in 1..8 {
        c.stop(&format!("falling codes, and {n} bytes of the sum"), one(2).base(&[3], 0, 1, &[]).word(2).raw(&[0; 8][..n]).cut(), 7);
    }
    c.stop("7 before 8: a count of 0 behind equal codes", one(2).base(&[3], 0, 1, &[]).base(&[3], 0, 0, &[]).cut(), 7);
    let three = one(3).base(&[1], 0, 1, &[]).base(&[5], 0, 1, &[]).base(&[3], 0, 1, &[]).word(0).closed();
    c.stop("the third is behind the first, not behind the second", three, 7);
    c.stop("the same codes behind a list", one(2).base(&[1], 0, 1, &[0, 8]).base(&[1], 0, 1, &[]).word(0).closed(), 7);
    c.stop("higher codes behind a list that is not required", one(2).base(&[1], 0, 1, &[0, 8]).base(&[2], 0, 1, &[]).word(0).closed(), 12);
}

fn list_counts(c: &mut Cases) {
    c.about = 9;
    let listed = |dims: usize, n: u32| {
        let f = File::archive().head(&vec![9; dims], 1).words(&vec![3; dims]).sum(0).word(1).word(n);
        (0..n).fold(f, |f, i| f.word(i)).word(0).closed()
    };
    for dims in [1, 2, 8] {
        c.stop(&format!("71 sets at D {dims}"), listed(dims, 71), 9);
        c.stop(&format!("70 sets at D {dims}, which are not required"), listed(dims, 70), 12);
        c.stop(&format!("69 sets at D {dims}, which are not required"), listed(dims, 69), 12);
        c.stop(&format!("no set at D {dims}, where the empty set is required"), listed(dims, 0), 12);
        c.pass(&format!("the one set that is required at D {dims}"), listed(dims, 1), 1, 0);
    }
    let full = (0..1_024u32).fold(File::archive().head(&[65_535; 8], 1_024), |f, i| f.base(&[i; 8], -1, 1, &[i; 70]));
    c.stop("1,024 lists of 70, which are not required", full.word(0).closed(), 12);
}

fn list_counts_and_cuts(c: &mut Cases) {
    c.about = 9;
    let cut = |n: u32| one(1).word(3).sum(0).word(1).word(n);
    for n in [71, 72, 128, 256, 326, 65_536, 1 << 30, 1 << 31, u32::MAX] {
        c.stop(&format!("list count {n} and nothing behind"), cut(n).cut(), 9);
        c.stop(&format!("list count {n}, a word and the check word"), cut(n).word(0).closed(), 9);
    }
    c.stop("list count 70 and nothing behind", cut(70).cut(), 2);
    c.stop("list count 70 and 69 sets", cut(70).words(&[5; 69]).cut(), 2);
    c.stop("list count 70 and 70 sets", cut(70).words(&[5; 70]).cut(), 2);
    c.stop("list count 1 and nothing behind", cut(1).cut(), 2);
    let second = |n: u32| one(2).base(&[3], 0, 1, &[0; 70]).word(4).sum(0).word(1).word(n).cut();
    c.stop("list count 71 in the second entry", second(71), 9);
    c.stop("list count 70 in the second entry, cut", second(70), 2);
}

fn ends(c: &mut Cases) {
    c.about = 10;
    c.stop("a normal count one too low", one(0).word(1).normal(&[0], 0, 2).normal(&[1], 0, 2).closed(), 10);
    c.stop("a byte behind the five-row archive", [five_archive(), vec![0]].concat(), 10);
    let mut wrong = five_archive();
    wrong[320] ^= 1;
    c.stop("a byte behind the five-row archive with a wrong check word", [wrong, vec![0]].concat(), 10);
}

fn check_words(c: &mut Cases) {
    c.about = 11;
    // A size, or anything in a normal entry: no other stop up to 11 sees it changed.
    for at in (8..20).chain(200..320) {
        let mut b = five_archive();
        b[at] ^= 0x08;
        let high_size = at < 20 && at % 4 >= 2;
        c.stop(&format!("byte {at} of the five-row archive changed"), b, if high_size { 4 } else { 11 });
    }
    let mut b = five_archive();
    b[200 + 12 + 4] = 1;
    c.stop("the high word of a normal sum changed", b.clone(), 11);
    mend(&mut b);
    c.stop("the same, and the check word mended", b, 12);
    c.stop("words far beyond 2 to the power 32", one(0).word(3).words(&[u32::MAX; 12]).closed(), 12);
}
