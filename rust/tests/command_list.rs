//! `cube list` prints the text of the proved program lister, byte for byte, and is refused at the same stops.
mod command;
mod cube;

use command::{folder, programs, Folder};
use cube::random::Random;
use cube::Records;
use std::process::Command;

fn lister(folder: &Folder, archive: &[u8]) -> String {
    String::from_utf8(folder.started(&mut Command::new(programs().join("lister")), archive).stdout).unwrap()
}

/// The text, or the line `refused N`.
fn list(folder: &Folder, archive: &[u8]) -> String {
    let (status, out, error) = folder.write("x.cube", archive).run("list x.cube");
    if status == Some(0) {
        assert_eq!(error, "");
        return out;
    }
    assert_eq!((status, &out[..]), (Some(1), ""));
    let refused = error.strip_prefix("cube: x.cube: ").unwrap_or_else(|| panic!("{error}"));
    refused.split(':').next().unwrap().to_string() + "\n"
}

fn hold(folder: &Folder, archive: &[u8]) -> String {
    let text = list(folder, archive);
    assert_eq!(text, lister(folder, archive));
    text
}

#[test]
fn the_five_rows() {
    let text = hold(&folder("list_five"), Records::five().archive().as_bytes());
    assert!(text.starts_with("3 5 5\n0 1 1 50 1 : 1\n") && text.ends_with("\n* 1 1 150 2\n"), "{text}");
}

#[test]
fn random_tables() {
    let folder = folder("list_random");
    for seed in 0..100 {
        println!("seed {seed}");
        hold(&folder, Random(seed).records(1 + seed as usize % 8, 40).archive().as_bytes());
    }
}

#[test]
fn damaged_files() {
    let folder = folder("list_damaged");
    let five = Records::five().archive().into_bytes();
    for length in (0..five.len()).step_by(7) {
        assert!(hold(&folder, &five[..length]).starts_with("refused "), "{length} bytes");
    }
    let random = &mut Random(7);
    for _ in 0..200 {
        let mut damaged = five.clone();
        let place = random.below(five.len() as u64) as usize;
        damaged[place] ^= 1 << random.below(8);
        if random.below(2) == 0 {
            mend(&mut damaged);
        }
        hold(&folder, &damaged);
    }
    hold(&folder, &[&five[..], &[0]].concat());
    hold(&folder, &Records::five().table());
}

/// Makes the check word right.
fn mend(archive: &mut [u8]) {
    let end = archive.len() - 4;
    let words = archive[..end].chunks_exact(4).map(|word| u32::from_le_bytes(word.try_into().unwrap()));
    let sum = words.fold(0, u32::wrapping_add);
    archive[end..].copy_from_slice(&sum.to_le_bytes());
}

/// The program reads at most 65,536 bytes; the command has no such limit.
#[test]
fn an_archive_longer_than_65536_bytes() {
    let rows = (0..1_024).map(|i| ((0..5).map(|d| i >> (2 * d) & 3).collect(), i.into()));
    let archive = Records { sizes: vec![4; 5], rows: rows.collect() }.archive();
    assert!(archive.as_bytes().len() > 65_536);
    let folder = folder("list_long");
    assert_eq!(lister(&folder, archive.as_bytes()), "too long\n");
    let text = list(&folder, archive.as_bytes());
    assert_eq!((text.lines().count(), text.lines().next()), (1 + 1_024 + 2_101, Some("5 1024 2101")));
}
