//! The builder and the lister between their pipes: inputs of about the longest length, in pieces, from a file; slow readers; a small stack.
use calls::calls::Stop;
use calls::cases::{five_archive, five_table};
use calls::model::editions::Edition;
use calls::model::programs::{edition, lister, refused, TOO_LONG};
use calls::model::{build_edition, our_archive, Row};
use calls::printed::{check, same};
use calls::program::Program::{self, Builder, Lister};
use calls::write::table_bytes;
use std::fs::{self, File};
use std::io::Seek;
use std::iter::repeat;
use std::sync::LazyLock;
use std::time::Duration;

fn ms(n: u64) -> Duration {
    Duration::from_millis(n)
}

/// How many rows at D 7, no two of which share a code, make an archive of 65,536 bytes, and the bytes of a normal entry in it.
fn rows_of_65536_bytes() -> (u32, u32) {
    match edition() {
        Edition::One => (909, 40),
        Edition::Two => (779, 52),
    }
}

/// The archive that the builder makes of a table.
fn build(table: &[u8]) -> Result<Vec<u8>, Stop> {
    build_edition(edition(), table)
}

/// Their table, but that the first rows, if any, share their first code: each of those lists a set less (4 bytes), and the archive has a
/// normal entry more.
fn long_table(sharing: u32) -> Vec<u8> {
    let first = |i: u32| if i < sharing { 0 } else { i };
    let rows: Vec<_> = (0..rows_of_65536_bytes().0).map(|i| ([&[first(i)], &[i; 6][..]].concat(), -1_000_000 * i as i32)).collect();
    table_bytes(&[65_535; 7], &rows)
}

#[test]
fn archives_of_about_65536_bytes() {
    let (_, normal) = rows_of_65536_bytes();
    for sharing in [normal / 4 + 1, normal / 4, normal / 4 - 1, 2] {
        let length = (65_536 + normal - 4 * sharing) as usize;
        let table = long_table(sharing);
        let archive = build(&table).unwrap();
        assert_eq!(archive.len(), length);
        let what = format!("an archive of {length} bytes");
        let fits = length <= 65_536;
        same(Builder, &Builder.prints(&table), &if fits { archive.clone() } else { refused(15) }, &what);
        assert_eq!(check(Lister, &archive, &what) != TOO_LONG, fits, "{what}");
    }
}

/// A table, its archive of 65,536 bytes, and the text of that.
struct Files {
    table: Vec<u8>,
    archive: Vec<u8>,
    text: Vec<u8>,
}

static LONG: LazyLock<Files> = LazyLock::new(|| {
    let table = long_table(0);
    let archive = build(&table).unwrap();
    assert_eq!(archive.len(), 65_536);
    let text = lister(&archive);
    Files { table, archive, text }
});

/// An archive whose text is longer than the 65,536 bytes that a pipe holds, and the text: 99 times the eight rows
/// that two codes on each dimension make, with sums as long as they can be.
static LONG_TEXT: LazyLock<(Vec<u8>, Vec<u8>)> = LazyLock::new(|| {
    let codes = |i: u32| [4, 2, 1].map(|bit| 65_336 + i / 8 * 2 + (i & bit != 0) as u32).to_vec();
    let rows: Vec<_> = (0..99 * 8).map(|i| Row::new(codes(i), 1_323 * i32::MIN as i64, 1_323)).collect();
    let archive = our_archive(&[65_535; 3], &rows);
    let text = lister(&archive);
    assert!(text.len() > 90_000, "{} bytes", text.len());
    (archive, text)
});

#[test]
fn inputs_of_about_65536_bytes() {
    for (program, file) in [(Builder, five_table()), (Lister, five_archive())] {
        for (front, stop) in [(&[][..], 1), (&file, 10)] {
            let input = [front, &[0; 65_540]].concat();
            for length in 65_533..65_540 {
                let want = if length <= 65_536 { refused(stop) } else { TOO_LONG.to_vec() };
                same(program, &program.prints(&input[..length]), &want, &format!("{length} bytes"));
            }
        }
    }
    same(Lister, &Lister.prints(&LONG.archive), &LONG.text, "an archive of 65,536 bytes");
    same(Lister, &Lister.prints(&[&LONG.archive[..], &[0]].concat()), TOO_LONG, "the same and a byte");
}

/// The programs end without the rest of an input, though its writer is not done.
#[test]
fn inputs_far_above_65536_bytes() {
    for program in [Builder, Lister] {
        for piece in [vec![0; 1_000], vec![0; 4_096], vec![0; 100_000]] {
            let pieces = repeat(&piece[..]);
            let what = format!("pieces of {} bytes", piece.len());
            same(program, &program.prints_for_pieces(pieces.clone().take(10_000_000 / piece.len()), ms(0)), TOO_LONG, &what);
            same(program, &program.prints_for_pieces(pieces, ms(1)), TOO_LONG, &format!("{what} without end"));
        }
    }
}

/// The programs read a file once, and of a long one no more than the byte above 65,536.
#[test]
fn inputs_from_a_file() {
    let path = concat!(env!("CARGO_TARGET_TMPDIR"), "/input");
    let long = vec![0; 1_000_000];
    for (program, input, want) in [
        (Builder, &LONG.table, &LONG.archive[..]),
        (Builder, &long, TOO_LONG),
        (Lister, &LONG.archive, &LONG.text),
        (Lister, &long, TOO_LONG),
    ] {
        fs::write(path, input).unwrap();
        let mut file = File::open(path).unwrap();
        same(program, &program.prints_for_file(&file), want, "a file");
        assert_eq!(file.stream_position().unwrap(), input.len().min(65_537) as u64, "{program:?}: bytes that were read");
    }
}

/// A program prints this for an input in pieces of each of these sizes.
fn in_pieces(program: Program, input: &[u8], want: &[u8], sizes: &[usize], pause: Duration) {
    for &size in sizes {
        let printed = program.prints_for_pieces(input.chunks(size), pause);
        same(program, &printed, want, &format!("{} bytes in pieces of {size}", input.len()));
    }
}

#[test]
fn short_inputs_in_pieces() {
    let (table, archive) = (five_table(), build(&five_table()).unwrap());
    in_pieces(Builder, &table, &archive, &[1, 5, 100], ms(2));
    in_pieces(Lister, &archive, &lister(&archive), &[1, 5, 100], ms(2));
}

#[test]
fn long_inputs_in_pieces() {
    let Files { table, archive, text } = &*LONG;
    let above = [&archive[..], &[0]].concat();
    in_pieces(Builder, table, archive, &[1_000, 4_095, 4_096, 4_097], ms(2));
    in_pieces(Lister, archive, text, &[1_000, 4_095, 4_096, 4_097], ms(2));
    in_pieces(Lister, archive, text, &[32_768, 65_535], ms(50));
    in_pieces(Lister, &above, TOO_LONG, &[1_000, 4_096], ms(2));
    in_pieces(Lister, &above, TOO_LONG, &[65_535, 65_536], ms(50));
}

#[test]
fn output_to_a_slow_reader() {
    let (archive, text) = &*LONG_TEXT;
    for (program, input, want) in [(Builder, &LONG.table, &LONG.archive), (Lister, archive, text)] {
        for (size, pause) in [(1, ms(0)), (1_000, ms(1)), (4_096, ms(5)), (100_000, ms(200))] {
            let printed = program.prints_to_slow_reader(input, size, pause);
            same(program, &printed, want, &format!("a reader of {size} bytes at a time"));
        }
    }
}

#[test]
fn a_stack_of_2_mib() {
    let see = |program: Program, input: &[u8], want: &[u8]| same(program, &program.prints_with_stack(2_048, input), want, "2 MiB");
    see(Builder, &LONG.table, &LONG.archive);
    see(Builder, &[0; 65_537], TOO_LONG);
    see(Lister, &LONG.archive, &LONG.text);
    see(Lister, &[0; 65_537], TOO_LONG);
    let (archive, text) = &*LONG_TEXT;
    see(Lister, archive, text);
    let rows: Vec<_> = (0..1_024).map(|i| (vec![i; 8], 1)).collect();
    see(Builder, &table_bytes(&[65_535; 8], &rows), &refused(15));
}
