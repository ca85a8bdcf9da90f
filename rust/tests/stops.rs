//! Each stop: its number, its words, and an input that reaches it.
mod cube;

use cube::Records;
use cube_archive::{raw, Archive, Stop, ALL};

/// In checking order: dimension, fee and what two archives are together are looked at after the file and the set, and before the output.
const STOPS: [(Stop, &str); 21] = [
    (Stop::Opening, "the first four bytes are missing or are not the opening of such a file"),
    (Stop::Cut, "the file ends before the last byte of a field that its earlier fields demand"),
    (Stop::Dimensions, "the number of dimensions is not 1 to 8"),
    (Stop::Size, "a dimension's size is not 1 to 65,535"),
    (Stop::Rows, "there are more than 1,024 rows or base entries"),
    (Stop::Code, "a code in a row or base entry is not below its dimension's size"),
    (Stop::Order, "a base entry does not come strictly after the one before"),
    (Stop::Amount, "a base entry has count 0, or a sum that this many readings cannot make, or brings the total count above 1,048,576"),
    (Stop::List, "a base entry lists more than 70 sets"),
    (Stop::Trailing, "bytes follow the check word"),
    (Stop::CheckWord, "the check word is wrong"),
    (Stop::Entries, "a list, the normal count or a normal entry is not what the base entries require"),
    (
        Stop::Question,
        "the question, record or window has not one code for each of its dimensions, or a code that is not below its dimension's size",
    ),
    (Stop::Set, "the set has a dimension that the archive has not"),
    (Stop::Dimension, "the dimension is not one of the archive's, which are counted from 1"),
    (Stop::Sizes, "the two archives have not the same dimensions and sizes"),
    (Stop::Many, "the result has over 1,024 base rows, or a total count over 1,048,576"),
    (Stop::Window, "the question has another code than the window at the window's dimension"),
    (Stop::Fee, "the fee is above 1,000,000,000 cents"),
    (Stop::NoRows, "the archive has no base row"),
    (Stop::Output, "the result is longer than the output"),
];

#[test]
fn numbers_and_words() {
    assert_eq!(STOPS.map(|(stop, _)| stop), Stop::IN_ORDER);
    for (number, (stop, words)) in (1..=14).chain([16, 17, 18, 20, 23, 24, 15]).zip(STOPS) {
        assert_eq!(stop.number(), number);
        assert_eq!(stop.to_string(), format!("stop {number}: {words}"));
    }
}

/// A file with one word changed, and its check word made right again.
fn with_word(file: &[u8], at: usize, word: u32) -> Vec<u8> {
    let mut file = file.to_vec();
    file[at..at + 4].copy_from_slice(&word.to_le_bytes());
    let end = file.len() - 4;
    let words = file[..end].chunks(4).map(|w| u32::from_le_bytes(w.try_into().unwrap()));
    let check = words.fold(0u32, u32::wrapping_add);
    file[end..].copy_from_slice(&check.to_le_bytes());
    file
}

/// Files that stop both as a table and as an archive; made from a right one of either kind.
fn wrong(right: &[u8]) -> Vec<(Stop, Vec<u8>)> {
    let mut damaged = right.to_vec();
    *damaged.last_mut().unwrap() ^= 1;
    vec![
        (Stop::Opening, vec![]),
        (Stop::Opening, right[..3].to_vec()),
        (Stop::Opening, with_word(right, 0, 0x4642_5543)),
        (Stop::Cut, right[..4].to_vec()),
        (Stop::Cut, right[..right.len() - 1].to_vec()),
        (Stop::Dimensions, with_word(right, 4, 0)),
        (Stop::Dimensions, with_word(right, 4, 9)),
        (Stop::Size, with_word(right, 8, 0)),
        (Stop::Size, with_word(right, 16, 65_536)),
        (Stop::Rows, with_word(right, 20, 1_025)),
        (Stop::Rows, with_word(right, 20, u32::MAX)),
        (Stop::Code, with_word(right, 24, 7)),
        (Stop::Trailing, [right, &[0]].concat()),
        (Stop::CheckWord, damaged),
    ]
}

#[test]
fn wrong_tables() {
    let table = Records::five().table();
    for (stop, file) in wrong(&table) {
        assert_eq!(Archive::build(&file), Err(stop));
        assert_eq!(raw::build(&file, &mut []), Err(stop));
    }
    assert_eq!(Archive::build(Records::five().archive().as_bytes()), Err(Stop::Opening));
    assert_eq!(Archive::open(table), Err(Stop::Opening));
}

/// The first entry has its sum at 36, its count at 44, its list at 48; the second begins at 56; the last count is at 316.
#[test]
fn wrong_archives() {
    let right = Records::five().archive().into_bytes();
    let entries = [
        (Stop::Order, with_word(&right, 56, 0)),
        (Stop::Amount, with_word(&right, 44, 0)),
        (Stop::Amount, with_word(&right, 40, 1)),
        (Stop::Amount, with_word(&right, 44, 1_048_576)),
        (Stop::List, with_word(&right, 48, 71)),
        (Stop::Entries, with_word(&right, 52, 2)),
        (Stop::Entries, with_word(&right, 316, 3)),
    ];
    for (stop, file) in wrong(&right).into_iter().chain(entries) {
        assert_eq!(raw::check(&file), Err(stop));
        assert_eq!(raw::look_up(&file, &[]), Err(stop));
        assert_eq!(raw::list_cuboid(&file, 8, &mut []), Err(stop));
        assert_eq!(raw::expand(&file, &mut []), Err(stop));
        assert_eq!(raw::smallest_keys(&file, &mut []), Err(stop));
        assert_eq!(raw::fixes(&file, 8, 0), Err(stop));
        assert_eq!(raw::share_fee(&file, u32::MAX, 8, &mut []), Err(stop));
        assert_eq!(raw::join(&file, &[], &mut []), Err(stop));
        assert_eq!(raw::join(&right, &file, &mut []), Err(stop));
        assert_eq!(raw::add(&file, &[], 0, &mut []), Err(stop));
        assert_eq!(raw::window(&file, 0, ALL, &[]), Err(stop));
        assert_eq!(Archive::open(file), Err(stop));
    }
}

#[test]
fn wrong_questions() {
    let archive = Records::five().archive();
    for question in [&[][..], &[None; 2], &[None; 4], &[Some(7), None, None], &[None, Some(6), None], &[None, None, Some(65_535)]] {
        assert_eq!(archive.look_up(question), Err(Stop::Question), "{question:?}");
    }
    let raw = |code: u32| raw::look_up(archive.as_bytes(), &[code, ALL, ALL]).map(|found| found.map(|f| f.sum));
    assert_eq!([7, ALL - 1, ALL + 1, u32::MAX].map(raw), [Err(Stop::Question); 4]);
    assert_eq!([6, 5, ALL].map(raw), [Ok(Some(80)), Ok(None), Ok(Some(360))]);
}

#[test]
fn wrong_sets_and_short_outputs() {
    let archive = Records::five().archive();
    for set in [8, 9, 255, 256, u32::MAX] {
        assert_eq!(archive.list_cuboid(set), Err(Stop::Set));
        assert_eq!(raw::list_cuboid(archive.as_bytes(), set, &mut []), Err(Stop::Set));
    }
    assert_eq!(raw::list_cuboid(archive.as_bytes(), 7, &mut []), Err(Stop::Output));
    assert_eq!(raw::expand(archive.as_bytes(), &mut []), Err(Stop::Output));
    assert_eq!(raw::build(&Records::five().table(), &mut []), Err(Stop::Output));
    assert_eq!(raw::smallest_keys(archive.as_bytes(), &mut []), Err(Stop::Output));
}

/// The set goes before the dimension.
#[test]
fn wrong_dimensions() {
    let archive = Records::five().archive();
    for dimension in [0, 4, 8, 9, 256, 1 << 31, u32::MAX] {
        assert_eq!(archive.fixes(7, dimension), Err(Stop::Dimension));
        assert_eq!(archive.fixes(8, dimension), Err(Stop::Set));
    }
    assert_eq!(archive.fixes(u32::MAX, 1), Err(Stop::Set));
}

/// 17, 18 and 15, each with everything wrong that comes after it.
#[test]
fn archives_that_cannot_be_one() {
    let rows = |from, to| (from..to).map(|code| (vec![code], 1)).collect();
    let of = |size, from, to| Records { sizes: vec![size], rows: rows(from, to) }.archive();
    let (full, more) = (of(2_000, 0, 1_024), of(2_000, 1_000, 1_025));
    assert_eq!(full.join(&of(2_001, 1_000, 1_025)), Err(Stop::Sizes));
    assert_eq!(full.join(&Records::five().archive()), Err(Stop::Sizes));
    assert_eq!(full.join(&more), Err(Stop::Many));
    assert_eq!(more.join(&full), Err(Stop::Many));
    assert_eq!(full.join(&of(2_000, 1_000, 1_024)).map(|both| both.check().unwrap().bases), Ok(1_024));
    assert_eq!(raw::join(full.as_bytes(), full.as_bytes(), &mut []), Err(Stop::Output));
    let mut site = of(1, 0, 1);
    for _ in 0..20 {
        site = site.join(&site).unwrap();
    }
    assert_eq!(site.look_up(&[None]).unwrap().map(|all| (all.sum, all.count)), Some((1 << 20, 1 << 20)));
    assert_eq!(site.join(&of(1, 0, 1)), Err(Stop::Many));
}

/// 14, 23, 24 and 15, each with everything wrong that comes after it.
#[test]
fn wrong_fees() {
    let (five, empty) = (Records::five().archive(), Records { sizes: vec![2, 2], rows: vec![] }.archive());
    assert_eq!(empty.share_fee(u32::MAX, 4), Err(Stop::Set));
    assert_eq!(empty.share_fee(1_000_000_001, 0), Err(Stop::Fee));
    assert_eq!([0, 1, 1_000_000_000].map(|fee| empty.share_fee(fee, 0)), [(); 3].map(|_| Err(Stop::NoRows)));
    assert_eq!(raw::share_fee(empty.as_bytes(), 5, 3, &mut []), Err(Stop::NoRows));
    assert_eq!(five.share_fee(1_000_000_001, 7), Err(Stop::Fee));
    assert_eq!(raw::share_fee(five.as_bytes(), 1_000_000_000, 7, &mut []), Err(Stop::Output));
}

/// 13, 18 and 15, each with everything wrong that comes after it.
#[test]
fn wrong_records() {
    let five = Records::five().archive();
    for codes in [&[][..], &[0; 2], &[0; 4], &[7, 1, 1], &[0, 6, 1], &[0, 1, 3], &[65_535, 1, 1], &[0, 1, 65_535]] {
        assert_eq!(five.add(codes, 1), Err(Stop::Question), "{codes:?}");
    }
    let full = Records { sizes: vec![2_000], rows: (0..1_024).map(|code| (vec![code], 1)).collect() }.archive();
    assert_eq!(full.add(&[2_000], 1), Err(Stop::Question));
    assert_eq!(full.add(&[1_024], 1), Err(Stop::Many));
    assert_eq!(raw::add(full.as_bytes(), &[1_024], 1, &mut []), Err(Stop::Many));
    assert_eq!(full.add(&[1_023], 1).map(|more| more.check().unwrap().bases), Ok(1_024));
    assert_eq!(raw::add(full.as_bytes(), &[1_023], 1, &mut []), Err(Stop::Output));
    let thousand = Records { sizes: vec![1], rows: vec![(vec![0], 1); 1_024] }.archive();
    let million = (0..10).fold(thousand, |half, _| half.join(&half).unwrap());
    assert_eq!(million.add(&[0], 1), Err(Stop::Many));
}

/// 16, 13 for the window, 13 for the question, 20, each with everything wrong that comes after it.
#[test]
fn wrong_windows() {
    let five = Records::five().archive();
    for dimension in [0, 4, 9, 256, u32::MAX] {
        assert_eq!(five.window(dimension, 65_535, &[]), Err(Stop::Dimension));
    }
    for code in [7, 65_534, 65_535] {
        assert_eq!(five.window(1, code, &[]), Err(Stop::Question));
    }
    for question in [&[][..], &[Some(4); 2], &[Some(4), Some(6), None], &[Some(7), None, None]] {
        assert_eq!(five.window(1, 6, question), Err(Stop::Question), "{question:?}");
    }
    assert_eq!(five.window(1, 6, &[Some(4), Some(5), None]), Err(Stop::Window));
    assert_eq!(five.window(1, 6, &[None, Some(5), None]), Err(Stop::Window));
}
