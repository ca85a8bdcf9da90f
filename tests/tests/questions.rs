//! Stops 13 and 14: questions of another length than D, codes at the limits, set numbers at the limits.
use calls::compare::{Compare, LIST, LOOK_UP};
use calls::model::{our_archive, Accepted, Row, ALL};
use calls::random::Random;

/// An archive of D dimensions with these sizes, whose rows have the least and the greatest codes.
fn archive(sizes: &[u32]) -> Vec<u8> {
    let greatest: Vec<u32> = sizes.iter().map(|size| size - 1).collect();
    let mut rows = vec![Row::new(vec![0; sizes.len()], -3, 2), Row::new(greatest, 9, 1)];
    rows.dedup_by(|a, b| a.codes == b.codes);
    our_archive(sizes, &rows)
}

fn accepted(compare: &mut Compare, s: &[u8]) -> Accepted {
    compare.archive(s, "an archive of ours").unwrap()
}

#[test]
fn a_question_has_d_codes() {
    let mut compare = Compare::new();
    for dims in 1..=8 {
        let s = archive(&vec![4; dims]);
        let accepted = accepted(&mut compare, &s);
        for length in (0..20).chain([256, 256 + dims, 65_536 + dims]) {
            for code in [0, 1, 3, ALL] {
                compare.look_up(&s, &accepted, &vec![code; length], "length");
                assert_eq!(accepted.look_up(&vec![code; length]).is_ok(), length == dims);
            }
        }
    }
    compare.had(LOOK_UP, &[0, 13]);
}

#[test]
fn a_code_is_below_its_size_or_all() {
    let mut compare = Compare::new();
    for size in [1, 2, 3, 255, 256, 257, 32_768, 65_534, 65_535] {
        for dims in [1, 2, 3, 5] {
            let s = archive(&vec![size; dims]);
            let accepted = accepted(&mut compare, &s);
            for code in [0, 1, size - 1, size, size + 1, 65_534, ALL, 65_536, 65_536 + size - 1, 1 << 31, (1 << 31) + size - 1, u32::MAX] {
                for (dim, other) in (0..dims).flat_map(|dim| [0, size - 1, ALL].map(|other| (dim, other))) {
                    let mut question = vec![other; dims];
                    question[dim] = code;
                    compare.look_up(&s, &accepted, &question, &format!("size {size}"));
                    assert_eq!(accepted.look_up(&question).is_ok(), code < size || code == 65_535);
                }
            }
        }
    }
    compare.had(LOOK_UP, &[0, 13]);
}

/// A code is held against the size of its own dimension.
#[test]
fn sizes_that_differ() {
    let mut compare = Compare::new();
    let sizes = [1, 2, 3, 4, 5, 6, 7, 8];
    let s = archive(&sizes);
    let accepted = accepted(&mut compare, &s);
    for (dim, code) in (0..8).flat_map(|dim| (0..10).map(move |code| (dim, code))) {
        let mut question = [ALL; 8];
        question[dim] = code;
        compare.look_up(&s, &accepted, &question, "sizes 1 to 8");
        assert_eq!(accepted.look_up(&question).is_ok(), code < sizes[dim], "{question:?}");
    }
}

#[test]
fn a_set_number_is_below_2_to_the_power_d() {
    let mut compare = Compare::new();
    for dims in 1..=8 {
        let s = archive(&vec![3; dims]);
        let accepted = accepted(&mut compare, &s);
        for set in (0..260).chain([511, 512, 65_535, 65_536, 1 << 31, u32::MAX - 255, u32::MAX]) {
            compare.list(&s, &accepted, set, &format!("D {dims}"));
            assert_eq!(accepted.list_cuboid(set).is_ok(), set < 1 << dims, "set {set} at D {dims}");
        }
    }
    compare.had(LIST, &[0, 14, 15]);
}

#[test]
fn odd_questions_on_random_archives() {
    let mut random = Random::seeded(301);
    let mut compare = Compare::new();
    for i in 0..320 {
        let count = random.row_count().min(30);
        let s = random.our_archive(1 + i % 8, count);
        let accepted = accepted(&mut compare, &s);
        for _ in 0..10 {
            let question = random.odd_question(&accepted);
            compare.look_up(&s, &accepted, &question, &format!("archive {i}"));
        }
    }
    compare.had(LOOK_UP, &[0, 13]);
}
