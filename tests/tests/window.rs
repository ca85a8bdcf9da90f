//! C-19: the window of one dimension and code: what it answers, its stops 16, 13, 13 and 20 in their order, and that it tells nothing of rows
//! outside.
use calls::calls::{Cell, Extremes};
use calls::cases::five_table;
use calls::compare::{having, Compare, WINDOW};
use calls::landed::Request;
use calls::model::editions::Edition;
use calls::model::{self, archive_of, build_edition, Accepted, Row, ALL};
use calls::random::Random;
use std::collections::BTreeMap;

#[test]
fn the_five_rows() {
    let mut compare = Compare::new();
    let cell = |sum, count, least, greatest| Some(Cell { sum, count, extremes: Some(Extremes { least, greatest }) });
    for edition in [Edition::One, Edition::Two] {
        let s = build_edition(edition, &five_table()).unwrap();
        let accepted = compare.archive(&s, "the five rows").unwrap();
        for (dimension, code, question, want) in [
            (2, 5, [ALL, 5, ALL], Ok(cell(150, 2, 70, 80))),
            (2, 5, [ALL, 5, 1], Ok(cell(70, 1, 70, 70))),
            (2, 5, [0, 5, ALL], Ok(None)),
            (3, 1, [ALL, ALL, 1], Ok(cell(280, 4, 50, 100))),
            (2, 0, [ALL, 0, ALL], Ok(None)),
            (2, 5, [ALL, ALL, ALL], Err(20)),
            (2, 5, [ALL, 1, ALL], Err(20)),
            (2, 5, [7, 1, ALL], Err(13)),
            (2, 6, [ALL, 6, ALL], Err(13)),
            (2, 6, [ALL, 5, ALL], Err(13)),
            (2, u32::MAX, [ALL, 1, ALL], Err(13)),
            (2, ALL, [ALL, ALL, ALL], Err(13)),
            (0, 5, [ALL, 5, ALL], Err(16)),
            (4, 5, [ALL, 5, ALL], Err(16)),
            (0, 9, [7, 9, ALL], Err(16)),
        ] {
            compare.window(&s, &accepted, dimension, code, &question, "the five rows");
            assert_eq!(accepted.window(dimension, code, &question), want, "{dimension} {code} {question:?}");
        }
        compare.window(&s, &accepted, 2, 5, &[], "no codes");
        compare.window(&s, &accepted, 2, 5, &[ALL, 5], "two codes");
        compare.window(&s, &accepted, 2, 5, &[ALL, 5, ALL, ALL], "four codes");
    }
    compare.had(WINDOW, &[0, 13, 16, 20]);
}

/// A window, and a question that mostly looks through it.
fn asked(random: &mut Random, accepted: &Accepted) -> (u32, u32, Vec<u32>) {
    let mut question = match random.below(4) {
        0 => random.odd_question(accepted),
        _ => random.question(accepted),
    };
    let i = random.place(accepted.dims());
    let mut code = random.code(accepted.sizes[i]);
    if !accepted.rows.is_empty() && !random.one_in(3) {
        code = accepted.rows[random.place(accepted.rows.len())].codes[i];
    }
    if i < question.len() && !random.one_in(4) {
        question[i] = code;
    }
    match random.below(12) {
        0 => code = random.pick(&[accepted.sizes[i], ALL, 65_536, u32::MAX]),
        1 => return (random.pick(&[0, accepted.dims() as u32 + 1, 9, u32::MAX]), code, question),
        _ => {}
    }
    (i as u32 + 1, code, question)
}

#[test]
fn random_windows() {
    let mut random = Random::seeded(1_901);
    let mut compare = Compare::new();
    for i in 0..1_500 {
        let (edition, count) = (random.edition(), random.row_count().min(40));
        let sizes = random.sizes(1 + i % 8);
        let s = random.archive_of(edition, &sizes, count);
        let accepted = compare.archive(&s, &format!("archive {i}")).unwrap();
        for _ in 0..8 {
            let (dimension, code, question) = asked(&mut random, &accepted);
            compare.window(&s, &accepted, dimension, code, &question, &format!("archive {i}"));
        }
    }
    compare.had(WINDOW, &[0, 13, 16, 20]);
}

/// What a window answers is what a look-up answers, without the entry's number.
#[test]
fn as_a_look_up() {
    let mut random = Random::seeded(1_902);
    for i in 0..300 {
        let sizes = random.sizes(1 + i % 8);
        let edition = random.edition();
        let s = random.archive_of(edition, &sizes, i % 30);
        let question = random.question(&model::open(&s).unwrap());
        for (name, calls) in having(&[Request::C17, Request::C19]) {
            let found = calls.look_up_extremes(&s, &question).map(|found| found.map(|(cell, _)| cell));
            for dim in (0..sizes.len()).filter(|&dim| question[dim] != ALL) {
                assert_eq!(calls.window(&s, dim as u32 + 1, question[dim], &question), found, "{name}, archive {i}, {question:?}");
            }
        }
    }
}

/// "Two accepted archives of one edition, the same dimensions and sizes, which agree on all base rows in the window: every question gets the same
/// reply from both, stops included."
#[test]
fn rows_outside_are_not_told() {
    let mut random = Random::seeded(1_903);
    let mut replies = BTreeMap::new();
    for i in 0..600 {
        let (edition, sizes) = (random.edition(), random.sizes(1 + i % 8));
        let dim = random.place(sizes.len());
        let [mine, others, more] = [12, 20, 20].map(|most| {
            let count = random.place(most);
            random.ranged_rows(&sizes, count)
        });
        let code = mine.first().map_or(0, |row| row.codes[dim]);
        let mine: Vec<Row> = mine.into_iter().filter(|row| row.codes[dim] == code && row.count < 1_000).collect();
        let archive = |outside: Vec<Row>| {
            let outside = outside.into_iter().filter(|row| row.codes[dim] != code && row.count < 1_000);
            let mut rows: Vec<Row> = outside.chain(mine.clone()).collect();
            rows.sort_by(|a, b| a.codes.cmp(&b.codes));
            archive_of(edition, &sizes, &rows)
        };
        let (s, t) = (archive(others), archive(more));
        let accepted = model::open(&s).unwrap();
        let requests = if edition == Edition::Two { vec![Request::C17, Request::C19] } else { vec![Request::C19] };
        for _ in 0..8 {
            let (_, _, question) = asked(&mut random, &accepted);
            for (name, calls) in having(&requests) {
                let reply = calls.window(&s, dim as u32 + 1, code, &question);
                assert_eq!(reply, calls.window(&t, dim as u32 + 1, code, &question), "{name}, archives {i}, {question:?}");
                *replies.entry(reply.map(|cell| cell.is_some())).or_insert(0) += 1;
            }
        }
    }
    for reply in [Ok(true), Ok(false), Err(13), Err(20)] {
        assert!(replies.get(&reply).is_some_and(|&times| times > 50), "{replies:?}");
    }
}
