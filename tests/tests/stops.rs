//! For each stop files that reach it and files that just miss it (src/cases): the answer is the one named there.
use calls::calls::{Calls, Stop};
use calls::cases::{archives, archives_two, family_archives, family_tables, five_archive, tables, Case};
use calls::compare::{having, hex, subjects, Compare, BUILD, BUILD_TWO, CHECK, FAMILY_BUILD, FAMILY_CHECK};
use calls::landed::Request::{self, Before, C17, C20};
use calls::model::{self, families, fields};
use calls::write::File;
use std::time::{Duration, Instant};

/// D and the base count of the archive that is built.
fn build(calls: &dyn Calls, table: &[u8]) -> Result<(u32, u32), Stop> {
    let mut out = vec![0; 400_000];
    let length = calls.build(table, &mut out)?;
    let built = fields::archive(&out[..length]).unwrap();
    Ok((built.sizes.len() as u32, built.bases.len() as u32))
}

/// The same of a table with families.
fn family_build(calls: &dyn Calls, table: &[u8]) -> Result<(u32, u32), Stop> {
    let mut out = vec![0; 800_000];
    let length = calls.family_build(table, &mut out)?;
    let built = fields::family_archive(&out[..length]).unwrap();
    Ok((built.families.0.len() as u32, built.bases.len() as u32))
}

/// A call on a case.
type Run = fn(&dyn Calls, &[u8]) -> Result<(u32, u32), Stop>;

/// The cases about one stop, at each of eight places in memory, with other bytes before and behind.
fn about(cases: Vec<Case>, stop: Stop, reached: bool, request: Request, run: Run) {
    let (mut reach, mut miss) = (0, 0);
    for case in cases.iter().filter(|c| c.about == stop) {
        for before in 0..8 {
            let padded = [&vec![0xFF; before][..], &case.bytes, &[0; 64]].concat();
            for (name, calls) in having(&[request]) {
                let got = run(calls, &padded[before..before + case.bytes.len()]);
                assert_eq!(got, case.want, "{name}, stop {stop}: {}\n{}", case.name, hex(&case.bytes));
            }
        }
        *if case.want == Err(stop) { &mut reach } else { &mut miss } += 1;
    }
    assert!((reach > 0) == reached && miss > 0, "stop {stop}: {reach} reach it, {miss} miss it");
}

macro_rules! stops {
    ($cases:ident, $request:ident, $run:expr; $($name:ident $stop:literal $reached:literal)*) => { $(
        #[test]
        fn $name() {
            about($cases(), $stop, $reached, $request, $run);
        }
    )* };
}

stops! { archives, Before, |calls, s| calls.check(s);
    archive_stop_01 1 true
    archive_stop_02 2 true
    archive_stop_03 3 true
    archive_stop_04 4 true
    archive_stop_05 5 true
    archive_stop_06 6 true
    archive_stop_07 7 true
    archive_stop_08 8 true
    archive_stop_09 9 true
    archive_stop_10 10 true
    archive_stop_11 11 true
    archive_stop_12 12 true
}

stops! { tables, Before, build;
    table_stop_01 1 true
    table_stop_02 2 true
    table_stop_03 3 true
    table_stop_04 4 true
    table_stop_05 5 true
    table_stop_06 6 true
    table_has_no_stop_07 7 false
    table_stop_10 10 true
    table_stop_11 11 true
}

stops! { archives_two, C17, |calls, s| calls.check(s);
    edition_two_stop_01 1 true
    edition_two_stop_02 2 true
    edition_two_stop_03 3 true
    edition_two_stop_04 4 true
    edition_two_stop_05 5 true
    edition_two_stop_06 6 true
    edition_two_stop_07 7 true
    edition_two_stop_08 8 true
    edition_two_stop_09 9 true
    edition_two_stop_10 10 true
    edition_two_stop_11 11 true
    edition_two_stop_12 12 true
    edition_two_stop_19 19 true
}

stops! { family_archives, C20, |calls, s| calls.family_check(s);
    family_archive_stop_01 1 true
    family_archive_stop_02 2 true
    family_archive_stop_03 3 true
    family_archive_stop_04 4 true
    family_archive_stop_05 5 true
    family_archive_stop_06 6 true
    family_archive_stop_07 7 true
    family_archive_stop_08 8 true
    family_archive_stop_09 9 true
    family_archive_stop_10 10 true
    family_archive_stop_11 11 true
    family_archive_stop_12 12 true
    family_archive_stop_19 19 true
    family_archive_stop_21 21 true
    family_archive_stop_22 22 true
}

stops! { family_tables, C20, family_build;
    family_table_stop_01 1 true
    family_table_stop_02 2 true
    family_table_stop_03 3 true
    family_table_stop_04 4 true
    family_table_stop_05 5 true
    family_table_stop_06 6 true
    family_table_stop_10 10 true
    family_table_stop_11 11 true
    family_table_stop_21 21 true
    family_table_stop_22 22 true
}

#[test]
fn the_model_answers_each_archive_case() {
    let mut compare = Compare::new();
    for case in archives().into_iter().chain(archives_two()) {
        let model = compare.archive(&case.bytes, &case.name);
        assert_eq!(model.map(|accepted| accepted.counts()), case.want, "{}", case.name);
    }
    compare.had(CHECK, &[0, 1, 2, 3, 4, 5, 6, 7, 8, 9, 10, 11, 12, 19]);
}

#[test]
fn the_model_answers_each_family_case() {
    let mut compare = Compare::new();
    for case in family_archives() {
        let model = compare.family_archive(&case.bytes, &case.name);
        assert_eq!(model.map(|accepted| accepted.counts()), case.want, "{}", case.name);
    }
    for case in family_tables() {
        let model = compare.family_table(&case.bytes, &case.name);
        let counts = model.map(|archive| families::open(&archive).unwrap()).map(|a| (a.families.0.len() as u32, a.rows.len() as u32));
        assert_eq!(counts, case.want, "{}", case.name);
    }
    compare.had(FAMILY_CHECK, &[0, 1, 2, 3, 4, 5, 6, 7, 8, 9, 10, 11, 12, 19, 21, 22]);
    compare.had(FAMILY_BUILD, &[0, 1, 2, 3, 4, 5, 6, 10, 11, 15, 21, 22]);
}

#[test]
fn the_model_answers_each_table_case() {
    let mut compare = Compare::new();
    for case in tables() {
        let model = compare.table(&case.bytes, &case.name);
        drop(compare.table_two(&case.bytes, &case.name));
        let sizes = model.map(|archive| model::open(&archive).unwrap()).map(|a| (a.dims() as u32, a.rows.len() as u32));
        assert_eq!(sizes, case.want, "{}", case.name);
    }
    compare.had(BUILD, &[0, 1, 2, 3, 4, 5, 6, 10, 11, 15]);
    compare.had(BUILD_TWO, &[0, 1, 2, 3, 4, 5, 6, 10, 11, 15]);
}

/// A refused archive has the same stop in every call, whatever is wrong in the question, the set or the output.
#[test]
fn the_file_comes_before_the_question_and_the_output() {
    for case in archives() {
        let Err(stop) = case.want else { continue };
        for (name, calls) in subjects() {
            let mut lent = [7; 64];
            let s = &case.bytes;
            assert_eq!(calls.look_up(s, &[u32::MAX]), Err(stop), "{name}, look up: {}", case.name);
            assert_eq!(calls.list_cuboid(s, 256, &mut []), Err(stop), "{name}, list: {}", case.name);
            assert_eq!(calls.list_cuboid(s, 0, &mut lent), Err(stop), "{name}, list: {}", case.name);
            assert_eq!(calls.expand(s, &mut []), Err(stop), "{name}, expand: {}", case.name);
            assert_eq!(calls.expand(s, &mut lent), Err(stop), "{name}, expand: {}", case.name);
            assert_eq!(calls.smallest_keys(s, &mut []), Err(stop), "{name}, keys: {}", case.name);
            assert_eq!(calls.smallest_keys(s, &mut lent), Err(stop), "{name}, keys: {}", case.name);
            assert_eq!(calls.fixes(s, 256, 0), Err(stop), "{name}, fixes: {}", case.name);
            assert_eq!(calls.fixes(s, 0, 1), Err(stop), "{name}, fixes: {}", case.name);
            assert_eq!(calls.share_fee(s, u32::MAX, 256, &mut []), Err(stop), "{name}, share a fee: {}", case.name);
            assert_eq!(calls.share_fee(s, 0, 0, &mut lent), Err(stop), "{name}, share a fee: {}", case.name);
            assert_eq!(lent, [7; 64], "{name}: {}", case.name);
        }
    }
}

/// The same of edition two, and of the calls that came with it and after it.
#[test]
fn the_file_comes_before_the_question_and_the_output_in_edition_two() {
    for case in archives().into_iter().chain(archives_two()) {
        let Err(stop) = case.want else { continue };
        for (name, calls) in having(&[C17, Request::C18, Request::C19]) {
            let mut lent = [7; 64];
            let s = &case.bytes;
            assert_eq!(calls.look_up_extremes(s, &[u32::MAX]), Err(stop), "{name}, look up: {}", case.name);
            assert_eq!(calls.list_cuboid(s, 256, &mut []), Err(stop), "{name}, list: {}", case.name);
            assert_eq!(calls.expand(s, &mut lent), Err(stop), "{name}, expand: {}", case.name);
            assert_eq!(calls.smallest_keys(s, &mut []), Err(stop), "{name}, keys: {}", case.name);
            assert_eq!(calls.fixes(s, 256, 0), Err(stop), "{name}, fixes: {}", case.name);
            assert_eq!(calls.share_fee(s, u32::MAX, 256, &mut []), Err(stop), "{name}, share a fee: {}", case.name);
            assert_eq!(calls.add(s, &[u32::MAX], 0, &mut lent), Err(stop), "{name}, add: {}", case.name);
            assert_eq!(calls.window(s, 0, u32::MAX, &[]), Err(stop), "{name}, window: {}", case.name);
            assert_eq!(calls.join(s, b"CUB2", &mut lent), Err(stop), "{name}, join: {}", case.name);
            assert_eq!(calls.join(&five_archive(), s, &mut []), Err(stop), "{name}, join: {}", case.name);
            let converted = if s.starts_with(b"CUB2") { 1 } else { stop };
            assert_eq!(calls.convert(s, &mut []), Err(converted), "{name}, convert: {}", case.name);
            assert_eq!(lent, [7; 64], "{name}: {}", case.name);
        }
    }
}

/// The same of families.
#[test]
fn the_file_comes_before_the_node_and_the_output() {
    for case in family_archives() {
        let Err(stop) = case.want else { continue };
        for (name, calls) in having(&[C20]) {
            let mut lent = [7; 64];
            let s = &case.bytes;
            assert_eq!(calls.family_look_up(s, u32::MAX, &[]), Err(stop), "{name}, look up: {}", case.name);
            assert_eq!(calls.family_list(s, u32::MAX, &mut []), Err(stop), "{name}, list: {}", case.name);
            assert_eq!(calls.family_list(s, 0, &mut lent), Err(stop), "{name}, list: {}", case.name);
            assert_eq!(calls.family_expand(s, &mut lent), Err(stop), "{name}, expand: {}", case.name);
            assert_eq!(lent, [7; 64], "{name}: {}", case.name);
        }
    }
}

/// A refused table has the same stop when the output is too short.
fn before_the_output(cases: Vec<Case>, request: Request, build: fn(&dyn Calls, &[u8], &mut [u8]) -> Result<usize, Stop>) {
    for case in cases {
        let want = Err(case.want.err().unwrap_or(15));
        for (name, calls) in having(&[request]) {
            let mut lent = [7; 19];
            assert_eq!(build(calls, &case.bytes, &mut []), want, "{name}: {}", case.name);
            assert_eq!(build(calls, &case.bytes, &mut lent), want, "{name}: {}", case.name);
            assert_eq!(lent, [7; 19], "{name}: {}", case.name);
        }
    }
}

#[test]
fn the_table_comes_before_the_output() {
    before_the_output(tables(), Before, |calls, s, out| calls.build(s, out));
    before_the_output(tables(), C17, |calls, s, out| calls.build_two(s, out));
    before_the_output(family_tables(), C20, |calls, s, out| calls.family_build(s, out));
}

#[test]
fn a_normal_count_of_4294967295_returns_at_once() {
    let files = [
        File::archive().head(&[1], 0).word(u32::MAX).cut(),
        File::archive().head(&[1; 8], 0).word(u32::MAX).closed(),
        File::archive().head(&[9], 1).base(&[8], 0, 1, &[0]).word(u32::MAX).words(&[0; 400]).closed(),
    ];
    for (s, (name, calls)) in files.iter().flat_map(|s| subjects().into_iter().map(move |subject| (s, subject))) {
        let mut best = Duration::MAX;
        for _ in 0..5 {
            let start = Instant::now();
            assert_eq!(calls.check(s), Err(2), "{name}");
            best = best.min(start.elapsed());
        }
        assert!(best < Duration::from_millis(1), "{name}: {best:?}");
    }
}
