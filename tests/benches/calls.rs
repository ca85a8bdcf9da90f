//! Times of the calls on tables of 1,024 rows with eight dimensions, for the library and for `good`, in one run.
//! `wrong check word` is `build` on the table with another check word: every field walked, every word summed, then stop 11.
//! The calls that edition two came with, the late reading (of a row that is there, and of a new one) and the window are timed on its archives.
//! The growth of the times: the table of codes below 32 cut to fewer rows, or to fewer dimensions.
//! Families lie over the same tables: a level has a quarter of the codes below it. A call that the library lacks is timed on `good` alone.
//! The last lines are the check word alone: `check` on files of up to 3.4 MB, of which it walks the first fields only and sums every word, then stop 11.
//! Best of CUBE_REPEAT rounds (5 if it is not set), the last lines of 200 at least. A round goes through all calls on all tables of its
//! part, so that the times of one call lie apart and a slow moment of the machine spoils few of them.
use calls::calls::{Calls, Cell, Stop};
use calls::compare::having;
use calls::good::Good;
use calls::kinds::{families, kinds, Kind, SIZES};
use calls::landed::Request;
use calls::library::Library;
use calls::model::cube;
use calls::model::families::Families;
use calls::random::Random;
use calls::write::{check_word, family_table_bytes, table_bytes, File};
use std::hint::black_box;
use std::time::{Duration, Instant};

/// What a call returns.
#[derive(Clone, Debug, PartialEq)]
enum Answer {
    Length(usize),
    Numbers([u64; 3]),
    Cell(Option<Cell>, u32),
}

fn length(result: Result<usize, Stop>) -> Result<Answer, Stop> {
    result.map(Answer::Length)
}

fn cell(result: Result<Option<(Cell, u32)>, Stop>) -> Result<Answer, Stop> {
    result.map(|found| Answer::Cell(found.map(|found| found.0), found.map_or(0, |found| found.1)))
}

/// A column of the output: a call on inputs, the requests that it needs, and the stop that it ends with, if it has one.
struct Column<I> {
    name: &'static str,
    requests: &'static [Request],
    stop: Option<Stop>,
    run: fn(&dyn Calls, &I, &mut [u8]) -> Result<Answer, Stop>,
}

/// A column of a call that does not stop.
const fn column<I>(
    name: &'static str,
    requests: &'static [Request],
    run: fn(&dyn Calls, &I, &mut [u8]) -> Result<Answer, Stop>,
) -> Column<I> {
    Column { name, requests, stop: None, run }
}

/// The set whose cuboid is listed and shares the fee, and on which the looked-up cell has codes: every other dimension.
const SET: u32 = 0b0101_0101;

/// The dimension of which it is asked whether the set fixes it; it is not in the set.
const DIMENSION: u32 = 8;

/// The fee, which leaves cents over the rounded-down proportions.
const FEE: u32 = 999_999_937;

static BUILD: Column<Inputs> = column("build", &[], |calls, i, out| length(calls.build(&i.table, out)));
static WRONG: Column<Inputs> =
    Column { stop: Some(11), ..column("wrong check word", &[], |calls, i, out| length(calls.build(&i.refused, out))) };
static CHECK: Column<Inputs> =
    column("check", &[], |calls, i, _| calls.check(&i.archive).map(|(bases, normals)| Answer::Numbers([bases as u64, normals as u64, 0])));
static LOOK_UP: Column<Inputs> = column("look up", &[], |calls, i, _| {
    let found = calls.look_up(&i.archive, &i.question)?;
    Ok(Answer::Numbers(found.map_or([u64::MAX; 3], |f| [f.sum as u64, f.count as u64, f.entry as u64])))
});
static LIST: Column<Inputs> = column("list", &[], |calls, i, out| length(calls.list_cuboid(&i.archive, i.set, out)));
static EXPAND: Column<Inputs> = column("expand", &[], |calls, i, out| length(calls.expand(&i.archive, out)));
static KEYS: Column<Inputs> = column("keys", &[], |calls, i, out| length(calls.smallest_keys(&i.archive, out)));
static FIXES: Column<Inputs> =
    column("fixes", &[], |calls, i, _| calls.fixes(&i.archive, i.set, DIMENSION).map(|fixes| Answer::Numbers([fixes as u64, 0, 0])));
static SHARE: Column<Inputs> = column("share a fee", &[], |calls, i, out| length(calls.share_fee(&i.archive, FEE, i.set, out)));
static JOIN: Column<Inputs> = column("join", &[], |calls, i, out| length(calls.join(&i.halves[0], &i.halves[1], out)));

static BUILD_TWO: Column<Inputs> = column("build two", &[Request::C17], |calls, i, out| length(calls.build_two(&i.table, out)));
static CONVERT: Column<Inputs> = column("convert", &[Request::C17], |calls, i, out| length(calls.convert(&i.archive, out)));
static CHECK_TWO: Column<Inputs> = column("check two", &[Request::C17], |calls, i, _| {
    calls.check(&i.two).map(|(bases, normals)| Answer::Numbers([bases as u64, normals as u64, 0]))
});
static EXTREMES: Column<Inputs> =
    column("extremes of one", &[Request::C17], |calls, i, _| cell(calls.look_up_extremes(&i.archive, &i.question)));
static EXTREMES_TWO: Column<Inputs> =
    column("extremes of two", &[Request::C17], |calls, i, _| cell(calls.look_up_extremes(&i.two, &i.question)));
static EXPAND_TWO: Column<Inputs> = column("expand two", &[Request::C17], |calls, i, out| length(calls.expand(&i.two, out)));
static JOIN_TWO: Column<Inputs> =
    column("join one and two", &[Request::C17], |calls, i, out| length(calls.join(&i.halves[0], &i.half_two, out)));
static ADD_KNOWN: Column<Inputs> =
    column("add to a row", &[Request::C17, Request::C18], |calls, i, out| length(calls.add(&i.two, &i.codes, 7, out)));
static ADD_NEW: Column<Inputs> =
    column("add a new row", &[Request::C18], |calls, i, out| length(calls.add(&i.halves[0], &i.new_codes, 7, out)));
static WINDOW: Column<Inputs> = column("window", &[Request::C17, Request::C19], |calls, i, _| {
    let found = calls.window(&i.two, 1, i.codes[0], &i.question)?;
    Ok(Answer::Cell(found, 0))
});

static FAMILY_BUILD: Column<FamilyInputs> = column("build", &[Request::C20], |calls, i, out| length(calls.family_build(&i.table, out)));
static FAMILY_CHECK: Column<FamilyInputs> = column("check", &[Request::C20], |calls, i, _| {
    calls.family_check(&i.archive).map(|(bases, normals)| Answer::Numbers([bases as u64, normals as u64, 0]))
});
static FAMILY_LOOK_UP: Column<FamilyInputs> =
    column("look up", &[Request::C20], |calls, i, _| cell(calls.family_look_up(&i.archive, i.node, &i.question)));
static FAMILY_LIST: Column<FamilyInputs> =
    column("list", &[Request::C20], |calls, i, out| length(calls.family_list(&i.archive, i.node, out)));
static FAMILY_EXPAND: Column<FamilyInputs> =
    column("expand", &[Request::C20], |calls, i, out| length(calls.family_expand(&i.archive, out)));

/// What the calls take of one table.
struct Inputs {
    table: Vec<u8>,
    /// The table with another check word.
    refused: Vec<u8>,
    archive: Vec<u8>,
    /// That of edition two.
    two: Vec<u8>,
    set: u32,
    question: Vec<u32>,
    /// The archives of the even rows and of the odd ones.
    halves: [Vec<u8>; 2],
    /// That of the odd ones in edition two.
    half_two: Vec<u8>,
    /// Codes of a row, and others that no row has.
    codes: Vec<u32>,
    new_codes: Vec<u32>,
}

/// A file with another check word.
fn miswritten(mut file: Vec<u8>) -> Vec<u8> {
    *file.last_mut().unwrap() ^= 1;
    file
}

/// What a call of `good` writes.
fn written(out: &mut [u8], run: impl FnOnce(&mut [u8]) -> Result<usize, Stop>) -> Vec<u8> {
    let length = run(out).unwrap();
    out[..length].to_vec()
}

impl Inputs {
    fn of(rows: &[(Vec<u32>, i32)], out: &mut [u8]) -> Inputs {
        let codes = rows[rows.len() / 2].0.clone();
        let sizes = &SIZES[..codes.len()];
        let table = table_bytes(sizes, rows);
        let half = |first| table_bytes(sizes, &rows.iter().skip(first).step_by(2).cloned().collect::<Vec<_>>());
        let set = SET % (1 << codes.len());
        Inputs {
            refused: miswritten(table.clone()),
            archive: written(out, |out| Good.build(&table, out)),
            two: written(out, |out| Good.build_two(&table, out)),
            set,
            question: cube::cell(&codes, set),
            halves: [0, 1].map(|first| written(out, |out| Good.build(&half(first), out))),
            half_two: written(out, |out| Good.build_two(&half(1), out)),
            new_codes: codes.iter().map(|code| 65_534 - code).collect(),
            table,
            codes,
        }
    }

    /// Those of the first rows and dimensions alone.
    fn of_part(rows: &[(Vec<u32>, i32)], count: usize, dims: usize, out: &mut [u8]) -> Inputs {
        let part: Vec<_> = rows[..count].iter().map(|(codes, reading)| (codes[..dims].to_vec(), *reading)).collect();
        Inputs::of(&part, out)
    }
}

/// What the calls on families take of one table.
struct FamilyInputs {
    table: Vec<u8>,
    archive: Vec<u8>,
    node: u32,
    question: Vec<u32>,
}

impl FamilyInputs {
    /// Of the first dimensions alone, one for each level count.
    fn of(rows: &[(Vec<u32>, i32)], levels: &[usize], out: &mut [u8]) -> FamilyInputs {
        let rows: Vec<_> = rows.iter().map(|(codes, reading)| (codes[..levels.len()].to_vec(), *reading)).collect();
        let families: Families = families(&rows, levels);
        let table = family_table_bytes(&families, &rows);
        // By turns level 0 and ALL.
        let at: Vec<usize> = levels.iter().enumerate().map(|(dim, &all)| if dim % 2 == 0 { 0 } else { all }).collect();
        let question = families.cell(&rows[rows.len() / 2].0, &at);
        FamilyInputs { archive: written(out, |out| Good.family_build(&table, out)), table, node: families.number(&at), question }
    }
}

/// The time of one call, from so many in a row.
fn time(times: u32, mut call: impl FnMut()) -> Duration {
    let start = Instant::now();
    for _ in 0..times {
        call();
    }
    start.elapsed() / times
}

/// The subjects return and write the same.
fn agree<I>(column: &Column<I>, inputs: &I, out: &mut [u8]) {
    let mut first = None;
    for (name, calls) in having(column.requests) {
        let answer = (column.run)(calls, inputs, out);
        assert_eq!(answer.clone().err(), column.stop, "the stop of {}", column.name);
        let bytes = match answer {
            Ok(Answer::Length(length)) => &mut out[..length],
            _ => &mut [],
        };
        let first = first.get_or_insert_with(|| (answer.clone(), bytes.to_vec()));
        assert!(first.0 == answer && first.1 == bytes, "{name}: the results of {} differ", column.name);
        bytes.fill(0);
    }
}

/// A line of the output: its table, and for each column the best times of the library, if it has the call, and of `good`.
struct Line<I> {
    name: String,
    inputs: I,
    bests: Vec<[Duration; 2]>,
}

impl<I> Line<I> {
    fn of(name: &str, inputs: I) -> Line<I> {
        Line { name: name.to_string(), inputs, bests: vec![] }
    }

    /// One round of a call: of each subject one run or as many as take about a millisecond, behind one that is not timed.
    fn round(&mut self, place: usize, column: &Column<I>, out: &mut [u8]) {
        for ((_, calls), best) in having(column.requests).into_iter().rev().zip(self.bests[place].iter_mut().rev()) {
            let mut once = || {
                let _ = black_box((column.run)(calls, black_box(&self.inputs), out));
            };
            once();
            let times = (1_000_000 / best.as_nanos()).clamp(1, 1_000) as u32;
            *best = time(times, once).min(*best);
        }
    }

    fn text(&self, places: std::ops::Range<usize>) -> String {
        let mut text = format!("{:24}", self.name);
        for bests in &self.bests[places] {
            let [library, good] = bests.map(|best| best.as_secs_f64() * 1e3);
            text += &match bests[0] {
                Duration::MAX => format!("{:>10}{good:>9.4}{:>7}", "-", "-"),
                _ => format!("{library:>10.4}{good:>9.4}{:>7.2}", library / good),
            };
        }
        text
    }
}

/// The times of some calls, by parts of the output, on some tables: all subjects answer alike, then come the rounds.
fn show<I>(lines: &mut [Line<I>], parts: &[&[&Column<I>]], out: &mut [u8], rounds: u32) {
    let columns: Vec<&Column<I>> = parts.concat();
    for line in lines.iter_mut() {
        columns.iter().for_each(|column| agree(column, &line.inputs, out));
        line.bests = vec![[Duration::MAX; 2]; columns.len()];
    }
    for _ in 0..rounds {
        for line in lines.iter_mut() {
            columns.iter().enumerate().for_each(|(place, column)| line.round(place, column, out));
        }
    }
    let mut first = 0;
    for part in parts {
        println!("{:24}{}", "", part.iter().map(|column| format!("{:>26}", column.name)).collect::<String>());
        lines.iter().for_each(|line| println!("{}", line.text(first..first + part.len())));
        first += part.len();
    }
}

/// The check word byte by byte: each byte is added at its place in its word.
fn check_word_by_bytes(s: &[u8]) -> u32 {
    s.iter().enumerate().fold(0, |sum: u32, (i, &byte)| sum.wrapping_add((byte as u32) << (8 * (i % 4))))
}

/// An archive with no base entry, so many normal entries of any words, and another check word.
fn refused_archive(entries: u32, random: &mut Random) -> Vec<u8> {
    let words: Vec<u32> = (0..11 * entries).map(|_| random.draw() as u32).collect();
    miswritten(File::archive().head(&SIZES, 0).word(entries).words(&words).closed())
}

/// The check word through the library and through `good`, whose check has a plain loop over words, and byte by byte. The three go by
/// turns; each runs once before it is timed, so that it finds the caches as it leaves them itself.
fn check_word_line(archive: &[u8], turns: u32) -> String {
    let body = &archive[..archive.len() - 4];
    let run = |way: usize| match way {
        0 => Library.check(black_box(archive)).unwrap_err(),
        1 => Good.check(black_box(archive)).unwrap_err(),
        _ => check_word_by_bytes(black_box(body)),
    };
    assert_eq!([run(0), run(1), run(2)], [11, 11, check_word(body)], "the stops of a wrong check word, and the check word");
    let mut bests = [Duration::MAX; 3];
    for _ in 0..turns {
        for (way, best) in bests.iter_mut().enumerate() {
            let once = || {
                black_box(run(way));
            };
            once();
            *best = time(1, once).min(*best);
        }
    }
    let [library, words, bytes] = bests.map(|best| best.as_secs_f64() * 1e3);
    let length = format!("{} bytes", archive.len());
    format!("{length:24}{library:>10.4}{words:>9.4}{bytes:>9.4}{:>7.3}{:>7.3}", library / words, library / bytes)
}

/// Families of so many levels over the first dimensions of each kind of table.
fn show_families(kinds: &[Kind], levels: &[usize], out: &mut [u8], rounds: u32) {
    let nodes: usize = levels.iter().map(|count| count + 1).product();
    println!("Families of {levels:?} levels, {nodes} nodes: milliseconds of the library and of good, and library / good");
    let of = |(name, rows): &Kind| Line::of(name, FamilyInputs::of(rows, levels, out));
    let mut lines: Vec<_> = kinds.iter().map(of).collect();
    show(&mut lines, &[&[&FAMILY_BUILD, &FAMILY_CHECK, &FAMILY_LOOK_UP], &[&FAMILY_LIST, &FAMILY_EXPAND]], out, rounds);
}

fn main() {
    let rounds = std::env::var("CUBE_REPEAT").ok().and_then(|s| s.parse().ok()).unwrap_or(5);
    // An expansion of 4,096 nodes at D 6 is the longest result.
    let mut out = vec![0; 4_096 * (4 + 1_024 * 52)];
    let kinds = kinds(&mut Random::seeded(7));
    println!("1,024 rows, D 8: milliseconds of the library and of good, and library / good");
    let mut lines: Vec<_> = kinds.iter().map(|(name, rows)| Line::of(name, Inputs::of(rows, &mut out))).collect();
    let before: [&[&Column<Inputs>]; 4] = [&[&BUILD, &WRONG, &CHECK], &[&LOOK_UP, &LIST, &EXPAND], &[&KEYS, &FIXES], &[&SHARE, &JOIN]];
    show(&mut lines, &before, &mut out, rounds);
    println!("Edition two, a late reading and the window: milliseconds of the library and of good, and library / good");
    let after: [&[&Column<Inputs>]; 4] =
        [&[&BUILD_TWO, &CONVERT, &CHECK_TWO], &[&EXTREMES, &EXTREMES_TWO, &EXPAND_TWO], &[&JOIN_TWO, &ADD_KNOWN, &ADD_NEW], &[&WINDOW]];
    show(&mut lines, &after, &mut out, rounds);
    let (name, rows) = &kinds[1];
    println!("Growth with rows and with D, {name}: milliseconds of the library and of good, and library / good");
    let by_rows = [64, 128, 256, 512, 1_024].map(|count| (count, 8));
    let sizes = by_rows.into_iter().chain((1..=8).map(|dims| (1_024, dims)));
    let of = |(count, dims)| Line::of(&format!("{count} rows, D {dims}"), Inputs::of_part(rows, count, dims, &mut out));
    let mut lines: Vec<_> = sizes.map(of).collect();
    show(&mut lines, &[&[&BUILD, &CHECK, &LOOK_UP], &[&LIST, &EXPAND]], &mut out, rounds);
    for levels in [&[3; 6][..], &[1, 2, 1, 2, 2, 1, 3, 1], &[1; 8]] {
        show_families(&kinds, levels, &mut out, rounds);
    }
    println!("Check word: milliseconds of the library, of good and of a sum byte by byte, library / good and library / bytes");
    let mut random = Random::seeded(8);
    for entries in [20_000, 40_000, 77_272] {
        println!("{}", check_word_line(&refused_archive(entries, &mut random), rounds.max(200)));
    }
}
