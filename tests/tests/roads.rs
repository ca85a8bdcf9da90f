//! C-21: for two sets, one inside the other, the listed cells of the larger that agree with a cell of the smaller add up to what a look-up
//! answers, by whichever set they are added.
use calls::calls::Calls;
use calls::compare::{hex, subjects};
use calls::model::{cube, our_archive, Row, ALL};
use calls::random::Random;
use calls::write::table_bytes;

/// An archive of D dimensions, with one of the programs that read it.
struct Asked<'a> {
    calls: &'a dyn Calls,
    archive: &'a [u8],
    dims: usize,
}

impl Asked<'_> {
    /// The listed cells of a set.
    fn cells(&self, set: u32) -> Vec<Row> {
        let mut out = vec![0; 100_000];
        let length = self.calls.list_cuboid(self.archive, set, &mut out).unwrap();
        let word = |at: usize| u32::from_le_bytes(out[at..at + 4].try_into().unwrap());
        let width = 4 * self.dims + 12;
        assert_eq!(length, 4 + word(0) as usize * width);
        let cell = |at: usize| {
            let codes = (0..self.dims).map(|i| word(at + 4 * i)).collect();
            let sum = i64::from_le_bytes(out[at + width - 12..at + width - 4].try_into().unwrap());
            Row::new(codes, sum, word(at + width - 4))
        };
        (4..length).step_by(width).map(cell).collect()
    }

    /// The sum and count of a cell, if it exists.
    fn answer(&self, codes: &[u32]) -> Option<(i64, u32)> {
        self.calls.look_up(self.archive, codes).unwrap().map(|found| (found.sum, found.count))
    }
}

/// How many of the cells agree with a cell of a set, and what they add up to.
fn road(cells: &[Row], codes: &[u32], set: u32) -> (usize, (i64, u32)) {
    let agreeing = cells.iter().filter(|cell| cube::agree(&cell.codes, codes, set));
    agreeing.fold((0, (0, 0)), |(cells, (sum, count)), cell| (cells + 1, (sum + cell.sum, count + cell.count)))
}

/// Every cell of a set is added up by every larger set that is tried.
fn roads(archive: &[u8], dims: usize, set: u32, larger: &[u32], what: &str) {
    for (name, calls) in subjects() {
        let asked = Asked { calls, archive, dims };
        let cells = asked.cells(set);
        for cell in &cells {
            assert_eq!(asked.answer(&cell.codes), Some((cell.sum, cell.count)), "{name}, {what}, {:?}", cell.codes);
        }
        for &by in larger {
            assert!(cube::holds(by, set));
            let listed = asked.cells(by);
            let mut added = 0;
            for cell in &cells {
                let (agreeing, total) = road(&listed, &cell.codes, set);
                assert_eq!(total, (cell.sum, cell.count), "{name}, {what}, {:?} by set {by}\n{}", cell.codes, hex(archive));
                added += agreeing;
            }
            assert_eq!(added, listed.len(), "{name}, {what}: each cell of set {by} lies in one of set {set}");
        }
    }
}

/// All sets that hold the set.
fn larger(dims: usize, set: u32) -> Vec<u32> {
    cube::lattice(dims).into_iter().filter(|&by| cube::holds(by, set)).collect()
}

/// An archive of random base rows, at least one.
fn archive(dims: usize, random: &mut Random) -> Vec<u8> {
    let sizes = random.sizes(dims);
    let count = random.row_count().clamp(1, 40);
    let rows = random.base_rows(&sizes, count);
    our_archive(&sizes, &rows)
}

#[test]
fn any_two_sets_of_few_dimensions() {
    let mut random = Random::seeded(701);
    for i in 0..120 {
        let dims = 1 + i % 3;
        let archive = archive(dims, &mut random.part());
        for set in cube::lattice(dims) {
            roads(&archive, dims, set, &larger(dims, set), &format!("archive {i}, set {set}"));
        }
    }
}

#[test]
fn some_sets_of_many_dimensions() {
    let mut random = Random::seeded(702);
    for i in 0..60 {
        let dims = 4 + i % 5;
        let archive = archive(dims, &mut random.part());
        for _ in 0..4 {
            let set = random.below(1 << dims) as u32;
            let all = larger(dims, set);
            let tried: Vec<u32> = [0; 3].map(|_| random.pick(&all)).into_iter().chain([set, cube::full(dims)]).collect();
            roads(&archive, dims, set, &tried, &format!("archive {i}, set {set}"));
        }
        let all = larger(dims, 0);
        let tried: Vec<u32> = all.iter().copied().filter(|by| by.count_ones() == 1).collect();
        roads(&archive, dims, 0, &tried, &format!("archive {i}, the grand total"));
    }
}

/// Where there is no record, no cell of a larger set agrees with the question.
#[test]
fn no_record_by_any_road() {
    let mut random = Random::seeded(703);
    let mut without = 0;
    for i in 0..200 {
        let dims = 1 + i % 6;
        let archive = archive(dims, &mut random.part());
        let accepted = calls::model::open(&archive).unwrap();
        for _ in 0..5 {
            let question = random.question(&accepted);
            let set = (0..dims).filter(|&i| question[i] != ALL).map(|i| 1 << i).sum();
            let by = random.pick(&larger(dims, set));
            for (name, calls) in subjects() {
                let asked = Asked { calls, archive: &archive, dims };
                let (cells, total) = road(&asked.cells(by), &question, set);
                let answer = asked.answer(&question);
                assert_eq!((cells > 0).then_some(total), answer, "{name}, archive {i}, {question:?} by set {by}");
                without += usize::from(answer.is_none());
            }
        }
    }
    assert!(without > 50, "only {without} questions without a record");
}

/// No cells add up to the zero total; by the empty set it is its own cell.
#[test]
fn an_archive_without_rows() {
    for dims in 1..=8 {
        let table = table_bytes(&vec![3; dims], &[]);
        for (name, calls) in subjects() {
            let mut out = [0; 200];
            let length = calls.build(&table, &mut out).unwrap();
            let asked = Asked { calls, archive: &out[..length], dims };
            let all = vec![ALL; dims];
            assert_eq!(asked.answer(&all), Some((0, 0)), "{name}, D {dims}");
            for by in cube::lattice(dims) {
                assert_eq!(road(&asked.cells(by), &all, 0), (usize::from(by == 0), (0, 0)), "{name}, D {dims}, by set {by}");
            }
        }
    }
}
