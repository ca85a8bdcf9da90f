//! The library's expansions held to PostgreSQL's GROUP BY CUBE, on random tables. The script `postgres` starts a server and runs this.
use calls::calls::{Calls, Stop};
use calls::compare::hex;
use calls::kinds::{kinds, SIZES};
use calls::library::Library;
use calls::model::{cube, ALL};
use calls::random::Random;
use calls::write::table_bytes;
use calls::ROWS;
use std::io::{BufRead, BufReader, Lines, Write};
use std::process::{Child, ChildStdin, ChildStdout, Command, ExitCode, Stdio};

type Row = (Vec<u32>, i32);

/// Sizes and rows.
type Table = (Vec<u32>, Vec<Row>);

#[derive(Debug, PartialEq)]
struct Cell {
    set: u32,
    codes: Vec<u32>,
    sum: i64,
    count: u32,
}

/// A psql process. It finds the server by its environment and answers one script after the other.
struct Psql {
    process: Child,
    scripts: ChildStdin,
    answers: Lines<BufReader<ChildStdout>>,
}

impl Psql {
    fn start() -> Psql {
        let options = ["--no-psqlrc", "--quiet", "--no-align", "--tuples-only", "--set=ON_ERROR_STOP=1"];
        let mut process = Command::new("psql").args(options).stdin(Stdio::piped()).stdout(Stdio::piped()).spawn().expect("psql starts");
        let (scripts, answers) = (process.stdin.take().unwrap(), BufReader::new(process.stdout.take().unwrap()).lines());
        Psql { process, scripts, answers }
    }

    /// The lines that a script prints. All but a few words of it is read before the first line comes, so that nobody waits for a full pipe.
    fn lines(&mut self, script: &str) -> Vec<String> {
        writeln!(self.scripts, "{script}\n\\echo done").expect("psql reads");
        let mut lines = vec![];
        for line in &mut self.answers {
            let line = line.expect("psql writes");
            if line == "done" {
                return lines;
            }
            lines.push(line);
        }
        panic!("psql ended: {:?}", self.process.wait());
    }

    /// The cells of a table, in the order of an expansion.
    fn cells(&mut self, (sizes, rows): &Table) -> Vec<Cell> {
        let lines = self.lines(&script(sizes.len(), rows));
        let mut cells: Vec<Cell> = lines.iter().map(|line| answered(sizes.len(), line)).collect();
        let set = |cell: &Cell| (cell.set.count_ones(), cell.set);
        cells.sort_by(|a, b| set(a).cmp(&set(b)).then_with(|| a.codes.cmp(&b.codes)));
        cells
    }
}

/// A row as COPY takes it.
fn copied((codes, reading): &Row) -> String {
    codes.iter().map(|code| format!("{code}\t")).collect::<String>() + &format!("{reading}\n")
}

/// Loads rows and asks for their cube. GROUPING has a one for each dimension outside the set, the last one named in the lowest place.
fn script(dims: usize, rows: &[Row]) -> String {
    let names: Vec<String> = (1..=dims).map(|dim| format!("c{dim}")).collect();
    let columns: String = names.iter().map(|name| format!("{name} integer NOT NULL, ")).collect();
    let codes = names.join(", ");
    let turned = names.into_iter().rev().collect::<Vec<_>>().join(", ");
    let rows: String = rows.iter().map(copied).collect();
    format!(
        "CREATE TEMPORARY TABLE facts ({columns}reading integer NOT NULL);
COPY facts FROM STDIN;
{rows}\\.
SELECT GROUPING({turned}), {codes}, SUM(reading)::bigint, COUNT(*) FROM facts GROUP BY CUBE ({codes});
DROP TABLE facts;"
    )
}

/// The cell in a line of PostgreSQL's answer, where ALL is null and printed as nothing. So is the sum of an empty table's one cell, whose count
/// is 0: document 02 has the sum 0 there, and only the count is compared.
fn answered(dims: usize, line: &str) -> Cell {
    let fields: Vec<&str> = line.split('|').collect();
    let number = |i: usize| fields[i].parse::<i64>().unwrap_or_else(|e| panic!("{line}: {e}"));
    let code = |i: usize| if fields[i].is_empty() { ALL } else { number(i) as u32 };
    let count = number(dims + 2) as u32;
    let sum = if count == 0 && fields[dims + 1].is_empty() { 0 } else { number(dims + 1) };
    Cell { set: cube::full(dims) - number(0) as u32, codes: (1..=dims).map(code).collect(), sum, count }
}

/// The library's expansion of a table.
fn expansion(table: &[u8], out: &mut [u8]) -> Result<Vec<u8>, Stop> {
    let length = Library.build(table, out)?;
    let archive = out[..length].to_vec();
    let length = Library.expand(&archive, out)?;
    Ok(out[..length].to_vec())
}

/// The cells of an expansion as they stand there: for each set a count and so many cells. None if they do not fill it.
fn listed(dims: usize, expansion: &[u8]) -> Option<Vec<Cell>> {
    let mut words = expansion.chunks_exact(4).map(|word| u32::from_le_bytes(word.try_into().unwrap()));
    let mut cells = vec![];
    for set in cube::lattice(dims) {
        for _ in 0..words.next()? {
            let codes = words.by_ref().take(dims).collect();
            let sum = words.next()? as i64 | (words.next()? as i64) << 32;
            cells.push(Cell { set, codes, sum, count: words.next()? });
        }
    }
    (expansion.len() == (4 << dims) + cells.len() * (4 * dims + 12)).then_some(cells)
}

/// What is wrong in the library's expansion of a table that has these cells, if anything is.
fn wrong(table: &[u8], dims: usize, cells: &[Cell], out: &mut [u8]) -> Option<String> {
    let expansion = match expansion(table, out) {
        Ok(expansion) => expansion,
        Err(stop) => return Some(format!("stop {stop}")),
    };
    let Some(listed) = listed(dims, &expansion) else { return Some(format!("counts that do not fit: {}", hex(&expansion))) };
    let at = (0..listed.len().max(cells.len())).find(|&i| listed.get(i) != cells.get(i))?;
    Some(format!("cell {at}: {:?}, PostgreSQL {:?}", listed.get(at), cells.get(at)))
}

/// Tables of each D: without rows, with one, with 1,024, and many with few; some with few codes, some with readings that cancel or that
/// add up to extremes. The large tables of all kinds.
fn tables(random: &mut Random) -> Vec<Table> {
    let mut tables = vec![];
    for i in 0..800 {
        let dims = 1 + i % 8;
        let sizes = if random.one_in(3) { vec![2 + random.below(3) as u32; dims] } else { random.sizes(dims) };
        let count = match i / 8 {
            0 => 0,
            1 => 1,
            2 => ROWS,
            _ => random.row_count(),
        };
        let mut rows = random.table_rows(&sizes, count);
        if random.one_in(3) {
            let readings: &[i32] = random.pick(&[&[0, 1, -1], &[0, i32::MIN, i32::MAX], &[i32::MIN], &[i32::MAX]]);
            rows.iter_mut().for_each(|row| row.1 = random.pick(readings));
        }
        tables.push((sizes, rows));
    }
    tables.extend(kinds(random).into_iter().map(|(_, rows)| (SIZES.to_vec(), rows)));
    tables
}

fn main() -> ExitCode {
    let tables = tables(&mut Random::seeded(601));
    let mut psql = Psql::start();
    println!("PostgreSQL {}", psql.lines("SHOW server_version;").concat());
    let mut out = vec![0; 256 * (4 + ROWS * 44)];
    let (mut compared, mut failed) = (0, 0);
    for (i, table) in tables.iter().enumerate() {
        let (sizes, rows) = table;
        let (cells, bytes) = (psql.cells(table), table_bytes(sizes, rows));
        compared += cells.len();
        if let Some(wrong) = wrong(&bytes, sizes.len(), &cells, &mut out) {
            println!("table {i}, D {}, {} rows: {wrong}\n{}", sizes.len(), rows.len(), hex(&bytes));
            failed += 1;
        }
    }
    println!("{} tables, {compared} cells compared", tables.len());
    println!("{} passed, {failed} failed", tables.len() - failed);
    ExitCode::from((failed > 0) as u8)
}
