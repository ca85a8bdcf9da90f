//! The files read to base rows, with stops 1 to 11 and 19.
use super::codes::Codes;
use super::measure::{Measure, Total};
use super::rows::Rows;
use crate::calls::Stop;

/// Codes in one number, 16 bits each and dimension 1 in the highest: keys rise as codes do.
type Key = u128;

fn codes(key: Key) -> Codes {
    std::array::from_fn(|dim| (key >> (112 - 16 * dim)) as u16)
}

/// An archive's base rows, and the bytes of its lists and normal entries.
pub struct Archive<'a, M> {
    pub rows: Rows<M>,
    pub lists: Vec<&'a [u8]>,
    pub normals: &'a [u8],
}

/// The word of four bytes.
pub fn le(bytes: &[u8]) -> u32 {
    u32::from_le_bytes(bytes.try_into().unwrap())
}

pub fn word(s: &[u8], at: usize) -> Result<u32, Stop> {
    s.get(at..at + 4).map(le).ok_or(2)
}

/// D, the sizes, and the place behind them.
pub fn heading(s: &[u8], opening: &[u8; 4]) -> Result<(usize, [u32; 8], usize), Stop> {
    if !s.starts_with(opening) {
        return Err(1);
    }
    let dims = word(s, 4)? as usize;
    if !(1..=8).contains(&dims) {
        return Err(3);
    }
    let mut sizes = [0; 8];
    let mut at = 8;
    for size in &mut sizes[..dims] {
        *size = word(s, at)?;
        if !(1..=65_535).contains(size) {
            return Err(4);
        }
        at += 4;
    }
    Ok((dims, sizes, at))
}

/// A row count or base count.
fn row_count(s: &[u8], at: usize) -> Result<usize, Stop> {
    match word(s, at)? as usize {
        count @ 0..=1_024 => Ok(count),
        _ => Err(5),
    }
}

/// The key of the codes at a place.
fn key(s: &[u8], at: usize, sizes: &[u32]) -> Result<Key, Stop> {
    let mut key = 0;
    if let Some(codes) = s.get(at..at + 4 * sizes.len()) {
        for (code, &size) in codes.chunks_exact(4).map(le).zip(sizes) {
            if code >= size {
                return Err(6);
            }
            key = key << 16 | code as Key;
        }
        return Ok(key << (16 * (8 - sizes.len())));
    }
    for (i, &size) in sizes.iter().enumerate() {
        if word(s, at + 4 * i)? >= size {
            return Err(6);
        }
    }
    Err(2)
}

fn close(s: &[u8], at: usize) -> Result<(), Stop> {
    let check = word(s, at)?;
    if at + 4 < s.len() {
        return Err(10);
    }
    if check_word(&s[..at]) != check {
        return Err(11);
    }
    Ok(())
}

/// The sum of the words, modulo 2 to the power 32.
pub fn check_word(s: &[u8]) -> u32 {
    s.chunks_exact(4).map(le).fold(0, u32::wrapping_add)
}

/// The base rows of a table.
pub fn table<M: Measure>(s: &[u8]) -> Result<Rows<M>, Stop> {
    let (dims, sizes, at) = heading(s, b"FACT")?;
    table_rows(s, dims, sizes, at)
}

/// The base rows of a table whose row count is at a place, up to its end: rows sorted by key and folded.
pub fn table_rows<M: Measure>(s: &[u8], dims: usize, sizes: [u32; 8], at: usize) -> Result<Rows<M>, Stop> {
    let count = row_count(s, at)?;
    let mut at = at + 4;
    let mut read: Vec<(Key, i32)> = Vec::with_capacity(count);
    for _ in 0..count {
        let key = key(s, at, &sizes[..dims])?;
        read.push((key, word(s, at + 4 * dims)? as i32));
        at += 4 * dims + 4;
    }
    close(s, at)?;
    read.sort_unstable_by_key(|row| row.0);
    let mut rows = Rows::new(dims, sizes, count);
    for equal in read.chunk_by(|a, b| a.0 == b.0) {
        let mut total = M::START;
        equal.iter().for_each(|row| total.add(&M::record(row.1)));
        rows.push(codes(equal[0].0), total);
    }
    Ok(rows)
}

/// The sum and count of a base entry, with the total of counts up to it.
fn amount(s: &[u8], at: usize, readings: u64) -> Result<(Total, u64), Stop> {
    let sum = i64::from_le_bytes(s.get(at..at + 8).ok_or(2u32)?.try_into().unwrap());
    let count = word(s, at + 8)?;
    let wide = count as i64;
    let readings = readings + count as u64;
    if count == 0 || sum < wide * i32::MIN as i64 || sum > wide * i32::MAX as i64 || readings > 1_048_576 {
        return Err(8);
    }
    Ok((Total { sum, count }, readings))
}

/// The bytes of the list whose count is at a place.
fn list(s: &[u8], at: usize, longest: usize) -> Result<&[u8], Stop> {
    let count = word(s, at)? as usize;
    if count > longest {
        return Err(9);
    }
    s.get(at + 4..at + 4 + 4 * count).ok_or(2)
}

/// Base rows, their lists, and the place behind.
type Bases<'a, M> = (Rows<M>, Vec<&'a [u8]>, usize);

/// The base entries whose count is at a place, with lists of at most so many numbers.
pub fn bases<M: Measure>(s: &[u8], dims: usize, sizes: [u32; 8], at: usize, longest: usize) -> Result<Bases<'_, M>, Stop> {
    let count = row_count(s, at)?;
    let mut at = at + 4;
    let mut rows = Rows::new(dims, sizes, count);
    let mut lists = Vec::with_capacity(count);
    let mut readings = 0;
    let mut before = None;
    for _ in 0..count {
        let key = key(s, at, &sizes[..dims])?;
        if before.is_some_and(|before| before >= key) {
            return Err(7);
        }
        before = Some(key);
        let (total, with) = amount(s, at + 4 * dims, readings)?;
        let measure = M::read(total, s, at + 4 * dims + 12)?;
        let list = list(s, at + rows.width(), longest)?;
        at += rows.width() + 4 + list.len();
        readings = with;
        rows.push(codes(key), measure);
        lists.push(list);
    }
    Ok((rows, lists, at))
}

/// The bytes of normal entries of a width, whose count is at a place, up to the file's end.
pub fn normals(s: &[u8], at: usize, width: usize) -> Result<&[u8], Stop> {
    let length = word(s, at)? as usize * width;
    let normals = s.get(at + 4..at + 4 + length).ok_or(2u32)?;
    close(s, at + 4 + length)?;
    Ok(normals)
}

/// An archive's fields.
pub fn archive<M: Measure>(s: &[u8]) -> Result<Archive<'_, M>, Stop> {
    let (dims, sizes, at) = heading(s, M::OPENING)?;
    let (rows, lists, at) = bases::<M>(s, dims, sizes, at, 70)?;
    let normals = normals(s, at, rows.width())?;
    Ok(Archive { rows, lists, normals })
}
