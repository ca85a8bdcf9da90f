//! An archive, and the calls on it with decoded results.
use crate::cell::Cuboid;
use crate::code::{to_word, Code};
use crate::entries::Entries;
use crate::fields::Fields;
use crate::head::Head;
use crate::raw::{self, Counts, Found, Seen};
use crate::room;
use crate::stop::Stop;

/// The bytes of an archive that was accepted once.
///
/// Each call still reads and checks all of them, since the library trusts no earlier check. The bytes cannot change, so the
/// stops 1 to 12 do not occur again.
#[derive(Clone, Debug, PartialEq, Eq)]
pub struct Archive {
    bytes: Vec<u8>,
    head: Head,
}

impl Archive {
    /// Builds the archive of a table. Stops: 1 to 6, 10 and 11.
    pub fn build(table: &[u8]) -> Result<Archive, Stop> {
        let room = Head::read(table).map_or(0, |head| room::archive(head.dims, head.rows));
        Ok(Archive::accepted(written(room, |out| raw::build(table, out))?))
    }

    /// Accepts the bytes of an archive. Stops: 1 to 12.
    pub fn open(bytes: Vec<u8>) -> Result<Archive, Stop> {
        raw::check(&bytes)?;
        Ok(Archive::accepted(bytes))
    }

    fn accepted(bytes: Vec<u8>) -> Archive {
        let head = Head::read(&bytes).expect("an accepted archive has a head");
        Archive { bytes, head }
    }

    /// The archive as a file holds it.
    pub fn as_bytes(&self) -> &[u8] {
        &self.bytes
    }

    /// The archive as a file holds it.
    pub fn into_bytes(self) -> Vec<u8> {
        self.bytes
    }

    /// The size of each dimension: how many codes it has.
    pub fn sizes(&self) -> Vec<u16> {
        let sizes = self.bytes[8..8 + 4 * self.head.dims].chunks_exact(4);
        sizes.map(|size| u16::from_le_bytes([size[0], size[1]])).collect()
    }

    /// Checks the archive once more; its base count and normal count.
    pub fn check(&self) -> Result<Counts, Stop> {
        raw::check(&self.bytes)
    }

    /// The entries as the bytes hold them.
    ///
    /// ```
    /// use cube_archive::{Archive, Table};
    ///
    /// let mut table = Table::new(&[1, 2])?;
    /// table.push(&[0, 0], 5)?;
    /// table.push(&[0, 1], 0)?;
    /// let archive = Archive::build(&table.to_bytes())?;
    /// assert_eq!(archive.entries().to_string(), "2 2 2\n0 0 5 1 : 2\n0 1 0 1 : 2\n* * 5 2\n0 * 5 2\n");
    /// # Ok::<(), Box<dyn std::error::Error>>(())
    /// ```
    pub fn entries(&self) -> Entries {
        let mut fields = Fields(&self.bytes[8 + 4 * self.head.dims..]);
        Entries::read(&mut fields, self.head.dims).expect("an accepted archive has all its entries")
    }

    /// The sum and count of a cell, or `None` for 'no record'. The question has a code, or `None` for ALL, for each dimension.
    ///
    /// Stop 13 if it has other than D codes, or a code that is not below its size; `Some(65_535)` is such a code.
    ///
    /// An archive without rows has one cell, all ALL:
    ///
    /// ```
    /// use cube_archive::{Archive, Found, Table};
    ///
    /// let quarter = Archive::build(&Table::new(&[7, 6])?.to_bytes())?;
    /// assert_eq!(quarter.look_up(&[None, None])?, Some(Found { sum: 0, count: 0, entry: 0 }));
    /// assert_eq!(quarter.look_up(&[Some(0), None])?, None, "no record");
    /// # Ok::<(), Box<dyn std::error::Error>>(())
    /// ```
    pub fn look_up(&self, question: &[Code]) -> Result<Option<Found>, Stop> {
        let question: Vec<u32> = question.iter().copied().map(to_word).collect();
        raw::look_up(&self.bytes, &question)
    }

    /// The cells of a set. Dimension i, counted from 1, adds 2 to the power i-1 to the set's number.
    ///
    /// Stop 14 if the number is 2 to the power D or more.
    ///
    /// ```
    /// use cube_archive::{Archive, Cell, Table};
    ///
    /// let mut table = Table::new(&[2, 9])?;
    /// table.push(&[0, 4], 5)?;
    /// table.push(&[1, 4], -7)?;
    /// let archive = Archive::build(&table.to_bytes())?;
    /// let second = archive.list_cuboid(0b10)?;
    /// assert_eq!(second.cells, [Cell { codes: vec![None, Some(4)], sum: -2, count: 2 }]);
    /// # Ok::<(), Box<dyn std::error::Error>>(())
    /// ```
    pub fn list_cuboid(&self, set: u32) -> Result<Cuboid, Stop> {
        let room = room::cuboid(self.head.dims, self.head.rows);
        let bytes = written(room, |out| raw::list_cuboid(&self.bytes, set, out))?;
        Ok(self.decoded(&bytes, &[set]).remove(0))
    }

    /// The complete cube: all cuboids in lattice order.
    pub fn expand(&self) -> Result<Vec<Cuboid>, Stop> {
        let room = room::expansion(self.head.dims, self.head.rows);
        let bytes = written(room, |out| raw::expand(&self.bytes, out))?;
        Ok(self.decoded(&bytes, &lattice(self.head.dims)))
    }

    /// The smallest keys, in lattice order: each set on which no two base rows agree and which holds no other such set.
    ///
    /// A set is a key just if it holds one of them. With no base row or one, the empty set is the only one.
    ///
    /// ```
    /// use cube_archive::{Archive, Table};
    ///
    /// let mut table = Table::new(&[2, 2, 9])?;
    /// for (codes, reading) in [([0, 0, 4], 5), ([0, 1, 4], 6), ([1, 0, 7], 7), ([1, 1, 7], 8), ([1, 1, 7], 9)] {
    ///     table.push(&codes, reading)?;
    /// }
    /// let archive = Archive::build(&table.to_bytes())?;
    /// assert_eq!(archive.smallest_keys()?, [0b011, 0b110], "dimensions 1 and 2, and dimensions 2 and 3");
    /// # Ok::<(), Box<dyn std::error::Error>>(())
    /// ```
    pub fn smallest_keys(&self) -> Result<Vec<u32>, Stop> {
        let bytes = written(room::KEYS, |out| raw::smallest_keys(&self.bytes, out))?;
        let mut fields = Fields(&bytes);
        let keys = fields.word().and_then(|count| (0..count).map(|_| fields.word()).collect());
        Ok(keys.expect("the library lists as many keys as it says"))
    }

    /// Whether a set fixes a dimension, counted from 1: base rows that agree on the set agree on the dimension too.
    ///
    /// A set is a key just if it fixes every dimension. Stop 14 if the set's number is 2 to the power D or more, then 16 if the
    /// dimension is not 1 to D.
    ///
    /// ```
    /// use cube_archive::{Archive, Stop, Table};
    ///
    /// let mut table = Table::new(&[3, 2])?;
    /// for codes in [[0, 0], [1, 1], [2, 1]] {
    ///     table.push(&codes, 1)?;
    /// }
    /// let archive = Archive::build(&table.to_bytes())?;
    /// assert_eq!(archive.fixes(0b01, 2), Ok(true), "the first code says which the second is");
    /// assert_eq!(archive.fixes(0b10, 1), Ok(false), "rows with second code 1 have first codes 1 and 2");
    /// assert_eq!(archive.fixes(0b10, 3), Err(Stop::Dimension));
    /// # Ok::<(), Box<dyn std::error::Error>>(())
    /// ```
    pub fn fixes(&self, set: u32, dimension: u32) -> Result<bool, Stop> {
        raw::fixes(&self.bytes, set, dimension)
    }

    /// A fee in whole cents, shared over the cells of a set by their counts: each cell's cents, in the order of [`Archive::list_cuboid`].
    ///
    /// Each cell gets its proportion rounded down; the cents left go one each to the largest remainders, to the earlier cell first if
    /// they are equal. So the shares add up to the fee.
    ///
    /// Stop 14 if the set's number is 2 to the power D or more, 23 if the fee is above 1,000,000,000 cents, 24 if there is no base row.
    ///
    /// ```
    /// use cube_archive::{Archive, Stop, Table};
    ///
    /// let mut table = Table::new(&[3])?;
    /// for code in [0, 1, 2, 2] {
    ///     table.push(&[code], 7)?;
    /// }
    /// let archive = Archive::build(&table.to_bytes())?;
    /// assert_eq!(archive.share_fee(1001, 0b1)?, [250, 250, 501]);
    /// assert_eq!(archive.share_fee(1002, 0b1)?, [251, 250, 501]);
    /// assert_eq!(archive.share_fee(1_000_000_001, 0b1), Err(Stop::Fee));
    /// # Ok::<(), Box<dyn std::error::Error>>(())
    /// ```
    pub fn share_fee(&self, fee: u32, set: u32) -> Result<Vec<u32>, Stop> {
        let bytes = written(room::fee(self.head.rows), |out| raw::share_fee(&self.bytes, fee, set, out))?;
        let mut fields = Fields(&bytes);
        let cells = fields.word().expect("the library writes the number of cells");
        Ok((0..cells).map(|_| fields.word().expect("and so many shares")).collect())
    }

    /// This archive and another, of the same dimensions and sizes, as one: the archive of both lists of base rows, folded.
    ///
    /// Each cell has the sums and counts of both. Which comes first does not matter; one without rows leaves the other's bytes.
    ///
    /// Stop 17 if the dimensions or sizes differ, 18 if the result has over 1,024 base rows or a total count over 1,048,576.
    ///
    /// ```
    /// use cube_archive::{Archive, Found, Stop, Table};
    ///
    /// let site = |rows: &[([u16; 2], i32)]| -> Result<Archive, Box<dyn std::error::Error>> {
    ///     let mut table = Table::new(&[7, 6])?;
    ///     for (codes, reading) in rows {
    ///         table.push(codes, *reading)?;
    ///     }
    ///     Ok(Archive::build(&table.to_bytes())?)
    /// };
    /// let here = site(&[([0, 1], 50), ([2, 3], 60)])?;
    /// let there = site(&[([2, 3], -10), ([4, 1], 5)])?;
    /// let both = here.join(&there)?;
    /// assert_eq!(both, there.join(&here)?);
    /// assert_eq!(both.look_up(&[Some(2), Some(3)])?, Some(Found { sum: 50, count: 2, entry: 1 }));
    /// assert_eq!(both.look_up(&[None, None])?.map(|all| (all.sum, all.count)), Some((105, 4)));
    /// assert_eq!(here.join(&site(&[])?)?, here, "no rows leave the other's bytes");
    /// let other = Archive::build(&Table::new(&[7, 7])?.to_bytes())?;
    /// assert_eq!(here.join(&other), Err(Stop::Sizes));
    /// # Ok::<(), Box<dyn std::error::Error>>(())
    /// ```
    pub fn join(&self, other: &Archive) -> Result<Archive, Stop> {
        let room = room::join(self.head.dims, self.head.rows, other.head.rows);
        Ok(Archive::accepted(written(room, |out| raw::join(&self.bytes, &other.bytes, out))?))
    }

    /// This archive with one record added: the archive of its base rows with the record folded in.
    ///
    /// Just the cells in which the record falls gain it, each by the reading and by one in count; every other cell keeps its values.
    ///
    /// Stop 13 if there are other than D codes, or one that is not below its size; 18 if the result has over 1,024 base rows or a total
    /// count over 1,048,576.
    ///
    /// ```
    /// use cube_archive::{Archive, Stop, Table};
    ///
    /// let mut table = Table::new(&[7, 6])?;
    /// table.push(&[0, 1], 50)?;
    /// let closed = Archive::build(&table.to_bytes())?;
    /// let late = closed.add(&[2, 1], -8)?;
    /// let amount = |archive: &Archive, cell: &[Option<u16>]| Ok::<_, Stop>(archive.look_up(cell)?.map(|found| (found.sum, found.count)));
    /// assert_eq!(amount(&late, &[None, Some(1)])?, Some((42, 2)));
    /// assert_eq!(amount(&late, &[Some(2), None])?, Some((-8, 1)));
    /// assert_eq!(amount(&late, &[Some(0), None])?, amount(&closed, &[Some(0), None])?);
    /// table.push(&[2, 1], -8)?;
    /// assert_eq!(late, Archive::build(&table.to_bytes())?, "as built afresh");
    /// assert_eq!(closed.add(&[2, 6], 1), Err(Stop::Question));
    /// # Ok::<(), Box<dyn std::error::Error>>(())
    /// ```
    pub fn add(&self, codes: &[u16], reading: i32) -> Result<Archive, Stop> {
        let codes: Vec<u32> = codes.iter().map(|&code| code.into()).collect();
        let room = room::add(self.head.dims, self.head.rows);
        Ok(Archive::accepted(written(room, |out| raw::add(&self.bytes, &codes, reading, out))?))
    }

    /// The sum and count of a cell through the window of a dimension, counted from 1, and a code, or `None` for 'no record'. The question,
    /// which is as that of [`Archive::look_up`], must have the window's code at its dimension.
    ///
    /// Archives of the same sizes that agree on the base rows in the window give every question the same answer. How long the call takes
    /// may depend on every row.
    ///
    /// Stop 16 if the dimension is not 1 to D, then 13 if the code is not below its size, then 13 for the question, then 20 if the
    /// question has another code there.
    ///
    /// ```
    /// use cube_archive::{Archive, Seen, Stop, Table};
    ///
    /// let mut table = Table::new(&[3, 2])?;
    /// for (codes, reading) in [([0, 0], 5), ([0, 1], 6), ([1, 1], 70)] {
    ///     table.push(&codes, reading)?;
    /// }
    /// let shared = Archive::build(&table.to_bytes())?;
    /// assert_eq!(shared.window(1, 0, &[Some(0), None]), Ok(Some(Seen { sum: 11, count: 2 })));
    /// assert_eq!(shared.window(1, 2, &[Some(2), None]), Ok(None), "no record");
    /// assert_eq!(shared.window(1, 0, &[Some(1), None]), Err(Stop::Window), "another chip");
    /// assert_eq!(shared.window(1, 0, &[None, Some(1)]), Err(Stop::Window), "all chips");
    /// # Ok::<(), Box<dyn std::error::Error>>(())
    /// ```
    pub fn window(&self, dimension: u32, code: u16, question: &[Code]) -> Result<Option<Seen>, Stop> {
        let question: Vec<u32> = question.iter().copied().map(to_word).collect();
        raw::window(&self.bytes, dimension, code.into(), &question)
    }

    /// The cuboids of these sets, which the bytes list one behind the other.
    fn decoded(&self, bytes: &[u8], sets: &[u32]) -> Vec<Cuboid> {
        let mut fields = Fields(bytes);
        let cuboids = sets.iter().map(|&set| Cuboid::read(&mut fields, self.head.dims, set));
        cuboids.collect::<Option<_>>().expect("the library lists whole cuboids")
    }
}

/// The sets of so many dimensions in lattice order: fewer dimensions first, then the smaller number.
fn lattice(dims: usize) -> Vec<u32> {
    let mut sets: Vec<u32> = (0..1 << dims).collect();
    sets.sort_by_key(|set| (set.count_ones(), *set));
    sets
}

/// What a call writes into so much room.
fn written(room: usize, call: impl FnOnce(&mut [u8]) -> Result<usize, Stop>) -> Result<Vec<u8>, Stop> {
    let mut out = vec![0; room];
    let length = call(&mut out)?;
    out.truncate(length);
    out.shrink_to_fit();
    Ok(out)
}
