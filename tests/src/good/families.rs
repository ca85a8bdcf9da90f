//! Archives with families. The nodes are walked by falling number, levels as an odometer: every coarser node comes before, and a row single
//! at one of them is left out. A node's groups come from those of the node with its last dimension at ALL, split by that level's column.
mod condense;
mod levels;

use super::cells::{is_cell, write};
use super::codes::Codes;
use super::groups::Groups;
use super::look_up::find;
use super::measure::{Measure, Ranged};
use super::read::{self, check_word, le};
use super::rows::Rows;
use super::write::Rest;
use crate::calls::Stop;
use condense::Condensed;
use levels::Levels;

/// The base rows of a file with families, and what they condense to.
struct Cube<'a> {
    levels: Levels<'a>,
    rows: Rows<Ranged>,
    condensed: Condensed,
}

impl Cube<'_> {
    /// The bytes of a cell or normal entry.
    fn width(&self) -> usize {
        4 + self.rows.width()
    }

    /// The cells of a node's groups of so many rows or more, by codes; the empty table's one cell, too.
    fn each(&self, node: usize, groups: &Groups, least: usize, mut see: impl FnMut(&Codes, Ranged)) {
        if node == self.levels.nodes - 1 && self.rows.len() == 0 {
            see(&[u16::MAX; 8], Ranged::EMPTY);
        }
        let columns = self.condensed.columns(&self.levels, node);
        groups.each(&self.rows.totals, |row, members, total| {
            if members >= least {
                see(&columns.map(|codes| codes.map_or(u16::MAX, |codes| codes[row])), total);
            }
        });
    }

    /// Writes cells into bytes that just hold them, as many as there are.
    fn write_cells(&self, node: usize, groups: &Groups, least: usize, out: &mut [u8]) {
        let mut places = out.chunks_exact_mut(self.width());
        self.each(node, groups, least, |cell, total| {
            let (number, place) = places.next().unwrap().split_at_mut(4);
            number.copy_from_slice(&(node as u32).to_le_bytes());
            write(cell, total, place);
        });
    }

    /// Whether the bytes, as many as a node's normal entries have, are theirs.
    fn are_normals(&self, node: usize, bytes: &[u8]) -> bool {
        let mut places = bytes.chunks_exact(self.width());
        let mut same = true;
        self.each(node, &self.condensed.groups[node], 2, |cell, total| {
            let (number, place) = places.next().unwrap().split_at(4);
            same &= le(number) == node as u32 && is_cell(cell, total, place);
        });
        same
    }

    /// How many cells the groups of a node have, all of which they are.
    fn cells(&self, node: usize, groups: &Groups) -> usize {
        if node == self.levels.nodes - 1 && self.rows.len() == 0 {
            1
        } else {
            groups.len()
        }
    }

    /// Writes a node into bytes that just hold it.
    fn write_node(&self, node: usize, groups: &Groups, out: &mut [u8]) {
        let (count, out) = out.split_at_mut(4);
        count.copy_from_slice(&((out.len() / self.width()) as u32).to_le_bytes());
        self.write_cells(node, groups, 1, out);
    }
}

/// Writes the archive of a table with families; its length.
pub fn build(table: &[u8], out: &mut [u8]) -> Result<usize, Stop> {
    let (dims, sizes, at) = read::heading(table, b"FAMT")?;
    let (levels, at) = Levels::read(table, &sizes[..dims], at)?;
    let rows = read::table_rows::<Ranged>(table, dims, sizes, at)?;
    let condensed = Condensed::of(&rows, &levels, false);
    let cube = Cube { levels, rows, condensed };
    let listed: usize = cube.condensed.lists.iter().map(Vec::len).sum();
    let normals = cube.condensed.normals();
    let length = at + 12 + cube.rows.len() * (cube.rows.width() + 4) + 4 * listed + normals * cube.width();
    let out = out.get_mut(..length).ok_or(15u32)?;
    let mut rest = Rest(out);
    rest.take(4).copy_from_slice(b"CUBF");
    rest.take(at - 4).copy_from_slice(&table[4..at]);
    rest.word(cube.rows.len() as u32);
    for ((codes, total), list) in cube.rows.codes.iter().zip(&cube.rows.totals).zip(&cube.condensed.lists) {
        write(codes, *total, rest.take(cube.rows.width()));
        rest.word(list.len() as u32);
        list.iter().for_each(|&node| rest.word(node as u32));
    }
    rest.word(normals as u32);
    for node in cube.levels.falling() {
        let groups = &cube.condensed.groups[node];
        cube.write_cells(node, groups, 2, rest.take(groups.shared * cube.width()));
    }
    let check = check_word(&out[..length - 4]);
    out[length - 4..].copy_from_slice(&check.to_le_bytes());
    Ok(length)
}

/// An archive with families that passed all checks.
pub struct Family<'a> {
    cube: Cube<'a>,
    normals: &'a [u8],
}

impl<'a> Family<'a> {
    /// With groups of one row if `all` are wanted.
    pub fn open(archive: &'a [u8], all: bool) -> Result<Family<'a>, Stop> {
        let (dims, sizes, at) = read::heading(archive, b"CUBF")?;
        let (levels, at) = Levels::read(archive, &sizes[..dims], at)?;
        let (rows, lists, at) = read::bases::<Ranged>(archive, dims, sizes, at, 4_096)?;
        let normals = read::normals(archive, at, rows.width() + 4)?;
        let condensed = Condensed::of(&rows, &levels, all);
        let cube = Cube { levels, rows, condensed };
        let listed = |(bytes, list): (&&[u8], &Vec<u16>)| {
            bytes.len() == 4 * list.len() && bytes.chunks_exact(4).zip(list).all(|(w, &node)| le(w) == node as u32)
        };
        let lists = lists.iter().zip(&cube.condensed.lists).all(listed);
        if !lists || normals.len() != cube.condensed.normals() * cube.width() {
            return Err(12);
        }
        let mut rest = normals;
        for node in cube.levels.falling() {
            let (bytes, behind) = rest.split_at(cube.condensed.groups[node].shared * cube.width());
            if !cube.are_normals(node, bytes) {
                return Err(12);
            }
            rest = behind;
        }
        Ok(Family { cube, normals })
    }

    /// The base count and the normal count.
    pub fn counts(&self) -> (u32, u32) {
        (self.cube.rows.len() as u32, self.cube.condensed.normals() as u32)
    }

    fn node(&self, node: u32) -> Result<usize, Stop> {
        let node = node as usize;
        if node >= self.cube.levels.nodes {
            return Err(14);
        }
        Ok(node)
    }

    pub fn look_up(&self, node: u32, question: &[u32]) -> Result<Option<(Ranged, u32)>, Stop> {
        let node = self.node(node)?;
        let wanted = self.cube.levels.question(node, question)?;
        Ok(self.normal(node, &wanted).or_else(|| self.base(node, &wanted)))
    }

    /// The base entry whose row alone falls in a cell.
    fn base(&self, node: usize, wanted: &Codes) -> Option<(Ranged, u32)> {
        let Cube { levels, rows, condensed } = &self.cube;
        let columns = condensed.columns(levels, node);
        let falls = |row: &usize| columns.iter().zip(wanted).all(|(column, code)| column.is_none_or(|codes| codes[*row] == *code));
        let i = (0..rows.len()).find(falls)?;
        Some((rows.totals[i], i as u32))
    }

    /// The normal entry at a cell.
    fn normal(&self, node: usize, wanted: &Codes) -> Option<(Ranged, u32)> {
        let (cube, width) = (&self.cube, self.cube.width());
        let groups = &cube.condensed.groups;
        let first: usize = groups[node + 1..].iter().map(|groups| groups.shared).sum();
        let entry = |i: usize| self.normals[i * width + 4..(i + 1) * width].split_at(4 * cube.rows.dims);
        let codes = |i: usize| entry(i).0.chunks_exact(4).map(|code| le(code) as u16);
        let i = find(first..first + groups[node].shared, |i| codes(i).cmp(wanted[..cube.rows.dims].iter().copied()))?;
        Some((Ranged::accepted(entry(i).1), (cube.rows.len() + i) as u32))
    }

    /// Writes the cells of a node; the length.
    pub fn list(mut self, node: u32, out: &mut [u8]) -> Result<usize, Stop> {
        let node = self.node(node)?;
        let groups = self.cube.condensed.all_groups(&self.cube.levels, node);
        let length = 4 + self.cube.cells(node, &groups) * self.cube.width();
        let out = out.get_mut(..length).ok_or(15u32)?;
        self.cube.write_node(node, &groups, out);
        Ok(length)
    }

    /// Writes the cells of all nodes, whose groups are there; the length.
    pub fn expand(&self, out: &mut [u8]) -> Result<usize, Stop> {
        let (cube, groups) = (&self.cube, &self.cube.condensed.groups);
        let length_of = |node: usize| 4 + cube.cells(node, &groups[node]) * cube.width();
        let length = cube.levels.falling().map(length_of).sum();
        let mut rest = Rest(out.get_mut(..length).ok_or(15u32)?);
        for node in cube.levels.falling() {
            cube.write_node(node, &groups[node], rest.take(length_of(node)));
        }
        Ok(length)
    }
}
