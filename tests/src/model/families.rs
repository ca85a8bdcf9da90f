//! Families of chips (document 02, C-20): levels, nodes, and the cube over nodes as over sets.
use super::cube::{self, Base, Row, Total, ALL};
use super::{fields, standing};
use crate::calls::{Cell, Stop};
use crate::write::{family_archive_bytes, node_bytes};
use std::collections::BTreeMap;

/// A dimension of 1 to 4 levels: the size of each, level 0 being the codes, and the table from each level's codes to the next's.
#[derive(Clone, Debug, PartialEq, Eq)]
pub struct Dimension {
    pub sizes: Vec<u32>,
    pub tables: Vec<Vec<u32>>,
}

impl Dimension {
    /// Of one level.
    pub fn flat(size: u32) -> Dimension {
        Dimension { sizes: vec![size], tables: vec![] }
    }

    pub fn levels(&self) -> usize {
        self.sizes.len()
    }

    /// The code of a level over a code of level 0. "ALL lies above the top."
    fn code(&self, code: u32, level: usize) -> u32 {
        if level == self.levels() {
            return ALL;
        }
        self.tables[..level].iter().fold(code, |code, table| table[code as usize])
    }
}

/// The dimensions of a table or archive with families.
#[derive(Clone, Debug, PartialEq, Eq)]
pub struct Families(pub Vec<Dimension>);

impl Families {
    /// "The sum of factor times level, the first factor 1, each next one times the level count with ALL."
    pub fn number(&self, levels: &[usize]) -> u32 {
        let (mut id, mut factor) = (0, 1);
        for (dimension, level) in self.0.iter().zip(levels) {
            id += factor * level;
            factor *= dimension.levels() + 1;
        }
        id as u32
    }

    /// "Decode with remainder and quotient by the level counts with ALL in turn."
    pub fn levels(&self, node: u32) -> Vec<usize> {
        let mut rest = node as usize;
        let mut next = |dimension: &Dimension| {
            let level = rest % (dimension.levels() + 1);
            rest /= dimension.levels() + 1;
            level
        };
        self.0.iter().map(&mut next).collect()
    }

    /// How many nodes there are.
    pub fn nodes(&self) -> u32 {
        self.0.iter().map(|dimension| dimension.levels() as u32 + 1).product()
    }

    /// "Nodes go by falling number."
    pub fn falling(&self) -> impl Iterator<Item = u32> {
        (0..self.nodes()).rev()
    }

    /// The sizes of level 0.
    pub fn sizes(&self) -> Vec<u32> {
        self.0.iter().map(|dimension| dimension.sizes[0]).collect()
    }

    /// The cell that the codes fall in, at the node of these levels.
    pub fn cell(&self, codes: &[u32], levels: &[usize]) -> Vec<u32> {
        (0..codes.len()).map(|i| self.0[i].code(codes[i], levels[i])).collect()
    }

    /// Whether a cell of the node is the one of an empty table: all ALL, with sum 0 and count 0.
    fn empty(&self, rows: &[Row], node: u32) -> bool {
        rows.is_empty() && node == self.nodes() - 1
    }

    /// The cells of a node, by codes.
    pub fn cells(&self, rows: &[Row], node: u32) -> BTreeMap<Vec<u32>, Total> {
        let levels = self.levels(node);
        let mut cells: BTreeMap<Vec<u32>, Total> = BTreeMap::new();
        if self.empty(rows, node) {
            cells.insert(vec![ALL; self.0.len()], Total::default());
        }
        for row in rows {
            let total = cells.entry(self.cell(&row.codes, &levels)).or_default();
            *total = total.with(row);
        }
        cells
    }

    /// For each row whether it is single at the node: no other row falls in its cell.
    fn singles(&self, rows: &[Row], node: u32) -> Vec<bool> {
        let (levels, cells) = (self.levels(node), self.cells(rows, node));
        rows.iter().map(|row| cells[&self.cell(&row.codes, &levels)].rows == 1).collect()
    }

    /// Our lists: for each row the nodes at which it is single and that are finer than no other such node; "node 0 is never listed".
    fn lists(&self, rows: &[Row]) -> Vec<Vec<u32>> {
        let nodes: Vec<(u32, Vec<usize>, Vec<bool>)> =
            self.falling().filter(|&node| node != 0).map(|node| (node, self.levels(node), self.singles(rows, node))).collect();
        let list = |i: usize| {
            let singles: Vec<(u32, &[usize])> = nodes.iter().filter(|node| node.2[i]).map(|node| (node.0, &node.1[..])).collect();
            let coarsest = |(node, levels): &(u32, &[usize])| !singles.iter().any(|(other, over)| other != node && finer(levels, over));
            singles.iter().filter(|single| coarsest(single)).map(|single| single.0).collect()
        };
        (0..rows.len()).map(list).collect()
    }

    /// Our base entries.
    pub fn bases(&self, rows: &[Row]) -> Vec<Base> {
        rows.iter().cloned().zip(self.lists(rows)).map(|(row, list)| Base { row, list }).collect()
    }

    /// Our normal entries: the cells of other nodes than 0 in which two or more base rows fall, and that of an empty table.
    pub fn normals(&self, rows: &[Row]) -> Vec<(u32, Row)> {
        let cells = |node: u32| self.cells(rows, node).into_iter().map(move |cell| (node, cell));
        let all = self.falling().filter(|&node| node != 0).flat_map(cells);
        all.filter(|(_, (_, total))| total.rows >= 2 || rows.is_empty()).map(|(node, (codes, total))| (node, total.at(codes))).collect()
    }

    /// Our archive of base rows.
    pub fn archive_of(&self, rows: &[Row]) -> Vec<u8> {
        family_archive_bytes(self, &self.bases(rows), &self.normals(rows))
    }
}

/// "Finer nodes (no level higher)."
pub fn finer(levels: &[usize], others: &[usize]) -> bool {
    levels.iter().zip(others).all(|(level, other)| level <= other)
}

/// The archive of a table with families.
pub fn build(table: &[u8]) -> Result<Vec<u8>, Stop> {
    let table = fields::family_table(table)?;
    Ok(table.families.archive_of(&cube::folded(&table.rows)))
}

/// An archive with families that no stop on its own bytes refuses.
#[derive(Clone, Debug)]
pub struct Accepted {
    pub families: Families,
    pub rows: Vec<Row>,
    pub bases: Vec<Base>,
    pub normals: Vec<(u32, Row)>,
}

/// The archive, or the first stop. Number 12: a byte is not what the base entries require.
pub fn open(archive: &[u8]) -> Result<Accepted, Stop> {
    let fields::FamilyArchive { families, bases } = fields::family_archive(archive)?;
    let rows: Vec<Row> = bases.iter().map(|b| b.row.clone()).collect();
    let (bases, normals) = (families.bases(&rows), families.normals(&rows));
    if family_archive_bytes(&families, &bases, &normals) != archive {
        return Err(12);
    }
    Ok(Accepted { families, rows, bases, normals })
}

impl Accepted {
    /// What a check returns.
    pub fn counts(&self) -> (u32, u32) {
        (self.bases.len() as u32, self.normals.len() as u32)
    }

    /// "A number too high stops with 14."
    fn node(&self, node: u32) -> Result<Vec<usize>, Stop> {
        if node >= self.families.nodes() {
            return Err(14);
        }
        Ok(self.families.levels(node))
    }

    /// "Its number, then D codes; a number too high stops with 14, then a code not below its level's size, or not 65,535 just where the node has
    /// ALL, with 13."
    pub fn look_up(&self, node: u32, question: &[u32]) -> Result<Option<(Cell, u32)>, Stop> {
        let levels = self.node(node)?;
        let dimensions = &self.families.0;
        let right = |i: usize| dimensions[i].sizes.get(levels[i]).map_or(question[i] == ALL, |&size| question[i] < size);
        if question.len() != dimensions.len() || !(0..question.len()).all(right) {
            return Err(13);
        }
        let falls = |row: &Row| self.families.cell(&row.codes, &levels) == question;
        let total = Total::over(self.rows.iter().filter(|row| falls(row)));
        if total.rows == 0 && !self.families.empty(&self.rows, node) {
            return Ok(None);
        }
        let stands = |base: &Base| node == 0 || base.list.iter().any(|&listed| finer(&levels, &self.families.levels(listed)));
        let bases = self.bases.iter().map(|base| (&base.row, stands(base) && falls(&base.row)));
        let normals = self.normals.iter().map(|(at, normal)| (normal, *at == node && normal.codes == question));
        let entry = standing(bases.chain(normals), &total.at(question.to_vec()));
        Ok(Some((Cell { sum: total.sum, count: total.count, extremes: total.extremes }, entry)))
    }

    /// The cells of a node, listed in the shape of normal entries.
    pub fn list(&self, node: u32) -> Result<Vec<u8>, Stop> {
        self.node(node)?;
        let cells = self.families.cells(&self.rows, node).into_iter().map(|(codes, total)| total.at(codes));
        Ok(node_bytes(node, &cells.collect::<Vec<_>>()))
    }

    /// All nodes by falling number.
    pub fn expand(&self) -> Vec<u8> {
        self.families.falling().flat_map(|node| self.list(node).unwrap()).collect()
    }
}
