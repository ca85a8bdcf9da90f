//! Random families: tables and archives with them, and questions.
use super::Random;
use crate::model::families::{Accepted, Dimension, Families};
use crate::model::{Row, ALL};
use crate::write::{family_archive_bytes, family_table_bytes};

impl Random {
    /// A dimension of so many levels. A next level may be smaller, larger or of size 1, and its table need not be onto.
    pub fn dimension(&mut self, size: u32, levels: usize) -> Dimension {
        let mut dimension = Dimension::flat(size);
        while dimension.levels() < levels {
            let below = dimension.sizes[dimension.levels() - 1];
            let size = match self.below(5) {
                0 => 1,
                1 => below,
                2 => (below + 1 + self.below(40) as u32).min(65_535),
                _ => 1 + self.below(below as u64) as u32,
            };
            let table = match self.below(3) {
                0 => (0..below).map(|code| code % size).collect(),
                1 => (0..below).map(|code| (code as u64 * size as u64 / below as u64) as u32).collect(),
                _ => (0..below).map(|_| self.code(size)).collect(),
            };
            dimension.sizes.push(size);
            dimension.tables.push(table);
        }
        dimension
    }

    /// Families of D dimensions with at most so many nodes.
    pub fn families(&mut self, dims: usize, most: u32) -> Families {
        let wide = self.one_in(8);
        let mut nodes = 1 << dims;
        let mut dimension = |_| {
            let levels = match self.below(2) {
                0 => 1,
                _ => 1 + self.place(4),
            };
            let levels = if nodes / 2 * (levels as u32 + 1) > most { 1 } else { levels };
            nodes = nodes / 2 * (levels as u32 + 1);
            let narrow = self.pick(&[1, 2, 3, 5, 9, 40]);
            let size = if wide { self.pick(&[1, 300, 4_096, 65_535]) } else { narrow };
            self.dimension(size, levels)
        };
        Families((0..dims).map(&mut dimension).collect())
    }

    pub fn family_table(&mut self, dims: usize, nodes: u32, count: usize) -> Vec<u8> {
        let families = self.families(dims, nodes);
        let rows = self.table_rows(&families.sizes(), count);
        family_table_bytes(&families, &rows)
    }

    /// An archive of ours with families.
    pub fn our_family(&mut self, dims: usize, nodes: u32, count: usize) -> Vec<u8> {
        let families = self.families(dims, nodes);
        let rows = self.ranged_rows(&families.sizes(), count);
        families.archive_of(&rows)
    }

    /// An archive with families, and with any lists and normal entries.
    pub fn any_family(&mut self, dims: usize, nodes: u32, count: usize) -> Vec<u8> {
        let families = self.families(dims, nodes);
        let rows = self.ranged_rows(&families.sizes(), count);
        let (bases, normals) = self.any_entries(dims, &rows);
        let normals: Vec<(u32, Row)> = normals.into_iter().map(|normal| (self.below(families.nodes() as u64 + 1) as u32, normal)).collect();
        family_archive_bytes(&families, &bases, &normals)
    }

    /// A question for a cell that may exist: that of a row at a node, now and then mixed with another row's or with any code; without rows
    /// often the highest node's.
    pub fn family_question(&mut self, archive: &Accepted) -> (u32, Vec<u32>) {
        let Accepted { families, rows, .. } = archive;
        let mut codes = self.codes(&families.sizes());
        if !rows.is_empty() && !self.one_in(8) {
            codes = rows[self.place(rows.len())].codes.clone();
            let i = self.place(codes.len());
            match self.below(4) {
                0 => codes[i..].copy_from_slice(&rows[self.place(rows.len())].codes[i..]),
                1 => codes[i] = self.code(families.0[i].sizes[0]),
                _ => {}
            }
        }
        let highest = rows.is_empty() && self.one_in(2);
        let node = if highest { families.nodes() - 1 } else { self.below(families.nodes() as u64) as u32 };
        let levels = families.levels(node);
        let mut question = families.cell(&codes, &levels);
        let i = self.place(question.len());
        if self.one_in(8) && levels[i] < families.0[i].levels() {
            question[i] = self.code(families.0[i].sizes[levels[i]]);
        }
        (node, question)
    }

    /// A question that is changed in its node, in one place or in its length: often a stop.
    pub fn odd_family_question(&mut self, archive: &Accepted) -> (u32, Vec<u32>) {
        let (mut node, mut question) = self.family_question(archive);
        let nodes = archive.families.nodes();
        let i = self.place(question.len());
        let level = archive.families.levels(node)[i];
        let size = archive.families.0[i].sizes.get(level).copied().unwrap_or(ALL);
        match self.below(9) {
            0 => question.truncate(i),
            1 => question.push(self.pick(&[0, ALL])),
            2 => question[i] = size,
            3 => question[i] = size - 1,
            4 => question[i] = self.pick(&[0, 65_534, ALL, 65_536, 1 << 31, u32::MAX]),
            5 => node = self.below(nodes as u64) as u32,
            6 => node = self.pick(&[nodes - 1, nodes, nodes + 1, 4_096, u32::MAX]),
            7 => (node, question) = (nodes, vec![]),
            _ => question.extend(vec![ALL; self.place(300)]),
        }
        (node, question)
    }
}
