//! The groups of all nodes, and our lists.
use super::levels::Levels;
use crate::good::columns::Column;
use crate::good::groups::Groups;
use crate::good::measure::Ranged;
use crate::good::read::le;
use crate::good::rows::{RowSet, Rows};
use crate::good::split::Splitter;
use crate::ROWS;

pub struct Condensed {
    /// For each row the nodes that its base entry lists.
    pub lists: Vec<Vec<u16>>,
    /// For each node its groups.
    pub groups: Vec<Groups>,
    splitter: Splitter,
    /// The place of each dimension's first column, which is that of level 0.
    first: [usize; 8],
}

/// The codes of all rows at the level of each dimension, or none for ALL.
type Columns<'a> = [Option<&'a [u16; ROWS]>; 8];

impl Condensed {
    /// With groups of one row if `all` are wanted.
    pub fn of(rows: &Rows<Ranged>, levels: &Levels, all: bool) -> Condensed {
        let (splitter, first) = splitter(rows, levels);
        let mut groups: Vec<Groups> = vec![];
        groups.resize_with(levels.nodes, Groups::default);
        let mut condensed = Condensed { lists: vec![vec![]; rows.len()], groups, splitter, first };
        condensed.groups[levels.nodes - 1] = Groups::whole(rows.len());
        let mut singles = vec![RowSet::default(); levels.nodes];
        if rows.len() == 1 {
            condensed.lists[0].push(levels.nodes as u16 - 1);
            singles[levels.nodes - 1].add(0);
        }
        let mut at: [usize; 8] = std::array::from_fn(|dim| if dim < levels.dims() { levels.all(dim) } else { 0 });
        for node in levels.falling().skip(1) {
            step(&mut at, levels);
            condensed.add_node(node, &at, levels, &mut singles, all);
        }
        condensed
    }

    /// A node's groups, from those of the node with its last dimension at ALL. A row single at a coarser node is single at this one too; it
    /// needs no look unless all groups are wanted.
    fn add_node(&mut self, node: usize, at: &[usize; 8], levels: &Levels, singles: &mut [RowSet], all: bool) {
        let (mut single, mut factor, mut last, mut parent) = (RowSet::default(), 1, 0, node);
        for (dim, &level) in at[..levels.dims()].iter().enumerate() {
            if level < levels.all(dim) {
                single.join(&singles[node + factor]);
                (last, parent) = (dim, node + factor * (levels.all(dim) - level));
            }
            factor *= levels.all(dim) + 1;
        }
        let without = if all { RowSet::default() } else { single };
        let (groups, lone) = self.splitter.split(&self.groups[parent], self.first[last] + at[last], &without, all);
        for row in lone.iter().map(|&row| row as usize) {
            if !single.has(row) && node != 0 {
                single.add(row);
                self.lists[row].push(node as u16);
            }
        }
        self.groups[node] = groups;
        singles[node] = single;
    }

    /// All groups of a node.
    pub fn all_groups(&mut self, levels: &Levels, node: usize) -> Groups {
        let mut groups = Groups::whole(self.lists.len());
        for (dim, level) in levels.of(node).into_iter().enumerate().take(levels.dims()) {
            if level < levels.all(dim) {
                groups = self.splitter.split(&groups, self.first[dim] + level, &RowSet::default(), true).0;
            }
        }
        groups
    }

    /// How many normal entries there are.
    pub fn normals(&self) -> usize {
        self.groups.iter().map(|groups| groups.shared).sum()
    }

    pub fn columns(&self, levels: &Levels, node: usize) -> Columns<'_> {
        let at = levels.of(node);
        let column = |dim: usize| &self.splitter.columns[self.first[dim] + at[dim]].codes;
        std::array::from_fn(|dim| (dim < levels.dims() && at[dim] < levels.all(dim)).then(|| column(dim)))
    }
}

/// One node lower.
fn step(at: &mut [usize; 8], levels: &Levels) {
    for (dim, level) in at[..levels.dims()].iter_mut().enumerate() {
        if *level > 0 {
            *level -= 1;
            return;
        }
        *level = levels.all(dim);
    }
}

/// A column for each level of each dimension, and the places of the dimensions' first ones.
fn splitter(rows: &Rows<Ranged>, levels: &Levels) -> (Splitter, [usize; 8]) {
    let mut columns: Vec<Column> = vec![];
    let mut first = [0; 8];
    for (dim, tables) in levels.tables.iter().enumerate() {
        first[dim] = columns.len();
        columns.push(Column::of(rows.len(), rows.codes.iter().map(|codes| codes[dim])));
        for table in tables {
            let below = columns[columns.len() - 1].codes;
            let code = |&code: &u16| le(&table[4 * code as usize..4 * code as usize + 4]) as u16;
            columns.push(Column::of(rows.len(), below[..rows.len()].iter().map(code)));
        }
    }
    (Splitter::of(columns), first)
}
