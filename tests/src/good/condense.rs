//! The groups of all sets, and our lists.
use super::codes::lattice;
use super::columns::Column;
use super::groups::Groups;
use super::measure::Measure;
use super::rows::{RowSet, Rows};
use super::split::Splitter;
use std::ops::Range;

/// The sets that a base entry lists.
#[derive(Clone)]
pub struct List {
    sets: [u8; 70],
    len: u8,
}

impl List {
    pub fn sets(&self) -> &[u8] {
        &self.sets[..self.len as usize]
    }

    fn push(&mut self, set: usize) {
        self.sets[self.len as usize] = set as u8;
        self.len += 1;
    }
}

pub struct Condensed {
    pub lists: Vec<List>,
    /// For each set its groups.
    pub groups: Vec<Groups>,
    /// For each set the rows that are single on it.
    singles: Vec<RowSet>,
    splitter: Splitter,
}

impl Condensed {
    /// With groups of one row if `all` are wanted.
    pub fn of<M: Measure>(rows: &Rows<M>, all: bool) -> Condensed {
        let mut groups = vec![Groups::whole(rows.len())];
        groups.resize_with(1 << rows.dims, Groups::default);
        let lists = vec![List { sets: [0; 70], len: 0 }; rows.len()];
        let singles = vec![RowSet::default(); 1 << rows.dims];
        let column = |dim: usize| Column::of(rows.len(), rows.codes.iter().map(|codes| codes[dim]));
        let splitter = Splitter::of((0..rows.dims).map(column).collect());
        let mut condensed = Condensed { lists, groups, singles, splitter };
        if rows.len() == 1 {
            condensed.lists[0].push(0);
            condensed.singles[0].add(0);
        }
        for set in lattice(rows.dims).skip(1) {
            condensed.add_set(set, set == rows.full(), all);
        }
        condensed
    }

    /// A set's groups, from those of the set without its last dimension. A row single on a smaller set is single on this one too; it needs
    /// no look unless all groups are wanted.
    fn add_set(&mut self, set: usize, full: bool, all: bool) {
        let mut singles = RowSet::default();
        (0..8).filter(|dim| set >> dim & 1 == 1).for_each(|dim| singles.join(&self.singles[set ^ 1 << dim]));
        let last = set.ilog2() as usize;
        let without = if all { RowSet::default() } else { singles };
        let (groups, lone) = self.splitter.split(&self.groups[set ^ 1 << last], last, &without, all);
        for row in lone.iter().map(|&row| row as usize) {
            if !singles.has(row) && !full {
                singles.add(row);
                self.lists[row].push(set);
            }
        }
        self.groups[set] = groups;
        self.singles[set] = singles;
    }

    /// All groups of a set.
    pub fn all_groups(&mut self, set: usize) -> Groups {
        let dims = (0..8).filter(|dim| set >> dim & 1 == 1);
        dims.fold(Groups::whole(self.lists.len()), |groups, dim| self.splitter.split(&groups, dim, &RowSet::default(), true).0)
    }

    /// How many normal entries there are.
    pub fn normals(&self) -> usize {
        self.groups.iter().map(|groups| groups.shared).sum()
    }

    /// The numbers of a set's normal entries, counted from the first normal entry.
    pub fn range(&self, dims: usize, set: usize) -> Range<usize> {
        let first = lattice(dims).take_while(|&before| before != set).map(|before| self.groups[before].shared).sum();
        first..first + self.groups[set].shared
    }
}
