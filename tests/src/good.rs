//! The calls as fast plain Rust. The groups of rows that agree on a set come from those of the set without its last dimension, each
//! sorted by that dimension's code; a row alone in its group is left out of every larger set. The times are held against it.
mod add;
mod cells;
mod codes;
mod columns;
mod condense;
mod families;
mod fees;
mod fixed;
mod groups;
mod join;
mod look_up;
mod measure;
mod read;
mod rows;
mod split;
mod write;

use crate::calls::{Calls, Cell, Found, Stop};
use condense::Condensed;
use families::Family;
use measure::{Measure, Ranged, Total};
use rows::Rows;

/// An archive that passed all checks.
struct Checked<'a, M> {
    read: read::Archive<'a, M>,
    condensed: Condensed,
}

impl<'a, M: Measure> Checked<'a, M> {
    fn open(archive: &'a [u8]) -> Result<Checked<'a, M>, Stop> {
        Checked::with(archive, false)
    }

    /// With groups of one row if `all` are wanted.
    fn with(archive: &'a [u8], all: bool) -> Result<Checked<'a, M>, Stop> {
        let read = read::archive(archive)?;
        let condensed = Condensed::of(&read.rows, all);
        let listed = |(bytes, list): (&&[u8], &condense::List)| {
            bytes.len() == 4 * list.sets().len() && bytes.chunks_exact(4).zip(list.sets()).all(|(w, &set)| read::le(w) == set as u32)
        };
        let same = read.lists.iter().zip(&condensed.lists).all(listed)
            && read.normals.len() == condensed.normals() * read.rows.width()
            && cells::are_normals(&read.rows, &condensed, read.normals);
        if !same {
            return Err(12);
        }
        Ok(Checked { read, condensed })
    }
}

fn is_two(archive: &[u8]) -> bool {
    archive.starts_with(Ranged::OPENING)
}

/// The base rows of an archive of either edition, as edition two has them.
fn rows_two(archive: &[u8]) -> Result<Rows<Ranged>, Stop> {
    if is_two(archive) {
        return Ok(Checked::open(archive)?.read.rows);
    }
    Ok(Checked::<Total>::open(archive)?.read.rows.converted())
}

/// Something done with the measure of an archive's edition.
macro_rules! by_edition {
    ($archive:expr, $measure:ident, $run:block) => {
        if is_two($archive) {
            type $measure = Ranged;
            $run
        } else {
            type $measure = Total;
            $run
        }
    };
}

/// The baseline.
pub struct Good;

impl Calls for Good {
    fn build(&self, table: &[u8], out: &mut [u8]) -> Result<usize, Stop> {
        let rows = read::table::<Total>(table)?;
        write::archive(&rows, &Condensed::of(&rows, false), out)
    }

    fn check(&self, archive: &[u8]) -> Result<(u32, u32), Stop> {
        by_edition!(archive, M, {
            let read = Checked::<M>::open(archive)?.read;
            Ok((read.rows.len() as u32, (read.normals.len() / read.rows.width()) as u32))
        })
    }

    fn look_up(&self, archive: &[u8], question: &[u32]) -> Result<Option<Found>, Stop> {
        by_edition!(archive, M, {
            let checked = Checked::<M>::open(archive)?;
            let rows = &checked.read.rows;
            let (set, cell) = look_up::question(&rows.sizes[..rows.dims], question)?;
            let found = look_up::found(&checked, set, &cell).map(|(measure, entry)| (measure.total(), entry));
            Ok(found.map(|(Total { sum, count }, entry)| Found { sum, count, entry }))
        })
    }

    fn list_cuboid(&self, archive: &[u8], set: u32, out: &mut [u8]) -> Result<usize, Stop> {
        by_edition!(archive, M, {
            let Checked { read: read::Archive { rows, .. }, mut condensed } = Checked::<M>::open(archive)?;
            let set = set as usize;
            if set > rows.full() {
                return Err(14);
            }
            let groups = condensed.all_groups(set);
            let out = out.get_mut(..cells::length(&rows, set, &groups)).ok_or(15u32)?;
            cells::write_cuboid(&rows, set, &groups, out);
            Ok(out.len())
        })
    }

    fn expand(&self, archive: &[u8], out: &mut [u8]) -> Result<usize, Stop> {
        by_edition!(archive, M, {
            let Checked { read, condensed } = Checked::<M>::with(archive, true)?;
            let length_of = |set: usize| cells::length(&read.rows, set, &condensed.groups[set]);
            let length = codes::lattice(read.rows.dims).map(length_of).sum();
            let mut rest = out.get_mut(..length).ok_or(15u32)?;
            for set in codes::lattice(read.rows.dims) {
                let (out, behind) = rest.split_at_mut(length_of(set));
                cells::write_cuboid(&read.rows, set, &condensed.groups[set], out);
                rest = behind;
            }
            Ok(length)
        })
    }

    fn smallest_keys(&self, archive: &[u8], out: &mut [u8]) -> Result<usize, Stop> {
        let keys = by_edition!(archive, M, { fixed::keys(&Checked::<M>::open(archive)?) });
        let length = 4 + 4 * keys.len();
        let out = out.get_mut(..length).ok_or(15u32)?;
        out[..4].copy_from_slice(&(keys.len() as u32).to_le_bytes());
        for (place, key) in out[4..].chunks_exact_mut(4).zip(keys) {
            place.copy_from_slice(&(key as u32).to_le_bytes());
        }
        Ok(length)
    }

    fn fixes(&self, archive: &[u8], set: u32, dimension: u32) -> Result<bool, Stop> {
        by_edition!(archive, M, {
            let checked = Checked::<M>::open(archive)?;
            let (rows, set, dimension) = (&checked.read.rows, set as usize, dimension as usize);
            if set > rows.full() {
                return Err(14);
            }
            if !(1..=rows.dims).contains(&dimension) {
                return Err(16);
            }
            Ok(fixed::fixes(&checked, set, dimension - 1))
        })
    }

    fn share_fee(&self, archive: &[u8], fee: u32, set: u32, out: &mut [u8]) -> Result<usize, Stop> {
        by_edition!(archive, M, {
            let Checked { read: read::Archive { rows, .. }, mut condensed } = Checked::<M>::open(archive)?;
            let set = set as usize;
            if set > rows.full() {
                return Err(14);
            }
            if fee > 1_000_000_000 {
                return Err(23);
            }
            if rows.len() == 0 {
                return Err(24);
            }
            let mut counts = Vec::new();
            condensed.all_groups(set).each(&rows.totals, |_, _, measure| counts.push(measure.total().count));
            let out = out.get_mut(..4 + 4 * counts.len()).ok_or(15u32)?;
            fees::write(fee, &counts, out);
            Ok(out.len())
        })
    }

    fn join(&self, first: &[u8], second: &[u8], out: &mut [u8]) -> Result<usize, Stop> {
        if is_two(first) || is_two(second) {
            let first = rows_two(first)?;
            let rows = join::merged(&first, &rows_two(second)?)?;
            return write::archive(&rows, &Condensed::of(&rows, false), out);
        }
        let first = Checked::<Total>::open(first)?.read.rows;
        let rows = join::merged(&first, &Checked::open(second)?.read.rows)?;
        write::archive(&rows, &Condensed::of(&rows, false), out)
    }

    fn build_two(&self, table: &[u8], out: &mut [u8]) -> Result<usize, Stop> {
        let rows = read::table::<Ranged>(table)?;
        write::archive(&rows, &Condensed::of(&rows, false), out)
    }

    fn convert(&self, archive: &[u8], out: &mut [u8]) -> Result<usize, Stop> {
        let Checked { read, condensed } = Checked::<Total>::open(archive)?;
        write::archive(&read.rows.converted(), &condensed, out)
    }

    fn look_up_extremes(&self, archive: &[u8], question: &[u32]) -> Result<Option<(Cell, u32)>, Stop> {
        if is_two(archive) {
            let checked = Checked::<Ranged>::open(archive)?;
            let (set, cell) = look_up::question(&checked.read.rows.sizes[..checked.read.rows.dims], question)?;
            return Ok(look_up::found(&checked, set, &cell).map(|(measure, entry)| (measure.cell(), entry)));
        }
        let checked = Checked::<Total>::open(archive)?;
        let (set, cell) = look_up::question(&checked.read.rows.sizes[..checked.read.rows.dims], question)?;
        let Some((_, entry)) = look_up::found(&checked, set, &cell) else { return Ok(None) };
        let measure = look_up::total(&checked.read.rows.converted(), set, &cell).unwrap_or(Ranged::EMPTY);
        Ok(Some((measure.cell(), entry)))
    }

    fn add(&self, archive: &[u8], codes: &[u32], reading: i32, out: &mut [u8]) -> Result<usize, Stop> {
        by_edition!(archive, M, {
            let Checked { read: read::Archive { mut rows, .. }, condensed } = Checked::<M>::open(archive)?;
            let codes = add::codes(&rows.sizes[..rows.dims], codes)?;
            let condensed = add::record(&mut rows, condensed, codes, reading)?;
            write::archive(&rows, &condensed, out)
        })
    }

    fn window(&self, archive: &[u8], dimension: u32, code: u32, question: &[u32]) -> Result<Option<Cell>, Stop> {
        let rows = rows_two(archive)?;
        let dimension = dimension as usize;
        if !(1..=rows.dims).contains(&dimension) {
            return Err(16);
        }
        if code >= rows.sizes[dimension - 1] {
            return Err(13);
        }
        let (set, cell) = look_up::question(&rows.sizes[..rows.dims], question)?;
        if question[dimension - 1] != code {
            return Err(20);
        }
        Ok(look_up::total(&rows, set, &cell).map(|measure| measure.cell()))
    }

    fn family_build(&self, table: &[u8], out: &mut [u8]) -> Result<usize, Stop> {
        families::build(table, out)
    }

    fn family_check(&self, archive: &[u8]) -> Result<(u32, u32), Stop> {
        Ok(Family::open(archive, false)?.counts())
    }

    fn family_look_up(&self, archive: &[u8], node: u32, question: &[u32]) -> Result<Option<(Cell, u32)>, Stop> {
        let found = Family::open(archive, false)?.look_up(node, question)?;
        Ok(found.map(|(measure, entry)| (measure.cell(), entry)))
    }

    fn family_list(&self, archive: &[u8], node: u32, out: &mut [u8]) -> Result<usize, Stop> {
        Family::open(archive, false)?.list(node, out)
    }

    fn family_expand(&self, archive: &[u8], out: &mut [u8]) -> Result<usize, Stop> {
        Family::open(archive, true)?.expand(out)
    }
}
