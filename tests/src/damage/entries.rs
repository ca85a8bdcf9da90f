//! Right archives with entries, lists or sizes changed, and a right check word.
use crate::calls::Extremes;
use crate::model::editions::Edition;
use crate::model::{cube, Accepted, Base, Row};
use crate::random::Random;
use crate::write::archive_bytes;

/// So many changes, one at a time.
pub fn entries(archive: &Accepted, times: usize, random: &mut Random, mut see: impl FnMut(&[u8], &str)) {
    for _ in 0..times {
        let Accepted { edition, mut sizes, rows, mut bases, mut normals } = archive.clone();
        let done = match random.below(if edition == Edition::Two { 11 } else { 9 }) {
            0 => change_size(&mut sizes, random),
            1 | 2 if !bases.is_empty() => change_base(&mut bases, random),
            3 | 4 if !bases.is_empty() => change_list(sizes.len(), &mut bases, random),
            5 if !rows.is_empty() => add_normal(sizes.len(), &rows, &mut normals, random),
            6 | 7 if !normals.is_empty() => change_normal(&mut normals, random),
            9 if !bases.is_empty() => {
                let i = random.place(bases.len());
                change_extremes(&mut bases[i].row, random)
            }
            10 if !normals.is_empty() => {
                let i = random.place(normals.len());
                change_extremes(&mut normals[i], random)
            }
            _ => add_empty(sizes.len(), &mut normals),
        };
        see(&archive_bytes(edition, &sizes, &bases, &normals), &done);
    }
}

fn change_size(sizes: &mut [u32], random: &mut Random) -> String {
    let i = random.place(sizes.len());
    sizes[i] = random.pick(&[sizes[i] - 1, sizes[i] + 1, 1, 65_535, 65_536]);
    format!("size {i} is now {}", sizes[i])
}

pub fn change_base(bases: &mut Vec<Base>, random: &mut Random) -> String {
    let (i, j) = (random.place(bases.len()), random.place(bases.len()));
    match random.below(6) {
        0 => {
            bases.swap(i, j);
            format!("base entries {i} and {j} swapped")
        }
        1 => {
            let codes = bases[j].row.codes.clone();
            let old = std::mem::replace(&mut bases[i].row.codes, codes);
            bases[j].row.codes = old;
            format!("the codes of base entries {i} and {j} swapped")
        }
        2 => {
            bases.remove(i);
            format!("base entry {i} left out")
        }
        3 => {
            bases.insert(i, bases[i].clone());
            format!("base entry {i} twice")
        }
        4 => {
            bases[i].row.sum += random.pick(&[1, -1, 1 << 32]);
            format!("the sum of base entry {i} is now {}", bases[i].row.sum)
        }
        _ => {
            bases[i].row.count += 1;
            format!("the count of base entry {i} one higher")
        }
    }
}

/// Extremes known or unknown that were not, or wider or narrower ones: some fit, some do not.
pub fn change_extremes(row: &mut Row, random: &mut Random) -> String {
    let (least, greatest) = row.extremes.map_or((0, 0), |extremes| (extremes.least, extremes.greatest));
    let step = random.pick(&[1, -1, 1 << 31]);
    row.extremes = match random.below(4) {
        0 if row.extremes.is_some() => None,
        1 => Some(Extremes { least: least ^ step, greatest }),
        2 => Some(Extremes { least, greatest: greatest ^ step }),
        _ => Some(Extremes { least: random.reading(), greatest: random.reading() }),
    };
    format!("the extremes of the entry at {:?} are now {:?}", row.codes, row.extremes)
}

fn change_list(dims: usize, bases: &mut [Base], random: &mut Random) -> String {
    let i = random.place(bases.len());
    let other = bases[random.place(bases.len())].list.clone();
    let list = &mut bases[i].list;
    let set = random.below(1 << dims) as u32;
    let at = random.place(list.len() + 1);
    match random.below(8) {
        0 => list.insert(at, set),
        1 if at < list.len() => list[at] = set,
        2 if at < list.len() => list[at] |= set,
        3 if at < list.len() => list[at] &= set,
        4 if at < list.len() => drop(list.remove(at)),
        5 if at < list.len() => list.swap(at, 0),
        6 => *list = other,
        _ => list.push(random.pick(&[cube::full(dims), cube::full(dims) + 1, 0, 256, u32::MAX])),
    }
    list.truncate(70);
    format!("base entry {i} lists {list:?}")
}

/// One more normal entry where it belongs: a cell of any set, also one that is there already.
fn add_normal(dims: usize, rows: &[Row], normals: &mut Vec<Row>, random: &mut Random) -> String {
    let set = random.below(1 << dims) as u32;
    let row = &rows[random.place(rows.len())];
    let codes = cube::cell(&row.codes, set);
    let total = cube::Total::over(rows.iter().filter(|other| cube::agree(&row.codes, &other.codes, set)));
    let key = |codes: &[u32]| {
        let set: u32 = (0..dims).filter(|&i| codes[i] != cube::ALL).map(|i| 1 << i).sum();
        (set.count_ones(), set, codes.to_vec())
    };
    let at = normals.partition_point(|n| key(&n.codes) < key(&codes));
    let done = format!("the cell {codes:?} put in before normal entry {at}");
    normals.insert(at, total.at(codes));
    done
}

fn add_empty(dims: usize, normals: &mut Vec<Row>) -> String {
    normals.insert(0, Row::new(vec![cube::ALL; dims], 0, 0));
    "the total of no row put in".into()
}

fn change_normal(normals: &mut Vec<Row>, random: &mut Random) -> String {
    let (i, j) = (random.place(normals.len()), random.place(normals.len()));
    let dim = random.place(normals[i].codes.len());
    match random.below(6) {
        0 => {
            normals.swap(i, j);
            format!("normal entries {i} and {j} swapped")
        }
        1 => {
            normals.remove(i);
            format!("normal entry {i} left out")
        }
        2 => {
            normals.insert(i, normals[j].clone());
            format!("normal entry {j} once more before {i}")
        }
        3 => {
            normals[i].codes[dim] = random.pick(&[0, 1, cube::ALL, normals[j].codes[dim], normals[i].codes[dim] ^ 1 << 16]);
            format!("the codes of normal entry {i} are now {:?}", normals[i].codes)
        }
        4 => {
            normals[i].sum ^= 1 << random.below(64);
            format!("the sum of normal entry {i} is now {}", normals[i].sum)
        }
        _ => {
            normals[i].count ^= 1 << random.below(32);
            format!("the count of normal entry {i} is now {}", normals[i].count)
        }
    }
}
