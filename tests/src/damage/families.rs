//! Right archives with families that have entries, lists or levels changed, and a right check word.
use super::entries::{change_base, change_extremes};
use crate::model::families::{Accepted, Families};
use crate::model::{Base, Row, ALL};
use crate::random::Random;
use crate::write::family_archive_bytes;

/// So many changes, one at a time.
pub fn families(archive: &Accepted, times: usize, random: &mut Random, mut see: impl FnMut(&[u8], &str)) {
    for _ in 0..times {
        let Accepted { mut families, rows, mut bases, mut normals } = archive.clone();
        let done = match random.below(9) {
            0 | 1 => change_levels(&mut families, random),
            2 if !bases.is_empty() => change_base(&mut bases, random),
            3 if !bases.is_empty() => {
                let i = random.place(bases.len());
                change_extremes(&mut bases[i].row, random)
            }
            4 | 5 if !bases.is_empty() => change_list(families.nodes(), &mut bases, random),
            6 if !rows.is_empty() => add_normal(&families, &rows, &mut normals, random),
            _ => change_normal(&families, &mut normals, random),
        };
        see(&family_archive_bytes(&families, &bases, &normals), &done);
    }
}

fn change_levels(families: &mut Families, random: &mut Random) -> String {
    let i = random.place(families.0.len());
    let dimension = &mut families.0[i];
    let level = random.place(dimension.levels());
    match random.below(4) {
        0 => dimension.sizes[level] = random.pick(&[dimension.sizes[level] - 1, dimension.sizes[level] + 1, 65_536]),
        1 if level > 0 => {
            let code = random.place(dimension.tables[level - 1].len());
            let size = dimension.sizes[level];
            dimension.tables[level - 1][code] = random.pick(&[0, size - 1, size, 65_535, u32::MAX]);
        }
        2 => {
            let size = dimension.sizes[dimension.levels() - 1];
            dimension.tables.push((0..size).collect());
            dimension.sizes.push(size);
        }
        _ if level > 0 => {
            dimension.tables.truncate(level - 1);
            dimension.sizes.truncate(level);
        }
        _ => families.0.rotate_left(1),
    }
    format!("the dimensions are now {:?}", families.0.iter().map(|dimension| &dimension.sizes).collect::<Vec<_>>())
}

fn change_list(nodes: u32, bases: &mut [Base], random: &mut Random) -> String {
    let i = random.place(bases.len());
    let other = bases[random.place(bases.len())].list.clone();
    let list = &mut bases[i].list;
    let node = random.below(nodes as u64) as u32;
    let at = random.place(list.len() + 1);
    match random.below(7) {
        0 => list.insert(at, node),
        1 if at < list.len() => list[at] = node,
        2 if at < list.len() => drop(list.remove(at)),
        3 if at < list.len() => list.swap(at, 0),
        4 => *list = other,
        5 => list.insert(at, *list.first().unwrap_or(&0)),
        _ => list.push(random.pick(&[0, nodes - 1, nodes, 4_096, u32::MAX])),
    }
    format!("base entry {i} lists {list:?}")
}

/// One more normal entry where it belongs: a cell of any node, also one that is there already.
fn add_normal(families: &Families, rows: &[Row], normals: &mut Vec<(u32, Row)>, random: &mut Random) -> String {
    let node = random.below(families.nodes() as u64) as u32;
    let cells = families.cells(rows, node);
    let (codes, total) = cells.iter().nth(random.place(cells.len())).unwrap();
    let at = normals.partition_point(|(other, normal)| (std::cmp::Reverse(*other), &normal.codes) < (std::cmp::Reverse(node), codes));
    normals.insert(at, (node, total.at(codes.clone())));
    format!("the cell {codes:?} of node {node} put in before normal entry {at}")
}

fn change_normal(families: &Families, normals: &mut Vec<(u32, Row)>, random: &mut Random) -> String {
    let nodes = families.nodes();
    if normals.is_empty() {
        normals.push((nodes - 1, Row::new(vec![ALL; families.0.len()], 0, 0)));
        return "the total of no row put in".into();
    }
    let (i, j) = (random.place(normals.len()), random.place(normals.len()));
    let dim = random.place(normals[i].1.codes.len());
    match random.below(8) {
        0 => normals.swap(i, j),
        1 => drop(normals.remove(i)),
        2 => normals.insert(i, normals[j].clone()),
        3 => normals[i].1.codes[dim] = random.pick(&[0, 1, ALL, normals[j].1.codes[dim], 1 << 16]),
        4 => normals[i].1.sum ^= 1 << random.below(64),
        5 => normals[i].1.count ^= 1 << random.below(32),
        6 => normals[i].0 = random.pick(&[0, nodes - 1, nodes, normals[j].0, normals[i].0 ^ 1]),
        _ => return format!("normal entry {i}: {}", change_extremes(&mut normals[i].1, random)),
    }
    format!("the normal entries {i} and {j} changed")
}
