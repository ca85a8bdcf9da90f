//! C-20: families of chips. Nodes and their numbers, tables and archives with families, questions, listings and expansions by node.
use calls::calls::{Cell, Extremes};
use calls::cases::{five_archive, five_rows, five_table};
use calls::compare::*;
use calls::damage;
use calls::kinds::{families, kinds};
use calls::landed::Request;
use calls::model::editions::Edition;
use calls::model::families::{build, finer, open, Accepted, Dimension, Families};
use calls::model::{self, build_edition, cube, fields, Row, ALL};
use calls::random::Random;
use calls::write::{family_table_bytes, table_bytes, File};
use calls::ROWS;
use std::collections::BTreeSet;

/// A dimension from the sizes and tables of its levels.
fn levels(sizes: &[u32], tables: &[&[u32]]) -> Dimension {
    Dimension { sizes: sizes.to_vec(), tables: tables.iter().map(|table| table.to_vec()).collect() }
}

/// Figure 6 of source document 000: three levels, two and one.
fn figure_6() -> Families {
    Families(vec![levels(&[4, 2, 1], &[&[0, 0, 1, 1], &[0, 0]]), levels(&[2, 2], &[&[1, 0]]), Dimension::flat(2)])
}

#[test]
fn the_nodes_of_figure_6() {
    let families = figure_6();
    assert_eq!(families.nodes(), 24);
    assert_eq!(families.levels(21), [1, 2, 1]);
    assert_eq!(families.levels(0), [0, 0, 0]);
    assert_eq!(families.levels(23), [3, 2, 1]);
    for node in 0..24 {
        assert_eq!(families.number(&families.levels(node)), node);
    }
    // Finer is no level higher, and not a smaller number.
    for (node, levels, is_finer) in
        [(0, [0, 0, 0], true), (20, [0, 2, 1], true), (21, [1, 2, 1], true), (3, [3, 0, 0], false), (22, [2, 2, 1], false)]
    {
        assert_eq!((families.levels(node), finer(&levels, &[1, 2, 1])), (levels.to_vec(), is_finer), "node {node}");
    }
}

/// Node 21 of figure 6 asked: the family of the first dimension, ALL in the others. Nodes 23 and 22 have one normal entry each, as the level of
/// one code groups as ALL does.
#[test]
fn node_21_of_figure_6() {
    let mut compare = Compare::new();
    let table = family_table_bytes(&figure_6(), &[(vec![0, 0, 0], 5), (vec![1, 1, 1], 7), (vec![2, 0, 1], -9)]);
    let s = compare.family_table(&table, "figure 6").unwrap();
    let accepted = compare.family_archive(&s, "figure 6").unwrap();
    let found = |sum, count, least, greatest| Cell { sum, count, extremes: Some(Extremes { least, greatest }) };
    for (node, question, want) in [
        (23, [ALL, ALL, ALL], Ok(Some((found(3, 3, -9, 7), 3)))),
        (22, [0, ALL, ALL], Ok(Some((found(3, 3, -9, 7), 4)))),
        (21, [0, ALL, ALL], Ok(Some((found(12, 2, 5, 7), 5)))),
        (21, [1, ALL, ALL], Ok(Some((found(-9, 1, -9, -9), 2)))),
        (21, [2, ALL, ALL], Err(13)),
        (21, [ALL, ALL, ALL], Err(13)),
        (21, [0, 0, ALL], Err(13)),
        (21, [0, ALL, 0], Err(13)),
        (24, [0, ALL, ALL], Err(14)),
    ] {
        compare.family_look_up(&s, &accepted, node, &question, "figure 6");
        assert_eq!(accepted.look_up(node, &question), want, "node {node}, {question:?}");
    }
}

/// Two chips of one family and one of another, on two ports: the bytes of the table and of the archive, field by field.
#[test]
fn a_small_archive_field_by_field() {
    let families = Families(vec![levels(&[3, 2], &[&[0, 0, 1]]), Dimension::flat(2)]);
    let rows = [(vec![0, 0], 5), (vec![1, 0], 7), (vec![2, 1], -9)];
    let table = File::family_table().word(2).words(&[3, 2]).words(&[2, 1]).word(2).words(&[0, 0, 1]);
    let table = table.word(3).words(&[0, 0]).reading(5).words(&[1, 0]).reading(7).words(&[2, 1]).reading(-9).closed();
    assert_eq!(family_table_bytes(&families, &rows), table);
    let one = |f: File, codes: [u32; 2], reading: i32, list: &[u32]| {
        let f = f.words(&codes).sum(reading as i64).word(1).word(1).reading(reading).reading(reading);
        f.word(list.len() as u32).words(list)
    };
    let cell = |f: File, node: u32, codes: [u32; 2], sum: i64, count: u32, least: i32, greatest: i32| {
        f.word(node).words(&codes).sum(sum).word(count).word(1).reading(least).reading(greatest)
    };
    // Levels of a node: 0 to 2 in the first dimension, with 2 for ALL, plus 3 times 0 or 1 in the second.
    let f = File::family_archive().word(2).words(&[3, 2]).words(&[2, 1]).word(2).words(&[0, 0, 1]);
    let f = one(one(f.word(3), [0, 0], 5, &[3]), [1, 0], 7, &[3]);
    let f = one(f, [2, 1], -9, &[4, 2]).word(4);
    let f = cell(cell(f, 5, [ALL, ALL], 3, 3, -9, 7), 4, [0, ALL], 12, 2, 5, 7);
    let archive = cell(cell(f, 2, [ALL, 0], 12, 2, 5, 7), 1, [0, 0], 12, 2, 5, 7).closed();
    let mut compare = Compare::new();
    assert_eq!(compare.family_table(&table, "a small table"), Ok(archive.clone()));
    let accepted = compare.family_archive(&archive, "a small archive").unwrap();
    assert_eq!(accepted.counts(), (3, 4));
    let found = |sum, count, least, greatest| Cell { sum, count, extremes: Some(Extremes { least, greatest }) };
    for (node, question, want) in [
        (5, [ALL, ALL], Ok(Some((found(3, 3, -9, 7), 3)))),
        (4, [0, ALL], Ok(Some((found(12, 2, 5, 7), 4)))),
        (4, [1, ALL], Ok(Some((found(-9, 1, -9, -9), 2)))),
        (3, [1, ALL], Ok(Some((found(7, 1, 7, 7), 1)))),
        (1, [0, 0], Ok(Some((found(12, 2, 5, 7), 6)))),
        (1, [0, 1], Ok(None)),
        (0, [2, 1], Ok(Some((found(-9, 1, -9, -9), 2)))),
        (6, [0, 0], Err(14)),
        (4, [2, ALL], Err(13)),
        (4, [0, 0], Err(13)),
        (4, [ALL, ALL], Err(13)),
        (0, [3, 0], Err(13)),
    ] {
        compare.family_look_up(&archive, &accepted, node, &question, "a small archive");
        assert_eq!(accepted.look_up(node, &question), want, "node {node}, {question:?}");
    }
    compare.family_expand(&archive, &accepted, "a small archive");
    let cells: Vec<usize> = accepted.families.falling().map(|node| accepted.list(node).unwrap().len() / 36).collect();
    assert_eq!(cells, [1, 2, 3, 2, 2, 3]);
}

/// Families of one level everywhere.
fn flat(sizes: &[u32]) -> Families {
    Families(sizes.iter().map(|&size| Dimension::flat(size)).collect())
}

/// "With one level everywhere the cells are those of the plain archive": node and set number add up to 2 to the power D, less 1.
#[test]
fn one_level_everywhere() {
    let mut random = Random::seeded(2_001);
    let mut compare = Compare::new();
    for i in 0..200 {
        let dims = 1 + i % 8;
        let (sizes, count) = (random.sizes(dims), random.row_count().min(30));
        let rows = if i == 2 { five_rows() } else { random.table_rows(&sizes, count) };
        let sizes = if i == 2 { vec![7, 6, 3] } else { sizes };
        let plain = model::open(&build_edition(Edition::Two, &table_bytes(&sizes, &rows)).unwrap()).unwrap();
        let what = format!("table {i}");
        let archive = compare.family_table(&family_table_bytes(&flat(&sizes), &rows), &what).unwrap();
        let accepted = compare.family_archive(&archive, &what).unwrap();
        let full = cube::full(dims);
        for node in accepted.families.falling() {
            let listed = accepted.list(node).unwrap();
            let bare: Vec<u8> = listed[4..].chunks(4 * dims + 28).flat_map(|cell| cell[4..].to_vec()).collect();
            assert_eq!([&listed[..4], &bare].concat(), plain.list_cuboid(full - node).unwrap(), "{what}, node {node}");
        }
        for (ours, plain) in accepted.bases.iter().zip(&plain.bases) {
            let mut sets: Vec<u32> = ours.list.iter().map(|node| full - node).collect();
            sets.sort_by_key(|set| (set.count_ones(), *set));
            assert_eq!((&ours.row, sets), (&plain.row, plain.list.clone()));
        }
        assert_eq!(accepted.counts(), plain.counts());
        let question = random.question(&plain);
        let node = (0..dims).filter(|&i| question[i] == ALL).map(|i| 1 << i).sum();
        compare.family_look_up(&archive, &accepted, node, &question, &what);
        let (cell, same) = (accepted.look_up(node, &question).unwrap(), plain.look_up_extremes(&question).unwrap());
        assert_eq!(cell.map(|found| found.0), same.map(|found| found.0));
    }
    compare.had(FAMILY_BUILD, &[0, 15]);
}

#[test]
fn no_rows() {
    let mut random = Random::seeded(2_002);
    let mut compare = Compare::new();
    for i in 0..80 {
        let families = random.families(1 + i % 8, 600);
        let top = families.nodes() - 1;
        let archive = compare.family_table(&family_table_bytes(&families, &[]), "no rows").unwrap();
        let accepted = compare.family_archive(&archive, "no rows").unwrap();
        let all = vec![ALL; families.0.len()];
        assert_eq!(accepted.normals, [(top, Row::new(all.clone(), 0, 0))]);
        assert_eq!(accepted.look_up(top, &all), Ok(Some((Cell { sum: 0, count: 0, extremes: None }, 0))));
        compare.family_expand(&archive, &accepted, "no rows");
        for node in [top, top - 1, top / 2, 0, top + 1] {
            compare.family_list(&archive, &accepted, node, "no rows");
            compare.family_look_up(&archive, &accepted, node, &all, "no rows");
        }
        for _ in 0..4 {
            let (node, question) = random.odd_family_question(&accepted);
            compare.family_look_up(&archive, &accepted, node, &question, "no rows");
        }
    }
}

/// An archive through all calls, with some questions and nodes.
fn all_calls(compare: &mut Compare, s: &[u8], what: &str, questions: usize, random: &mut Random) -> Accepted {
    let accepted = compare.family_archive(s, what).unwrap();
    compare.family_expand(s, &accepted, what);
    for _ in 0..questions {
        let (node, question) = random.family_question(&accepted);
        compare.family_look_up(s, &accepted, node, &question, what);
        let (node, question) = random.odd_family_question(&accepted);
        compare.family_look_up(s, &accepted, node, &question, what);
        compare.family_list(s, &accepted, random.below(accepted.families.nodes() as u64 + 1) as u32, what);
    }
    accepted
}

#[test]
fn random_families() {
    let mut random = Random::seeded(2_003);
    let mut compare = Compare::new();
    for i in 0..700 {
        let count = random.row_count().min(25);
        let what = format!("families {i}");
        let s = match i % 2 {
            0 => compare.family_table(&random.family_table(1 + i % 8, 700, count), &what).unwrap(),
            _ => random.our_family(1 + i % 8, 700, count),
        };
        all_calls(&mut compare, &s, &what, 3, &mut random.part());
    }
    compare.had(FAMILY_BUILD, &[0, 15]);
    compare.had(FAMILY_CHECK, &[0]);
    compare.had(FAMILY_LOOK_UP, &[0, 13, 14]);
    compare.had(FAMILY_LIST, &[0, 14, 15]);
    compare.had(FAMILY_EXPAND, &[0, 15]);
}

/// Every question at every node of small families: each cell that exists has just one entry, and no other has any.
#[test]
fn every_question() {
    let mut random = Random::seeded(2_004);
    let mut compare = Compare::new();
    for i in 0..60 {
        let dimensions = (0..1 + i % 3).map(|_| {
            let (size, levels) = (1 + random.below(3) as u32, 1 + random.place(4));
            random.dimension(size, levels)
        });
        let families = Families(dimensions.collect());
        let (count, what) = (random.place(9), format!("families {i}"));
        let rows = random.table_rows(&families.sizes(), count);
        let s = compare.family_table(&family_table_bytes(&families, &rows), &what).unwrap();
        let accepted = compare.family_archive(&s, &what).unwrap();
        let mut cells = 0;
        for node in families.falling() {
            let at = families.levels(node);
            let codes = |i: usize| families.0[i].sizes.get(at[i]).map_or(vec![ALL], |&size| (0..size.min(6)).collect());
            let questions = (0..at.len()).fold(vec![vec![]], |all: Vec<Vec<u32>>, i| {
                all.iter().flat_map(|front| codes(i).into_iter().map(move |code| [&front[..], &[code]].concat())).collect()
            });
            for question in questions {
                compare.family_look_up(&s, &accepted, node, &question, &what);
                cells += accepted.look_up(node, &question).unwrap().is_some() as usize;
            }
        }
        assert!(cells > 0, "{what}");
    }
}

/// All four rows of two codes are single at node 0, which is never listed, and at a level above that renames the codes.
#[test]
fn all_four_rows_of_two_codes() {
    let mut compare = Compare::new();
    let rows: Vec<_> = (0..4).map(|i| (vec![i / 2, i % 2], i as i32)).collect();
    for (first, list, counts) in [(Dimension::flat(2), &[][..], (4, 5)), (levels(&[2, 2], &[&[1, 0]]), &[1], (4, 7))] {
        let families = Families(vec![first, Dimension::flat(2)]);
        let s = compare.family_table(&family_table_bytes(&families, &rows), "four rows").unwrap();
        let accepted = all_calls(&mut compare, &s, "four rows", 2, &mut Random::seeded(2_012));
        assert_eq!(accepted.counts(), counts);
        assert!(accepted.bases.iter().all(|base| base.list == list));
    }
}

/// Each list is as short as can be: no listed node is finer than another, and the cells that it stands for are those of its row alone.
#[test]
fn lists() {
    let mut random = Random::seeded(2_005);
    for i in 0..150 {
        let count = random.row_count().min(20);
        let accepted = open(&random.our_family(1 + i % 8, 300, count)).unwrap();
        let families = &accepted.families;
        for (base, node) in accepted.bases.iter().flat_map(|base| families.falling().map(move |node| (base, node))) {
            let at = families.levels(node);
            let cell = families.cell(&base.row.codes, &at);
            let alone = accepted.rows.iter().filter(|row| families.cell(&row.codes, &at) == cell).count() == 1;
            let over = base.list.iter().filter(|&&listed| finer(&at, &families.levels(listed))).count();
            assert_eq!(alone, node == 0 || over > 0, "families {i}, node {node}");
            assert!(!base.list.contains(&node) || over == 1 && node != 0, "families {i}, node {node} is listed twice over");
        }
        assert!(accepted.bases.iter().all(|base| base.list.is_sorted_by(|a, b| a > b)));
    }
}

#[test]
fn damaged_tables() {
    let mut random = Random::seeded(2_006);
    let mut compare = Compare::new();
    for i in 0..160 {
        let s = random.family_table(1 + i % 8, 300, i % 7);
        let mut see = |b: &[u8], done: &str| drop(compare.family_table(b, &format!("table {i}: {done}")));
        if s.len() < 600 {
            damage::cuts(&s, &mut see);
            damage::fields(&s, &mut random.part(), &mut see);
        }
        damage::bytes(&s, 20, &mut random.part(), &mut see);
    }
    compare.had(FAMILY_BUILD, &[0, 1, 2, 3, 4, 5, 6, 10, 11, 15, 21]);
}

/// Families of too many nodes, with all else that can be wrong: 22 comes after every 21, and before the rows.
#[test]
fn damaged_files_of_too_many_nodes() {
    let mut random = Random::seeded(2_010);
    let mut compare = Compare::new();
    for i in 0..80 {
        let mut families = random.families(6 + i % 3, 4_096);
        while families.nodes() <= 4_096 {
            let (dim, levels) = (random.place(families.0.len()), 2 + random.place(3));
            families.0[dim] = random.dimension(3, levels);
        }
        let (rows, what) = (random.table_rows(&families.sizes(), i % 3), format!("families {i}"));
        let table = family_table_bytes(&families, &rows);
        assert_eq!(compare.family_table(&table, &what), Err(22));
        let archive = File::family_archive().families(&families).word(2_000).closed();
        assert_eq!(compare.family_archive(&archive, &what).err(), Some(22));
        for s in [table, archive].into_iter().filter(|s| s.len() < 1_500) {
            let mut see = |b: &[u8], done: &str| match b.starts_with(b"FAMT") {
                true => drop(compare.family_table(b, &format!("{what}: {done}"))),
                false => drop(compare.family_archive(b, &format!("{what}: {done}"))),
            };
            damage::cuts(&s, &mut see);
            damage::bytes(&s, 60, &mut random.part(), &mut see);
        }
    }
    compare.had(FAMILY_BUILD, &[2, 4, 21, 22]);
    compare.had(FAMILY_CHECK, &[1, 2, 4, 21, 22]);
}

#[test]
fn damaged_archives() {
    let mut random = Random::seeded(2_007);
    let mut compare = Compare::new();
    for i in 0..300 {
        let count = random.row_count().min(8);
        let s = match i % 4 {
            0 => random.any_family(1 + i % 8, 200, count),
            _ => random.our_family(1 + i % 8, 200, count),
        };
        let mut see = |b: &[u8], done: &str| drop(compare.family_archive(b, &format!("archive {i}: {done}")));
        if s.len() < 900 {
            damage::cuts(&s, &mut see);
            damage::fields(&s, &mut random.part(), &mut see);
        }
        damage::bytes(&s, 15, &mut random.part(), &mut see);
        if let Ok(accepted) = open(&s) {
            damage::families(&accepted, 25, &mut random.part(), &mut see);
        }
    }
    compare.had(FAMILY_CHECK, &[0, 1, 2, 3, 4, 5, 6, 7, 8, 9, 10, 11, 12, 19, 21]);
    compare.had(FAMILY_LOOK_UP, &[2, 11, 12, 19]);
    compare.had(FAMILY_LIST, &[2, 11, 12, 19]);
    compare.had(FAMILY_EXPAND, &[2, 11, 12, 19]);
}

/// So many dimensions of as many levels each, of size 2.
fn tall(dims: usize, levels: usize) -> Families {
    let dimension = Dimension { sizes: vec![2; levels], tables: vec![vec![0, 1]; levels - 1] };
    Families(vec![dimension; dims])
}

/// 4,096 nodes are as many as there can be; 22 waits for the last table, and goes before the row count.
#[test]
fn as_many_nodes_as_there_can_be() {
    let mut compare = Compare::new();
    let mut mixed = tall(8, 1);
    mixed.0[..4].clone_from_slice(&tall(4, 3).0);
    for (families, nodes) in [(tall(6, 3), 4_096), (mixed, 4_096), (tall(5, 4), 3_125), (tall(4, 4), 625)] {
        assert_eq!(families.nodes(), nodes);
        let rows = [(vec![0; families.0.len()], 3), (vec![1; families.0.len()], 4)];
        let s = compare.family_table(&family_table_bytes(&families, &rows), "many nodes").unwrap();
        let accepted = compare.family_archive(&s, "many nodes").unwrap();
        assert_eq!(accepted.counts(), (2, 1));
        for node in [nodes - 1, nodes, 4_096] {
            compare.family_list(&s, &accepted, node, "many nodes");
        }
    }
    // The next number that level counts with ALL multiply to.
    let (mut products, mut numbers) = (BTreeSet::from([1]), BTreeSet::new());
    for _ in 0..8 {
        products = products.iter().flat_map(|product| [2, 3, 4, 5].map(|levels| product * levels)).collect();
        numbers.extend(products.clone());
    }
    assert_eq!((numbers.contains(&4_096), numbers.range(4_097..).next()), (true, Some(&4_320)));
    let more = Families([4, 3, 3, 2, 2, 2, 1].iter().flat_map(|&levels| tall(1, levels).0).collect());
    assert_eq!(more.nodes(), 4_320);
    for families in [tall(6, 4), tall(7, 3), tall(8, 2), more] {
        assert!(families.nodes() > 4_096);
        assert_eq!(compare.family_table(&family_table_bytes(&families, &[]), "too many nodes"), Err(22));
        let cut = File::family_table().families(&families).cut();
        assert_eq!(compare.family_table(&cut, "too many nodes, cut behind the last table"), Err(22));
        assert_eq!(compare.family_table(&cut[..cut.len() - 1], "too many nodes, the last entry cut"), Err(2));
        let mut wrong = cut.clone();
        let last = wrong.len() - 4;
        wrong[last] = 2;
        assert_eq!(compare.family_table(&wrong, "too many nodes, the last entry too high"), Err(21));
    }
    assert_eq!(fields::family_table(&File::family_table().families(&tall(8, 4)).word(9_999).cut()).err(), Some(22));
}

/// Every call stops with 1 on files of another kind; the family's calls on plain files, all others on files with families.
#[test]
fn files_of_another_kind() {
    let rows = [(vec![0, 1, 1], 4), (vec![3, 0, 0], 5)];
    let table = family_table_bytes(&figure_6(), &rows);
    let archive = build(&table).unwrap();
    let two = build_edition(Edition::Two, &five_table()).unwrap();
    let mut out = [7; 2_000];
    for (name, calls) in subjects() {
        assert_eq!(calls.build(&table, &mut out), Err(1), "{name}");
        for s in [&table, &archive] {
            assert_eq!(calls.build(s, &mut out), Err(1), "{name}");
            assert_eq!(calls.check(s), Err(1), "{name}");
            assert_eq!(calls.look_up(s, &[ALL; 3]), Err(1), "{name}");
            assert_eq!(calls.list_cuboid(s, 0, &mut out), Err(1), "{name}");
            assert_eq!(calls.expand(s, &mut out), Err(1), "{name}");
            assert_eq!(calls.smallest_keys(s, &mut out), Err(1), "{name}");
            assert_eq!(calls.fixes(s, 0, 1), Err(1), "{name}");
            assert_eq!(calls.share_fee(s, 100, 0, &mut out), Err(1), "{name}");
            assert_eq!(calls.join(s, &five_archive(), &mut out), Err(1), "{name}");
            assert_eq!(calls.join(&five_archive(), s, &mut out), Err(1), "{name}");
        }
    }
    for (name, calls) in having(&[Request::C17, Request::C18, Request::C19]) {
        for s in [&table, &archive] {
            assert_eq!(calls.build_two(s, &mut out), Err(1), "{name}");
            assert_eq!(calls.convert(s, &mut out), Err(1), "{name}");
            assert_eq!(calls.look_up_extremes(s, &[ALL; 3]), Err(1), "{name}");
            assert_eq!(calls.add(s, &[0; 3], 1, &mut out), Err(1), "{name}");
            assert_eq!(calls.window(s, 1, 0, &[0, ALL, ALL]), Err(1), "{name}");
        }
    }
    for (name, calls) in having(&[Request::C20]) {
        assert_eq!(calls.family_build(&archive, &mut out), Err(1), "{name}");
        for s in [&five_table(), &five_archive(), &two, &table] {
            assert_eq!(calls.family_check(s), Err(1), "{name}");
            assert_eq!(calls.family_look_up(s, 0, &[0; 3]), Err(1), "{name}");
            assert_eq!(calls.family_list(s, 0, &mut out), Err(1), "{name}");
            assert_eq!(calls.family_expand(s, &mut out), Err(1), "{name}");
        }
        for s in [&five_table(), &five_archive(), &two] {
            assert_eq!(calls.family_build(s, &mut out), Err(1), "{name}");
        }
    }
    assert_eq!(out, [7; 2_000]);
}

/// Tables in which a level's entries run to the highest sizes, and codes as high.
#[test]
fn wide_levels() {
    let mut random = Random::seeded(2_008);
    let mut compare = Compare::new();
    let top = |size: u32, below: u32| (0..below).map(|code| (size - 1).saturating_sub(code)).collect::<Vec<u32>>();
    let wide = Dimension { sizes: vec![65_535, 65_535, 7, 65_535], tables: vec![top(65_535, 65_535), top(7, 65_535), top(65_535, 7)] };
    let families = Families(vec![wide.clone(), levels(&[1, 65_535], &[&[65_534]]), wide]);
    let rows = random.table_rows(&families.sizes(), 40);
    let s = compare.family_table(&family_table_bytes(&families, &rows), "wide levels").unwrap();
    let accepted = all_calls(&mut compare, &s, "wide levels", 12, &mut random);
    assert_eq!(accepted.families.nodes(), 75);
    let mut at = 8 + 12 + 12 + 4;
    for word in [65_535, 65_536, u32::MAX] {
        let mut wrong = s.clone();
        wrong[at..at + 4].copy_from_slice(&u32::to_le_bytes(word));
        assert_eq!(compare.family_archive(&wrong, "an entry too high").err(), Some(21));
        at += 4 * 1_000;
    }
}

/// Families of 4,096 nodes over tables of 1,024 rows.
#[test]
fn tables_of_1024_rows() {
    let mut random = Random::seeded(2_011);
    let mut compare = Compare::new();
    for (name, rows) in
        kinds(&mut random).into_iter().filter(|(name, _)| ["codes below 3", "codes below 2", "four codes by seven twos"].contains(name))
    {
        let rows: Vec<_> = rows.into_iter().map(|(codes, reading)| (codes[..6].to_vec(), reading)).collect();
        let families = families(&rows, &[3; 6]);
        assert_eq!((rows.len(), families.nodes()), (ROWS, 4_096));
        let s = compare.family_table(&family_table_bytes(&families, &rows), name).unwrap();
        all_calls(&mut compare, &s, name, 3, &mut random);
    }
}

/// Few rows and many at 4,096 nodes.
#[test]
fn many_rows_at_4096_nodes() {
    let mut random = Random::seeded(2_009);
    let mut compare = Compare::new();
    for count in [3, 60, 1_024] {
        let families = Families((0..6).map(|_| random.dimension(12, 3)).collect());
        assert_eq!(families.nodes(), 4_096);
        let rows = random.table_rows(&families.sizes(), count);
        let what = format!("{count} rows");
        let s = compare.family_table(&family_table_bytes(&families, &rows), &what).unwrap();
        let accepted = compare.family_archive(&s, &what).unwrap();
        for _ in 0..10 {
            let (node, question) = random.family_question(&accepted);
            compare.family_look_up(&s, &accepted, node, &question, &what);
            compare.family_list(&s, &accepted, node, &what);
        }
        if count < 1_024 {
            compare.family_expand(&s, &accepted, &what);
        }
    }
}
