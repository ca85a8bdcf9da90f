//! Stop 15: outputs of every length round the result's, at several places in memory. Bytes that are not written keep their values.
use calls::calls::{Calls, Stop};
use calls::cases::{five_archive, five_table};
use calls::compare::{having, subjects};
use calls::landed::Request;
use calls::lent::Lent;
use calls::model::editions::Edition;
use calls::model::families::{self, Dimension, Families};
use calls::model::{self, build_edition, cube, joins};

/// The call writes just these bytes where they fit, and nothing where they do not.
fn every_length(result: &[u8], what: &str, run: impl Fn(&dyn Calls, &mut [u8]) -> Result<usize, Stop>) {
    every_length_of(&[], result, what, run);
}

/// The same of a call that came with these requests.
fn every_length_of(requests: &[Request], result: &[u8], what: &str, run: impl Fn(&dyn Calls, &mut [u8]) -> Result<usize, Stop>) {
    for (room, (name, calls)) in (0..result.len() + 40).flat_map(|room| having(requests).into_iter().map(move |s| (room, s))) {
        let want = model::fit(result, room);
        let mut lent = Lent::new(room, room % 9);
        let got = run(calls, lent.out());
        assert_eq!(got, want.map(<[u8]>::len), "{name}, {what}, output of {room}");
        assert_eq!(lent.written(got.unwrap_or(0)), Ok(want.unwrap_or_default()), "{name}, {what}, output of {room}");
    }
}

#[test]
fn a_built_archive() {
    every_length(&five_archive(), "build", |calls, out| calls.build(&five_table(), out));
}

#[test]
fn each_cuboid() {
    let accepted = model::open(&five_archive()).unwrap();
    for set in cube::lattice(3) {
        let cuboid = accepted.list_cuboid(set).unwrap();
        every_length(&cuboid, &format!("set {set}"), |calls, out| calls.list_cuboid(&five_archive(), set, out));
    }
}

#[test]
fn an_expansion() {
    let expansion = model::open(&five_archive()).unwrap().expand();
    every_length(&expansion, "expand", |calls, out| calls.expand(&five_archive(), out));
}

#[test]
fn results_without_rows() {
    let table = calls::write::table_bytes(&[3, 3], &[]);
    let archive = model::build(&table).unwrap();
    let accepted = model::open(&archive).unwrap();
    every_length(&archive, "build", |calls, out| calls.build(&table, out));
    for set in cube::lattice(2) {
        let cuboid = accepted.list_cuboid(set).unwrap();
        every_length(&cuboid, &format!("set {set}"), |calls, out| calls.list_cuboid(&archive, set, out));
    }
    every_length(&accepted.expand(), "expand", |calls, out| calls.expand(&archive, out));
}

/// The set's stop comes before the output's.
#[test]
fn a_set_number_comes_before_the_output() {
    for (name, calls) in subjects() {
        assert_eq!(calls.list_cuboid(&five_archive(), 8, &mut []), Err(14), "{name}");
        assert_eq!(calls.list_cuboid(&five_archive(), 7, &mut []), Err(15), "{name}");
    }
}

#[test]
fn two_archives_joined() {
    let twice = joins::join(&five_archive(), &five_archive()).unwrap();
    every_length(&twice, "join", |calls, out| calls.join(&five_archive(), &five_archive(), out));
}

#[test]
fn edition_two() {
    let two = build_edition(Edition::Two, &five_table()).unwrap();
    let accepted = model::open(&two).unwrap();
    let c17 = [Request::C17];
    every_length_of(&c17, &two, "build two", |calls, out| calls.build_two(&five_table(), out));
    every_length_of(&c17, &two, "convert", |calls, out| calls.convert(&five_archive(), out));
    every_length_of(&c17, &accepted.expand(), "expand", |calls, out| calls.expand(&two, out));
    every_length_of(&c17, &accepted.list_cuboid(5).unwrap(), "set 5", |calls, out| calls.list_cuboid(&two, 5, out));
    let joined = joins::join(&two, &five_archive()).unwrap();
    every_length_of(&c17, &joined, "join", |calls, out| calls.join(&five_archive(), &two, out));
}

#[test]
fn a_late_reading() {
    let accepted = model::open(&five_archive()).unwrap();
    for codes in [[2, 3, 1], [3, 5, 0]] {
        let late = accepted.add(&codes, -4).unwrap();
        every_length_of(&[Request::C18], &late, "add", |calls, out| calls.add(&five_archive(), &codes, -4, out));
    }
}

#[test]
fn families_of_five_rows() {
    let level = |size: u32| Dimension { sizes: vec![size, 2], tables: vec![(0..size).map(|code| code / 4).collect()] };
    let families = Families(vec![level(7), level(6), Dimension::flat(3)]);
    let table = calls::write::family_table_bytes(&families, &calls::cases::five_rows());
    let archive = families::build(&table).unwrap();
    let accepted = families::open(&archive).unwrap();
    let c20 = [Request::C20];
    every_length_of(&c20, &archive, "build families", |calls, out| calls.family_build(&table, out));
    every_length_of(&c20, &accepted.expand(), "expand families", |calls, out| calls.family_expand(&archive, out));
    for node in families.falling() {
        let listed = accepted.list(node).unwrap();
        every_length_of(&c20, &listed, &format!("node {node}"), |calls, out| calls.family_list(&archive, node, out));
    }
    for (name, calls) in having(&c20) {
        assert_eq!(calls.family_list(&archive, families.nodes(), &mut []), Err(14), "{name}");
        assert_eq!(calls.family_list(&archive, 0, &mut []), Err(15), "{name}");
    }
}
