//! The empty table (document 02, C-14) at every D: one cell, all ALL, with sum 0 and count 0, held as one normal entry. Each call and both
//! programs, outputs of every length round the result's, and archives that lack the cell.
use calls::calls::{Calls, Found, Stop};
use calls::compare::{subjects, Compare, BUILD, EXPAND, LIST, LOOK_UP};
use calls::lent::Lent;
use calls::model::programs::edition;
use calls::model::{self, build_edition, cube, ALL};
use calls::printed::{check, same};
use calls::program::Program::{Builder, Lister};
use calls::write::{cuboid_bytes, table_bytes, File};

/// Sizes for each D: the least, the greatest, and mixed.
fn all_sizes() -> impl Iterator<Item = Vec<u32>> {
    (1..=8).flat_map(|dims| [vec![1; dims], vec![65_535; dims], (0..dims as u32).map(|i| 1 + i * 9_362).collect()])
}

fn table(sizes: &[u32]) -> Vec<u8> {
    table_bytes(sizes, &[])
}

/// The archive, from its fields.
fn archive(sizes: &[u32]) -> Vec<u8> {
    File::archive().head(sizes, 0).word(1).normal(&vec![ALL; sizes.len()], 0, 0).closed()
}

/// The cuboid of set 0: a count of 1, and the cell.
fn one_cell(dims: usize) -> Vec<u8> {
    [&[1, 0, 0, 0], &[0xFF, 0xFF, 0, 0].repeat(dims)[..], &[0; 12]].concat()
}

/// A call writes these bytes into an output that is as long or longer, and nothing into a shorter one.
fn lengths(result: &[u8], what: &str, run: impl Fn(&dyn Calls, &mut [u8]) -> Result<usize, Stop>) {
    let rooms = [0, result.len() - 1, result.len(), result.len() + 1, result.len() + 100];
    for (room, (name, calls)) in rooms.into_iter().flat_map(|room| subjects().into_iter().map(move |s| (room, s))) {
        let want = model::fit(result, room);
        let mut lent = Lent::new(room, room % 5);
        let got = run(calls, lent.out());
        assert_eq!(got, want.map(<[u8]>::len), "{name}, {what}, output of {room}");
        assert_eq!(lent.written(got.unwrap_or(0)), Ok(want.unwrap_or_default()), "{name}, {what}, output of {room}");
    }
}

#[test]
fn it_is_built_and_checked() {
    for sizes in all_sizes() {
        let archive = archive(&sizes);
        assert_eq!(archive.len(), 32 + 8 * sizes.len());
        lengths(&archive, &format!("build, sizes {sizes:?}"), |calls, out| calls.build(&table(&sizes), out));
        for (name, calls) in subjects() {
            assert_eq!(calls.check(&archive), Ok((0, 1)), "{name}, sizes {sizes:?}");
        }
    }
}

/// All ALL is entry 0; every other cell needs a row, and a wrong question is still one.
#[test]
fn it_is_looked_up() {
    for sizes in all_sizes() {
        let (dims, archive) = (sizes.len(), archive(&sizes));
        let codes: Vec<u32> = sizes.iter().map(|size| size - 1).collect();
        for (name, calls) in subjects() {
            let ask = |question: &[u32]| calls.look_up(&archive, question);
            assert_eq!(ask(&vec![ALL; dims]), Ok(Some(Found { sum: 0, count: 0, entry: 0 })), "{name}, sizes {sizes:?}");
            for set in 1..1 << dims {
                assert_eq!(ask(&cube::cell(&codes, set)), Ok(None), "{name}, sizes {sizes:?}, set {set}");
            }
            for length in (0..12).filter(|&length| length != dims) {
                assert_eq!(ask(&vec![ALL; length]), Err(13), "{name}, sizes {sizes:?}, {length} codes");
            }
            for (dim, code) in (0..dims).flat_map(|dim| [sizes[dim], 65_536, u32::MAX].map(|code| (dim, code))) {
                let mut question = vec![ALL; dims];
                question[dim] = code;
                let want = if code == ALL { Ok(Some(Found { sum: 0, count: 0, entry: 0 })) } else { Err(13) };
                assert_eq!(ask(&question), want, "{name}, sizes {sizes:?}, {question:?}");
            }
        }
    }
}

#[test]
fn it_is_listed_and_expanded() {
    for sizes in all_sizes() {
        let (dims, archive) = (sizes.len(), archive(&sizes));
        for set in [0, 1, 1 << (dims - 1), cube::full(dims)] {
            let cuboid = if set == 0 { one_cell(dims) } else { vec![0; 4] };
            lengths(&cuboid, &format!("list, sizes {sizes:?}, set {set}"), |calls, out| calls.list_cuboid(&archive, set, out));
        }
        let expansion = [one_cell(dims), vec![0; 4 * ((1 << dims) - 1)]].concat();
        lengths(&expansion, &format!("expand, sizes {sizes:?}"), |calls, out| calls.expand(&archive, out));
        for (name, calls) in subjects() {
            for set in 1..1 << dims {
                let mut out = [7; 4];
                assert_eq!((calls.list_cuboid(&archive, set, &mut out), out), (Ok(4), [0; 4]), "{name}, sizes {sizes:?}, set {set}");
            }
            assert_eq!(calls.list_cuboid(&archive, 1 << dims, &mut []), Err(14), "{name}, sizes {sizes:?}");
        }
    }
}

/// What the builder prints the lister takes.
#[test]
fn the_programs_print_it() {
    for sizes in all_sizes() {
        let (dims, archive, what) = (sizes.len(), archive(&sizes), format!("sizes {sizes:?}"));
        same(Builder, &Builder.prints(&table(&sizes)), &build_edition(edition(), &table(&sizes)).unwrap(), &what);
        let text = format!("{dims} 0 1\n{}0 0\n", "* ".repeat(dims));
        same(Lister, &Lister.prints(&archive), text.as_bytes(), &what);
        same(Lister, &Lister.prints(&File::archive().head(&sizes, 0).word(0).closed()), b"refused 12\n", &what);
    }
}

/// The model says the same.
#[test]
fn the_model_has_it_too() {
    let mut compare = Compare::new();
    for sizes in all_sizes() {
        let (dims, what) = (sizes.len(), format!("sizes {sizes:?}"));
        let built = compare.table(&table(&sizes), &what).unwrap();
        assert_eq!(built, archive(&sizes), "{what}");
        let accepted = compare.archive(&built, &what).unwrap();
        assert_eq!((accepted.rows.len(), cuboid_bytes(accepted.edition, &accepted.normals)), (0, one_cell(dims)), "{what}");
        for set in [0, 1, cube::full(dims)] {
            compare.list(&built, &accepted, set, &what);
            compare.look_up(&built, &accepted, &cube::cell(&vec![0; dims], set), &what);
        }
        compare.expand(&built, &accepted, &what);
        check(Builder, &table(&sizes), &what);
        check(Lister, &built, &what);
    }
    compare.had(BUILD, &[0, 15]);
    compare.had(LOOK_UP, &[0]);
    compare.had(LIST, &[0, 15]);
    compare.had(EXPAND, &[0, 15]);
}

/// An archive that lacks the cell, or has it twice or beside a row, stops with 12 in every call.
#[test]
fn without_it_or_beside_a_row_an_archive_stops_with_12() {
    for sizes in all_sizes() {
        let all = vec![ALL; sizes.len()];
        let head = |bases: u32| File::archive().head(&sizes, bases);
        let row = || head(1).base(&vec![0; sizes.len()], 5, 1, &[0]);
        assert_eq!(subjects()[0].1.check(&row().word(0).closed()), Ok((1, 0)));
        let wrong = [
            head(0).word(0).closed(),
            head(0).word(2).normal(&all, 0, 0).normal(&all, 0, 0).closed(),
            head(0).word(1).normal(&all, 1, 0).closed(),
            head(0).word(1).normal(&all, 0, 1).closed(),
            head(0).word(1).normal(&vec![0; sizes.len()], 0, 0).closed(),
            row().no_rows(sizes.len()).closed(),
        ];
        for (s, (name, calls)) in wrong.iter().flat_map(|s| subjects().into_iter().map(move |subject| (s, subject))) {
            let mut lent = Lent::new(2_000, 0);
            assert_eq!(calls.check(s), Err(12), "{name}, sizes {sizes:?}");
            assert_eq!(calls.look_up(s, &all), Err(12), "{name}, sizes {sizes:?}");
            assert_eq!(calls.list_cuboid(s, 0, lent.out()), Err(12), "{name}, sizes {sizes:?}");
            assert_eq!(calls.expand(s, lent.out()), Err(12), "{name}, sizes {sizes:?}");
            assert_eq!(lent.written(0), Ok(&[][..]), "{name}, sizes {sizes:?}");
        }
        let none = head(1).base(&vec![0; sizes.len()], 0, 0, &[0]).no_rows(sizes.len()).closed();
        for (name, calls) in subjects() {
            assert_eq!(calls.check(&none), Err(8), "{name}: a base entry of count 0, sizes {sizes:?}");
        }
    }
}
