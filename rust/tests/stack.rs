//! Every call on a thread with no more than the stack that the crate names.
mod cube;

use cube::Records;
use cube_archive::{raw, room, STACK};
use std::thread::Builder;

#[test]
fn the_stack_is_enough() {
    let rows = (0..1_024).map(|i| ((0..8).map(|d| ((i * 7) >> d) & 31).collect(), 1)).collect();
    let largest = Records { sizes: vec![32; 8], rows };
    for records in [largest, Records::five()] {
        let (table, archive) = (records.table(), records.archive().into_bytes());
        let question: Vec<u32> = records.rows[0].0.iter().map(|&code| code.into()).collect();
        let mut out = vec![0; room::expansion(8, 1_024)];
        let calls = move || {
            raw::build(&table, &mut out).unwrap();
            raw::check(&archive).unwrap();
            raw::look_up(&archive, &question).unwrap();
            raw::list_cuboid(&archive, 1, &mut out).unwrap();
            raw::expand(&archive, &mut out).unwrap();
            raw::smallest_keys(&archive, &mut out).unwrap();
            raw::fixes(&archive, 1, 2).unwrap();
            raw::join(&archive, &archive, &mut out).unwrap();
            raw::add(&archive, &question, -7, &mut out).unwrap();
            raw::window(&archive, 1, question[0], &question).unwrap();
            raw::share_fee(&archive, 1_000_000_000, 255 >> (8 - question.len()), &mut out).unwrap();
        };
        Builder::new().stack_size(STACK).spawn(calls).unwrap().join().unwrap();
    }
}
