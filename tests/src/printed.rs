//! What the programs printed, held to the model.
use crate::compare::hex;
use crate::model::programs::{builder, lister};
use crate::model::small::small_tables;
use crate::program::Program;

/// A program printed what it should print.
pub fn same(program: Program, printed: &[u8], want: &[u8], what: &str) {
    let from = printed.iter().zip(want).take_while(|(a, b)| a == b).count();
    let shown = |s: &[u8]| format!("{} bytes, from {from} on: {}", s.len(), s[from..s.len().min(from + 400)].escape_ascii());
    assert!(printed == want, "{program:?}, {what}\nprinted {}\nwanted {}", shown(printed), shown(want));
}

/// A program prints for an input what the model prints. That.
pub fn check(program: Program, input: &[u8], what: &str) -> Vec<u8> {
    let model = match program {
        Program::Builder => builder(input),
        Program::Lister => lister(input),
        Program::SmallTables => small_tables(),
    };
    same(program, &program.prints(input), &model, &format!("{what}\n{}", hex(input)));
    model
}
