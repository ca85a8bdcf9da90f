//! What the two programs print: "The programs read at most 65,536 bytes and print `too long` above that, or `refused` and the number. The
//! builder lends 65,536 bytes of output and writes just the archive's bytes."
use super::editions::Edition;
use super::{build_edition, fit, listing, open};
use crate::calls::Stop;
use crate::landed::Request;

/// The most bytes that the programs read, and that the builder lends.
pub const MOST: usize = 65_536;

pub const TOO_LONG: &[u8] = b"too long\n";

pub fn refused(stop: Stop) -> Vec<u8> {
    format!("refused {stop}\n").into_bytes()
}

/// The edition of which the builder makes archives: "Tables build edition two, in the builder too".
pub fn edition() -> Edition {
    if Request::C17.landed() {
        Edition::Two
    } else {
        Edition::One
    }
}

pub fn builder(input: &[u8]) -> Vec<u8> {
    limited(input, |table| Ok(fit(&build_edition(edition(), table)?, MOST)?.to_vec()))
}

pub fn lister(input: &[u8]) -> Vec<u8> {
    limited(input, |archive| Ok(listing(&open(archive)?).into_bytes()))
}

fn limited(input: &[u8], make: impl Fn(&[u8]) -> Result<Vec<u8>, Stop>) -> Vec<u8> {
    if input.len() > MOST {
        return TOO_LONG.to_vec();
    }
    make(input).unwrap_or_else(refused)
}
