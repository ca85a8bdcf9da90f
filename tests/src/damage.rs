//! Wrong files made from right ones. Each is handed on with words for what was done to it.
mod entries;
mod families;

use crate::random::Random;
use crate::write::mend;
pub use entries::entries;
pub use families::families;

fn word(s: &[u8], at: usize) -> u32 {
    u32::from_le_bytes(s[at..at + 4].try_into().unwrap())
}

/// Every cut, the whole file last. What was cut off still lies behind the slice: a reader that looks there finds the right bytes.
pub fn cuts(s: &[u8], mut see: impl FnMut(&[u8], &str)) {
    for end in 0..=s.len() {
        see(&s[..end], &format!("cut to {end} of {} bytes", s.len()));
    }
}

/// A file as it is, and with the check word mended.
fn twice(mut b: Vec<u8>, done: &str, see: &mut impl FnMut(&[u8], &str)) {
    see(&b, done);
    mend(&mut b);
    see(&b, &format!("{done}, check word mended"));
}

/// Each word changed to several values.
pub fn fields(s: &[u8], random: &mut Random, mut see: impl FnMut(&[u8], &str)) {
    for at in (0..s.len() - 3).step_by(4) {
        let old = word(s, at);
        let values = [
            0,
            1,
            old.wrapping_add(1),
            old.wrapping_sub(1),
            old ^ 1 << 31,
            !old,
            random.any_word(),
            random.below(10) as u32,
            random.pick(&[8, 9, 70, 71, 1_024, 1_025, 65_535, 65_536, 1_048_576, 1_048_577, i32::MAX as u32, 1 << 31, u32::MAX]),
        ];
        for value in values {
            let mut b = s.to_vec();
            b[at..at + 4].copy_from_slice(&value.to_le_bytes());
            twice(b, &format!("word at {at} from {old} to {value}"), &mut see);
        }
    }
}

/// Bytes and words changed, put in, taken out or swapped; bytes behind the end.
pub fn bytes(s: &[u8], times: usize, random: &mut Random, mut see: impl FnMut(&[u8], &str)) {
    for _ in 0..times {
        let mut b = s.to_vec();
        let at = random.place(s.len());
        let done = if random.one_in(2) { change_bytes(&mut b, at, random) } else { change_words(&mut b, at / 4 * 4, random) };
        twice(b, &format!("at {at}: {done}"), &mut see);
    }
}

fn change_bytes(b: &mut Vec<u8>, at: usize, random: &mut Random) -> String {
    match random.below(4) {
        0 => {
            b[at] ^= 1 << random.below(8);
            "a bit flipped".into()
        }
        1 => {
            b.insert(at, random.draw() as u8);
            "a byte put in".into()
        }
        2 => {
            b.remove(at);
            "a byte taken out".into()
        }
        _ => {
            let more = 1 + random.place(9);
            b.extend((0..more).map(|_| random.draw() as u8));
            format!("{more} bytes put behind")
        }
    }
}

fn change_words(b: &mut Vec<u8>, at: usize, random: &mut Random) -> String {
    let w = random.any_word();
    match random.below(4) {
        0 => {
            b.splice(at..at, w.to_le_bytes());
            format!("the word {w} put in")
        }
        1 => {
            b.drain(at..at + 4);
            "the word taken out".into()
        }
        2 => {
            let to = random.place(b.len() / 4) * 4;
            let (x, y) = (word(b, at), word(b, to));
            b[at..at + 4].copy_from_slice(&y.to_le_bytes());
            b[to..to + 4].copy_from_slice(&x.to_le_bytes());
            format!("the word swapped with that at {to}")
        }
        _ => {
            b[at..at + 4].copy_from_slice(&w.to_le_bytes());
            b.truncate(at + 4 + random.place(9));
            format!("the word {w}, and cut behind it")
        }
    }
}
