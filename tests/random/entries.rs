//! Random keys and values.

use super::Random;
use crate::build::tree::{number_key, sorted, Entries};

/// At most `most` entries in key order, no key twice.
pub fn entries(random: &mut Random, kind: u64, most: u64) -> Entries {
    let n = random.range(0, most);
    let mut list: Entries = (0..n).map(|_| (key(random, kind), value(random))).collect();
    list = sorted(kind, list);
    list.dedup_by(|one, other| one.0 == other.0);
    list
}

pub fn key(random: &mut Random, kind: u64) -> Vec<u8> {
    if kind == 0 {
        number_key(number(random))
    } else {
        text(random)
    }
}

/// Small numbers of both signs, ends of the range, and anything.
fn number(random: &mut Random) -> i64 {
    match random.below(8) {
        0 => *random.pick(&[i64::MIN, i64::MIN + 1, -1, 0, 1, i64::MAX - 1, i64::MAX]),
        1 => random.draw() as i64,
        _ => random.below(60) as i64 - 30,
    }
}

/// Short texts that begin alike, rarely a long one.
fn text(random: &mut Random) -> Vec<u8> {
    let length = match random.below(60) {
        0 => random.range(100, 1024),
        _ => random.below(6),
    };
    let letters: &[u8] = if random.once_in(8) { b" ~!}" } else { b"ab.0" };
    (0..length).map(|_| *random.pick(letters)).collect()
}

fn value(random: &mut Random) -> Vec<u8> {
    let length = match random.below(16) {
        0 => random.range(100, 300),
        1..=4 => 0,
        5..=8 => 24,
        _ => random.below(12),
    };
    (0..length).map(|_| random.draw() as u8).collect()
}
