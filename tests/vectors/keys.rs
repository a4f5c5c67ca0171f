//! Questions about keys: as a page holds them, as a caller gives them, and their order.

use super::bytes_word;

pub fn questions() -> Vec<String> {
    [number_keys(), text_keys(), well_formed(), number_order(), text_order()].concat()
}

fn number_keys() -> Vec<String> {
    let bytes = bytes_word(&[0xff, 0, 1, 2, 3, 4, 5, 6, 7, 0x80]);
    let mut out: Vec<String> = (0..=3).map(|at| format!("key 0 {at:x} {bytes}")).collect();
    out.extend(["key 0 0 -", "key 0 a ff", "key 0 0 ffffffffffffff"].map(String::from));
    out.push(format!("key 0 0 {}", "ff".repeat(8)));
    out
}

/// Bytes at and past both ends of 32 to 126, lengths badly written, and keys cut off.
#[rustfmt::skip]
const SHORT_TEXT_KEYS: [&str; 23] = [
    "key 1 0 00", "key 1 0 -", "key 1 0 0161", "key 1 0 0120", "key 1 0 011f", "key 1 0 017e",
    "key 1 0 017f", "key 1 0 0180", "key 1 0 0100", "key 1 0 010a", "key 1 0 0261",
    "key 1 0 026162", "key 1 0 02617f", "key 1 0 027f61", "key 1 1 000161", "key 1 2 000161",
    "key 1 3 000161", "key 1 4 000161", "key 1 0 8000", "key 1 0 810061", "key 1 0 80",
    "key 1 0 8108", "key 1 0 03616263ff",
];

/// Those, and lengths 127, 128 and 1,024, whole and a byte short, and 1,025.
fn text_keys() -> Vec<String> {
    let mut out: Vec<String> = SHORT_TEXT_KEYS.map(String::from).into();
    for length in [127usize, 128, 1024, 1025] {
        let prefix = if length < 128 {
            vec![length as u8]
        } else {
            vec![length as u8 & 0x7f | 0x80, (length >> 7) as u8]
        };
        let bytes = [prefix, vec![b'k'; length]].concat();
        out.push(format!("key 1 0 {}", bytes_word(&bytes)));
        if length < 1025 {
            out.push(format!("key 1 0 {}", bytes_word(&bytes[..bytes.len() - 1])));
        }
    }
    out
}

#[rustfmt::skip]
const SHORT_KEYS: [&str; 16] = [
    "wellformed 0 -", "wellformed 0 00", "wellformed 0 ffffffffffffff",
    "wellformed 0 ffffffffffffffff", "wellformed 0 8000000000000000",
    "wellformed 0 000000000000000000", "wellformed 1 -", "wellformed 1 1f", "wellformed 1 20",
    "wellformed 1 7e", "wellformed 1 7f", "wellformed 1 80", "wellformed 1 00",
    "wellformed 1 0a", "wellformed 1 61620a", "wellformed 1 616200",
];

fn well_formed() -> Vec<String> {
    let mut out: Vec<String> = SHORT_KEYS.map(String::from).into();
    for length in [1024, 1025] {
        out.push(format!("wellformed 1 {}", "6b".repeat(length)));
    }
    out.push(format!("wellformed 1 {}7f", "6b".repeat(1023)));
    out
}

/// Example (i), and every pair around the sign and the ends of the range.
fn number_order() -> Vec<String> {
    let keys = [i64::MIN, i64::MIN + 1, -256, -1, 0, 1, 255, 256, i64::MAX - 1, i64::MAX];
    pairs(&keys.map(|key| key.to_be_bytes().to_vec()), 0)
}

/// Example (j), and pairs that part at a byte, by length, or by case.
fn text_order() -> Vec<String> {
    let keys = ["", " ", "a", "ab", "abc", "abd", "b", "B", "~", "chunk.1", "chunk.10", "chunk.2"];
    pairs(&keys.map(|key| key.as_bytes().to_vec()), 1)
}

fn pairs(keys: &[Vec<u8>], kind: u64) -> Vec<String> {
    let word = |key: &Vec<u8>| bytes_word(key);
    let of = |one| keys.iter().map(move |b| format!("compare {kind} {} {}", word(one), word(b)));
    keys.iter().flat_map(of).collect()
}
