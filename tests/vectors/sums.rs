//! Questions about sums, each in both editions.

use super::{both, bytes_word};
use crate::model::fletcher::{fletcher, Edition};

pub fn questions() -> Vec<String> {
    [known(), texts(), fills()].concat()
}

const FOOTER: &str = "chunk:1,block:2,version:1";
/// The documents' file header, whose recorded sum 3044e6cc is right in neither edition.
const HEADER: &str = "H:2,block:2,blockSize:1000,chunk:7,created:1441235ef73,format:1,version:7";

/// Texts and their sums in edition 1 and in edition 2, as another program gives them: 01's examples
/// (a), (b) and (c), 02's of C-16, and texts of odd and even length.
const KNOWN: [(&str, u64, u64); 6] = [
    (FOOTER, 0xaed9a4f6, 0x84d0d5f6),
    (HEADER, 0x1a2bd87b, 0x29a70f7c),
    ("chunk:1,block:2,version:1a", 0x8531d657, 0x8531d657),
    ("", 0xffffffff, 0xffffffff),
    ("a", 0xffffffff, 0x61006100),
    ("abc", 0x61626162, 0x25c5c462),
];
/// The same of so many bytes ff: 360 words, after which a sum that was not reduced has no room in 32
/// bits for the odd byte.
const LONG: (usize, u64, u64) = (721, 0xffffffff, 0xff00ff00);

fn known() -> Vec<String> {
    for (text, first, second) in KNOWN {
        claim(text.as_bytes(), first, second);
    }
    let (length, first, second) = LONG;
    claim(&vec![0xff; length], first, second);
    let mut out: Vec<String> = KNOWN.iter().flat_map(|(text, ..)| sum(text.as_bytes())).collect();
    out.extend(both("fill", &format!("ff {length:x}")));
    out
}

fn claim(text: &[u8], first: u64, second: u64) {
    let sums = [Edition::First, Edition::Second].map(|edition| fletcher(edition, text));
    assert_eq!(sums, [first, second], "the sums of {}", bytes_word(text));
}

/// H2's own, texts around the odd last byte, and sums that come to 0 modulo 65535, before and after
/// reduction.
fn texts() -> Vec<String> {
    let texts = ["c", "ch", "chu", "Fletcher32", "chunk:1,block:2,version:12"];
    let words: [&[u8]; 13] = [
        &[0xff, 0xff],
        &[0xff, 0xfe],
        &[0x00, 0x01],
        &[0x00, 0x01, 0xff, 0xfe],
        &[0xff, 0xff, 0xff, 0xff],
        &[0x80, 0x00, 0x7f, 0xff, 0x00],
        &[0xff, 0xfe, 0x00, 0x01, 0x00, 0x01],
        &[0x01, 0x00],
        &[0x00],
        &[0xff],
        &[0x00, 0xff, 0xff],
        &[0xff, 0xff, 0x01],
        &[0xfe, 0xff, 0x01, 0x00, 0xff],
    ];
    let texts = texts.iter().map(|text| text.as_bytes());
    texts.chain(words).flat_map(sum).collect()
}

fn sum(text: &[u8]) -> [String; 2] {
    both("sum", &bytes_word(text))
}

/// Long texts: H2's own ten thousand bytes of value 10, and runs around 360 and 720 words, where
/// sums that were not reduced in time would pass 2^32. Words alone have no edition.
fn fills() -> Vec<String> {
    let mut out = both("fill", "a 2710").to_vec();
    for byte in [0, 1, 0x61, 0x80, 0xfe, 0xff] {
        let counts = [0..=3, 718..=723, 1440..=1443, 4088..=4089, 65535..=65536];
        let counts = counts.into_iter().flatten().filter(|&count| (byte, count) != (0xff, LONG.0));
        out.extend(counts.flat_map(|count| both("fill", &format!("{byte:x} {count:x}"))));
        out.extend([0, 2, 722, 1442, 65536].map(|count| format!("words {byte:x} {count:x}")));
    }
    out
}
