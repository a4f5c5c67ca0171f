//! Questions about hex digits, big-endian and variable-size numbers, and positions.

use super::bytes_word;
use crate::build::page::variable;
use crate::model::position::check_value;

pub fn questions() -> Vec<String> {
    [hexes(), big_endians(), variables(), positions(), bounds(), checks()].concat()
}

/// Good digits and digits that break the rule.
#[rustfmt::skip]
const DIGIT_TEXTS: [&str; 38] = [
    "", "0", "00", "01", "1", "9", "a", "f", "g", "A", "F", "10", "0x1", "/", ":", "`", "1 ",
    " 1", "1,", "-1", "ff", "1000", "7fffffff", "80000000", "ffffffff", "100000000",
    "ffffffffffff", "1000000000000", "4000004f8c", "7fffffffffffffff", "8000000000000000",
    "ffffffffffffffff", "fffffffffffffffff", "10000000000000000", "0000000000000001",
    "123456789abcdef0", "123456789abcdefg", "1\n",
];

fn hexes() -> Vec<String> {
    let mut out: Vec<String> =
        DIGIT_TEXTS.iter().map(|t| format!("hex {}", bytes_word(t.as_bytes()))).collect();
    out.push("hex 80".to_string());
    out.push("hex 3100".to_string());
    for shift in (0..64).step_by(4) {
        out.push(format!("digits {:x}", 1u64 << shift));
        out.push(format!("digits {:x}", u64::MAX >> shift));
    }
    out.push("digits 0".to_string());
    out
}

/// Each width at, before and past the end.
fn big_endians() -> Vec<String> {
    let bytes = bytes_word(&[0x80, 0x01, 0xfe, 0x7f, 0x00, 0xff, 0xc0, 0x33, 0x12]);
    let mut out = Vec::new();
    for width in [2, 4, 8] {
        for at in [0u64, 1, 5, 7, 8, 9, 10, 0xffff_ffff] {
            out.push(format!("be {width} {at:x} {bytes}"));
        }
        out.push(format!("be {width} 0 -"));
        out.push(format!("be {width} 0 {}", "ff".repeat(width)));
    }
    out
}

/// Not ended, not shortest, too large, and good ones among them.
#[rustfmt::skip]
const DAMAGED_FORMS: [&str; 23] = [
    "-", "80", "ff", "8080", "8100", "ff00", "808000", "8080808000", "8080808010",
    "8080808008", "ffffffff07", "ffffffff08", "ffffffffffff3f", "ffffffffffff7f",
    "ffffffffffffffffff01", "ffffffffffffffffff7f", "ffffffffffffffffffff01",
    "80808080808080808001", "80808080808080808080808001", "00", "0001", "7f", "7f80",
];

/// 01's example (g), every power of two and one below under the four limits, and damaged forms.
fn variables() -> Vec<String> {
    let limits = [1u64 << 31, 1 << 48, 1025, 65536];
    let mut out = vec!["var 80000000 0 8000".to_string(), "var 80000000 0 8001".to_string()];
    for power in 0..=49 {
        for value in [1u64 << power, (1 << power) - 1] {
            // A limit far above the value says no more than the one below it.
            for limit in limits.iter().filter(|&&l| value / 4 < l && (l / 1024 < value.max(256))) {
                out.push(format!("var {limit:x} 0 {}", bytes_word(&variable(value))));
            }
        }
    }
    for form in DAMAGED_FORMS {
        for limit in limits {
            out.push(format!("var {limit:x} 0 {form}"));
        }
    }
    for at in 0..6 {
        out.push(format!("var 10000 {at:x} 05808002ff"));
    }
    out.extend(["var 0 0 00", "var 1 0 00", "var 1 0 01"].map(String::from));
    out
}

/// 01's example (d), each bit of a position alone, and fields at and past their widths.
#[rustfmt::skip]
fn positions() -> Vec<String> {
    let mut out = vec!["position 4000004f8c".to_string(), "position 0".to_string()];
    out.extend((0..64).map(|bit| format!("position {:x}", 1u64 << bit)));
    for number in [u64::MAX, 0x7fff_ffff_ffff_ffff, 0xffff_ffc0_0000_0000, 0x3f_ffff_ffc0, 0x3f] {
        out.push(format!("position {number:x}"));
    }
    let fields: [[u64; 4]; 16] = [
        [1, 318, 6, 0], [0, 0, 0, 0], [0x3ff_ffff, 0xffff_ffff, 31, 1], [0x400_0000, 0, 0, 0],
        [0xffff_ffff, 0, 0, 0], [0x3ff_ffff, 0, 0, 0], [0, 0xffff_ffff, 0, 0], [0, 0, 31, 0],
        [0, 0, 32, 0], [0, 0, 0xffff_ffff, 0], [0, 0, 0, 1], [0, 0, 0, 2], [0, 0, 0, 0xff],
        [1, 1, 1, 1], [7, 0x8000_0000, 30, 0], [0x200_0000, 0x1_2345, 15, 1],
    ];
    for [chunk, offset, code, kind] in fields {
        out.push(format!("make {chunk:x} {offset:x} {code:x} {kind:x}"));
    }
    out
}

/// Every length code, and numbers that are none.
fn bounds() -> Vec<String> {
    let codes = (0u64..=33).chain([0x3f, 0xff, 0xffff_ffff]);
    codes.map(|code| format!("bound {code:x}")).collect()
}

/// Chunk id, offset and length, and the check value that another program gives for them: 01's example
/// (e), 02's of C-13, and numbers at and past 16 bits in each place.
#[rustfmt::skip]
const CHECKS: [([u64; 3], u64); 7] = [
    ([1, 0x13e, 0xc8], 0x1f7), ([1, 0x1_2345, 0xc8], 0x238d), ([0x1_0000, 0x13e, 0xc8], 0x1f7),
    ([1, 0x1_013e, 0xc8], 0x1f6), ([1, 0x13e, 0x1_00c8], 0x1f6), ([1, 0x1_0000, 0xc8], 0xc8),
    ([0x3ff_ffff, 0xffff_ffff, 0xffff_ffff], 0xfc00),
];

/// These, and more of the kind.
#[rustfmt::skip]
fn checks() -> Vec<String> {
    for ([chunk, offset, length], due) in CHECKS {
        assert_eq!(check_value(chunk, offset, length), due, "check {chunk:x} {offset:x} {length:x}");
    }
    let more: [[u64; 3]; 7] = [
        [0, 0, 0], [0x3ff_ffff, 0, 0], [0, 0xffff_ffff, 0], [0, 0, 0x10_0000],
        [0x1_0000, 0x1_0000, 9], [2, 1024, 9], [0xabcdef, 0x1234_5678, 0x9abc],
    ];
    let all = CHECKS.iter().map(|(numbers, _)| numbers).chain(&more);
    all.map(|[c, o, l]| format!("check {c:x} {o:x} {l:x}")).collect()
}
