//! "The text lines" and the file headers. One copy is blank, so that a fault in the other refuses.

use crate::build::line::{LinePlan, Sum};
use crate::family::base::single;
use crate::family::case::{join, Case};
use crate::family::questions::*;
use crate::model::fletcher::{fletcher, Edition};

pub fn cases() -> Vec<Case> {
    join(vec![fields(), fletchers(), odd_and_long(), lines(), accepted()])
}

fn edited(name: &str, why: &str, edit: &dyn Fn(&mut LinePlan)) -> Case {
    let mut store = single();
    edit(&mut store.plan.headers[0]);
    Case::new(name, why, store.plan.image())
}

/// A header that is not good: refusal 3.
fn refused(name: &str, why: &str, edit: &dyn Fn(&mut LinePlan)) -> Case {
    edited(name, why, edit).refuses(vec![open()], 3)
}

/// "H:2, blockSize:1000, format:1, and either all of block, chunk, version or none"
fn fields() -> Vec<Case> {
    let due = "a file header copy is good if its line has H:2, blockSize:1000, format:1";
    let named = "either all of block, chunk, version or none";
    vec![
        refused("header-h-3", due, &|l| l.set("H", 3)),
        refused("header-without-h", due, &|l| l.remove("H")),
        refused("header-lower-case-h", due, &|l| l.fields[0].0 = "h".into()),
        refused("header-block-size-800", due, &|l| l.set("blockSize", 0x800)),
        refused("header-block-size-decimal", due, &|l| l.set("blockSize", 0x4096)),
        refused("header-without-block-size", due, &|l| l.remove("blockSize")),
        refused("header-format-2", due, &|l| l.set("format", 2)),
        refused("header-without-format", due, &|l| l.remove("format")),
        refused("header-without-block", named, &|l| l.remove("block")),
        refused("header-without-chunk", named, &|l| l.remove("chunk")),
        refused("header-without-version", named, &|l| l.remove("version")),
        refused("header-with-version-alone", named, &|l| {
            l.remove("block");
            l.remove("chunk");
        }),
    ]
}

/// "File headers and footers end with the field `fletcher`."
fn fletchers() -> Vec<Case> {
    let ends = "file headers end with the field fletcher";
    let odd = "an odd last byte is not counted";
    vec![
        refused("header-sum-wrong", "a right fletcher", &|l| l.sum = Sum::Xor(1)),
        refused("header-sum-first-and-second-swapped", "second sum times 65536 plus first", &|l| {
            let sum = fletcher(Edition::First, &text_before_sum(l));
            l.sum = Sum::Xor(sum ^ (sum >> 16 | (sum & 0xffff) << 16));
        }),
        refused("header-without-sum", ends, &|l| l.sum = Sum::None),
        refused("header-sum-not-last", ends, &|l| {
            let sum = fletcher(Edition::First, &text_before_sum(l));
            l.sum = Sum::None;
            l.set("fletcher", sum);
            l.set("created", 1);
        }),
        refused("header-sum-twice", "no name occurs twice", &|l| l.set("fletcher", 1)),
        refused("header-odd-byte-counted", odd, &|l| {
            make_odd(l);
            let text = text_before_sum(l);
            let counted = fletcher(Edition::Second, &text);
            l.sum = Sum::Xor(fletcher(Edition::First, &text) ^ counted);
        }),
        refused("header-of-the-documents", "that copy isn't good", &|l| {
            l.fields.clear();
            for (name, value) in [("H", 2), ("block", 2), ("blockSize", 0x1000), ("chunk", 7)] {
                l.set(name, value);
            }
            for (name, value) in [("created", 0x1441235ef73), ("format", 1), ("version", 7)] {
                l.set(name, value);
            }
            l.sum = Sum::Xor(0x1a2bd87b ^ 0x3044e6cc);
        }),
    ]
}

/// The odd last byte, and texts that a sum reduced at its end only has no room for.
fn odd_and_long() -> Vec<Case> {
    let odd = "an odd last byte is not counted";
    vec![
        refused("header-sum-reduced-too-late", "both are taken modulo 65535", &|l| {
            make_long(l);
            let text = text_before_sum(l);
            l.sum = Sum::Xor(fletcher(Edition::First, &text) ^ reduced_too_late(&text));
        }),
        edited("header-odd-text", odd, &make_odd)
            .says(open(), "chunk 3 block 5 blocks 1 version 3"),
        edited("header-long-text", "both are taken modulo 65535", &make_long)
            .says(open(), "chunk 3 block 5 blocks 1 version 3"),
    ]
}

fn text_before_sum(line: &LinePlan) -> Vec<u8> {
    let mut bare = line.clone();
    bare.sum = Sum::None;
    bare.text()
}

/// Gives the text before the sum more than 720 words, by names that are not known.
fn make_long(line: &mut LinePlan) {
    for i in 0..75 {
        let name = [i / 26, i % 26].map(|letter| char::from(b'a' + letter));
        line.add(&String::from_iter(name), "ffffffffffffffff");
    }
}

/// The sum where both are reduced at the text's end only, and have passed 2^32 by then.
fn reduced_too_late(text: &[u8]) -> u64 {
    let (mut first, mut second) = (65535u32, 65535u32);
    for word in text.chunks_exact(2) {
        first = first.wrapping_add(u32::from(word[0]) * 256 + u32::from(word[1]));
        second = second.wrapping_add(first);
    }
    let [first, second] = [first, second].map(|sum| u64::from((sum - 1) % 65535 + 1));
    second * 65536 + first
}

/// Gives the text before the sum an odd length.
fn make_odd(line: &mut LinePlan) {
    if text_before_sum(line).len().is_multiple_of(2) {
        line.add("o", "11");
    }
    if text_before_sum(line).len().is_multiple_of(2) {
        line.set_text("o", "1");
    }
}

/// One rule of a line broken in each; the sum is right over what stands there.
fn lines() -> Vec<Case> {
    let joined = "one or more fields joined by single commas";
    let name = "a name of 1 to 16 ASCII letters";
    let digits = "1 to 16 digits 0-9a-f with no leading zero unless the value is 0";
    let twice = "no name occurs twice";
    vec![
        refused("header-without-newline", "no newline: no line", &|l| l.newline = false),
        refused("header-newline-in-next-block", "a file header's block", &|l| {
            l.newline_from = 4096
        }),
        refused("header-doubled-comma", joined, &|l| l.set_text("H", "2,")),
        refused("header-leading-comma", joined, &|l| l.fields[0].0 = ",H".into()),
        refused("header-semicolon", joined, &|l| l.set_text("H", "2;x:1")),
        refused("header-trailing-comma", joined, &|l| l.trailing = b",".to_vec()),
        refused("header-trailing-tab", "less trailing spaces", &|l| l.trailing = b"\t".to_vec()),
        refused("header-trailing-return", "less trailing spaces", &|l| l.trailing = b"\r".to_vec()),
        refused("header-leading-space", joined, &|l| l.fields[0].0 = " H".into()),
        refused("header-space-after-comma", name, &|l| l.add(" x", "1")),
        refused("header-name-of-17-letters", name, &|l| l.add("abcdefghijklmnopq", "1")),
        refused("header-empty-name", name, &|l| l.add("", "1")),
        refused("header-digit-in-name", name, &|l| l.add("a1", "1")),
        refused("header-value-of-17-digits", digits, &|l| l.add("x", "12345678901234567")),
        refused("header-empty-value", digits, &|l| l.add("x", "")),
        refused("header-leading-zero", digits, &|l| l.set_text("version", "03")),
        refused("header-double-zero", digits, &|l| l.add("x", "00")),
        refused("header-upper-case-digit", digits, &|l| l.add("x", "A")),
        refused("header-quoted-text", "left out: quoted text in lines", &|l| l.add("x", "\"a\"")),
        refused("header-known-name-twice", twice, &|l| l.add("H", "2")),
        refused("header-unknown-name-twice", twice, &|l| {
            l.add("x", "1");
            l.add("x", "1");
        }),
        refused("header-newline-first", "the bytes before the first newline", &|l| {
            l.fields[0].0 = "\nH".into();
        }),
    ]
}

/// What looks odd and is good.
fn accepted() -> Vec<Case> {
    let opens = |name, why, edit: &dyn Fn(&mut LinePlan)| {
        edited(name, why, edit).says(open(), "chunk 3 block 5 blocks 1 version 3")
    };
    vec![
        opens("header-name-of-16-letters", "1 to 16 ASCII letters", &|l| {
            l.add("abcdefghijklmnop", "1");
        }),
        opens("header-value-of-16-digits", "1 to 16 digits", &|l| l.add("x", "ffffffffffffffff")),
        opens("header-trailing-spaces", "less trailing spaces", &|l| l.trailing = vec![b' '; 9]),
        opens("header-newline-ends-block", "a file header's block", &|l| l.newline_from = 4095),
        opens("header-other-case-is-another-name", "no name occurs twice", &|l| l.add("h", "3")),
        opens("header-value-zero", "unless the value is 0", &|l| l.add("x", "0")),
        opens("header-names-no-chunk", "or none", &|l| {
            for name in ["block", "chunk", "version"] {
                l.remove(name);
            }
        }),
    ]
}
