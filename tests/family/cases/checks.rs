//! 02, C-13: the check value of a page whose chunk id, offset or length is past 16 bits. The same page
//! with 01's check value, which leaves the upper halves out, is refused.

use super::pages::with_value;
use super::place::root_calls;
use crate::build::page::measured;
use crate::family::case::Case;
use crate::family::questions::*;
use crate::family::tiny::{tiny, tiny_with, Tiny};

pub fn cases() -> Vec<Case> {
    vec![
        folded("page-past-64-kib", at_offset(70_000)),
        folded("chunk-id-past-16-bits", in_chunk(0x12345))
            .says(open(), "chunk 74565 block 2 blocks 1 version 1"),
        folded("chunk-id-2-to-16", in_chunk(1 << 16)),
        folded("page-at-64-kib", at_offset(1 << 16)),
        folded("page-of-64-kib", of_length(1 << 16)),
        folded("page-past-16-bits-in-all", past_in_all()),
        low_bits("page-past-64-kib-low-bits", at_offset(70_000)),
        low_bits("chunk-id-past-16-bits-low-bits", in_chunk(0x12345)),
        low_bits("value-of-65535-bytes-low-bits", with_value(65535)),
        low_bits("value-of-65536-bytes-low-bits", with_value(65536)),
    ]
}

fn folded(name: &str, store: Tiny) -> Case {
    let why = "folds each of the three numbers first";
    Case::new(name, why, store.image()).says(examine(), "report 2 1 1")
}

fn low_bits(name: &str, store: Tiny) -> Case {
    let why = "01 took the low 16 bits";
    Case::new(name, why, store.low_bits_image()).refuses(root_calls(), 8)
}

fn in_chunk(id: u64) -> Tiny {
    let mut store = tiny();
    store.set_chunk(id);
    store
}

fn at_offset(offset: u64) -> Tiny {
    let mut store = tiny_with(159, 20);
    store.leaf().offset = offset;
    store
}

/// A leaf of that many bytes: all but those of its second value, whose length takes 3, stay.
fn of_length(length: usize) -> Tiny {
    let rest = with_value(1 << 14).leaf().true_length() as usize - (1 << 14);
    with_value(length - rest)
}

/// The three upper halves are 3ff, 1 and 2, so that no two of them cancel out.
fn past_in_all() -> Tiny {
    let mut store = tiny_with(159, 60);
    store.set_chunk((1 << 26) - 1);
    let longest = measured(&[0; 65535]);
    let leaf = store.leaf();
    leaf.offset = 70_000;
    leaf.values = vec![longest.clone(), longest];
    leaf.code = 31;
    store
}
