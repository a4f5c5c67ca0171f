//! The fields of a page. The leaf of keys 0 and 7 is damaged, or the root of `forces`; lengths and
//! check values follow the damage.

use crate::build::page::{measured, variable, PagePlan};
use crate::family::case::{join, Case};
use crate::family::questions::*;
use crate::family::standard::{Standard, MIDDLE, OLD};
use crate::family::tiny::{tiny_with, Tiny};

pub fn cases() -> Vec<Case> {
    join(vec![heads(), leaves(), text_leaves(), long_keys(), long_values(), inners(), accepted()])
}

/// A fault in the leaf of keys 0 and 7.
fn leaf(name: &str, why: &str, number: u8, edit: &dyn Fn(&mut PagePlan)) -> Case {
    let case = Case::standard(name, why, &|s| edit(s.plan.page(s.leaves[1])));
    case.refuses(page_calls(7, 3, &[0, 1]), number).says(count(), "count 6")
}

/// A fault in the root of `forces`.
fn root(name: &str, why: &str, number: u8, edit: &dyn Fn(&mut PagePlan)) -> Case {
    let case = Case::standard(name, why, &|s| edit(s.plan.page(s.forces)));
    let calls = [page_calls(7, 3, &[0, 1]), vec![count()]].concat();
    case.refuses(calls, number).says(find("forces"), "id 1")
}

/// A fault in the leaf of names and roots: every call meets it.
fn metadata(name: &str, why: &str, number: u8, edit: &dyn Fn(&mut PagePlan)) -> Case {
    Case::standard(name, why, &|s| edit(s.plan.page(s.name_leaf))).refuses(every_call(), number)
}

fn heads() -> Vec<Case> {
    let check = "the low 16 bits of chunk id xor offset xor length";
    let id = "map id variable-size, shortest form, below 2^31";
    let n = "key count n variable-size, shortest form, below 2^31";
    let due = "a map id or type that reads but isn't the one due is 9";
    vec![
        leaf("leaf-check-value", check, 8, &|p| p.check_xor = 1),
        leaf("leaf-check-value-high-byte", check, 8, &|p| p.check_xor = 0x8000),
        root("root-check-value", check, 8, &|p| p.check_xor = 0x100),
        metadata("metadata-check-value", check, 8, &|p| p.check_xor = 1),
        leaf("leaf-of-another-map", due, 9, &|p| p.map = vec![2]),
        root("root-of-another-map", due, 9, &|p| p.map = vec![2]),
        metadata("metadata-leaf-of-map-1", due, 9, &|p| p.map = vec![1]),
        leaf("map-id-not-shortest", id, 10, &|p| p.map = vec![0x81, 0]),
        leaf("map-id-2-to-31", id, 10, &|p| p.map = variable(1 << 31)),
        leaf("map-id-2-to-31-less-1", due, 9, &|p| p.map = variable((1 << 31) - 1)),
        leaf("map-id-past-64-bits", id, 10, &|p| p.map = [vec![0x81; 10], vec![1]].concat()),
        leaf("map-id-without-end", id, 10, &|p| end_with(p, vec![0x80; 3])),
        leaf("count-not-shortest", n, 10, &|p| p.n = vec![0x82, 0]),
        leaf("count-2-to-31", n, 10, &|p| p.n = variable(1 << 31)),
        leaf("count-2-to-31-less-1", n, 10, &|p| p.n = variable((1 << 31) - 1)),
        leaf("count-one-more", "n keys, then n values", 10, &|p| p.n = vec![3]),
        leaf("count-one-less", "nothing is left over", 10, &|p| p.n = vec![1]),
        leaf("leaf-type-byte-1", due, 9, &|p| p.type_byte = vec![1]),
        leaf("leaf-type-byte-2", due, 9, &|p| p.type_byte = vec![2]),
        leaf("leaf-type-byte-128", due, 9, &|p| p.type_byte = vec![0x80]),
        root("root-type-byte-0", due, 9, &|p| p.type_byte = vec![0]),
        Case::standard("position-says-inner-of-a-leaf", "equal to the position's bit", &|s| {
            s.plan.page(s.forces).children[1] |= 1;
        })
        .refuses(page_calls(7, 3, &[0, 1]), 9),
        metadata("metadata-count-one-less", "nothing is left over", 10, &|p| p.n[0] -= 1),
    ]
}

/// Ends the page with these bytes instead of its map id and all that follows.
fn end_with(page: &mut PagePlan, bytes: Vec<u8>) {
    *page = PagePlan {
        offset: page.offset,
        code: page.code,
        type_bit: page.type_bit,
        map: bytes,
        ..PagePlan::default()
    };
}

fn leaves() -> Vec<Case> {
    let over = "nothing is left over";
    let value = "a variable-size length up to 65,535, then bytes";
    vec![
        leaf("leaf-leftover", over, 10, &|p| p.leftover = vec![0]),
        leaf("leaf-last-value-cut", value, 10, &|p| p.values[1] = vec![1]),
        leaf("leaf-value-length-65536", value, 10, &|p| p.values[1] = variable(65536)),
        leaf("leaf-value-length-not-shortest", value, 10, &|p| p.values[1] = vec![0x80, 0]),
        leaf("leaf-value-length-without-end", value, 10, &|p| p.values[1] = vec![0x80]),
        leaf("leaf-value-missing", value, 10, &|p| p.values[1].clear()),
        leaf("leaf-number-key-cut", "signed 8-byte numbers", 10, &|p| {
            p.values.clear();
            p.keys[1].truncate(7);
        }),
        leaf("leaf-ends-before-count", "a field that can't be read is 10", 10, &|p| {
            p.n.clear();
            p.type_byte.clear();
            p.keys.clear();
            p.values.clear();
            // The map id takes the room of count and type, so that the length stays at least 9.
            p.map = vec![0x81, 0x80, 0x80];
        }),
    ]
}

/// Faults in the leaf of `notes` that holds "", "a" and "ab".
fn text_leaves() -> Vec<Case> {
    let length = "a variable-size length up to 1,024";
    let bytes = "bytes 32 to 126";
    let fault = |name, why, key: Vec<u8>| {
        let edit = |s: &mut Standard| s.plan.page(s.note_leaves[0]).keys[1] = key.clone();
        let asked = vec![
            lookup_text(NOTES, "a"),
            index_in(NOTES, 1),
            walk_in(NOTES, &[]),
            examine_of(NOTES),
        ];
        Case::standard(name, why, &edit).refuses(asked, 10)
    };
    vec![
        fault("text-key-byte-31", bytes, measured(&[31])),
        fault("text-key-byte-127", bytes, measured(&[127])),
        fault("text-key-byte-0", bytes, measured(&[0])),
        fault("text-key-byte-255", bytes, measured(&[255])),
        fault("text-key-length-not-shortest", length, vec![0x81, 0x00, b'a']),
        fault("text-key-length-1025", length, variable(1025)),
        fault("text-key-cut", length, vec![0x7f, b'a']),
    ]
}

/// A key of 1,024 bytes is read, one of 1,025 is not, though all its bytes are there.
fn long_keys() -> Vec<Case> {
    let edited = |name, length: usize| {
        Case::standard(name, "a variable-size length up to 1,024", &|s| {
            let entries = [(vec![], vec![]), (vec![b'a'; length], vec![b'v'])];
            let leaf = s.plan.put(MIDDLE, PagePlan::leaf(2, 1, &entries));
            let position = s.plan.position(leaf);
            let root = s.plan.page(s.notes);
            root.children[0] = position;
            root.counts[0] = vec![2];
        })
    };
    let longest = lookup_text(NOTES, &"a".repeat(1024));
    let asked = || vec![lookup_text(NOTES, ""), index_in(NOTES, 1), walk_in(NOTES, &[])];
    vec![
        edited("text-key-of-1024-bytes", 1024)
            .says(longest, "value 14039 1")
            .says(examine_of(NOTES), "report 5 3 2"),
        edited("text-key-of-1025-bytes", 1025)
            .refuses(asked(), 10)
            .refuses(vec![examine_of(NOTES)], 10),
    ]
}

/// The least store in a chunk of 20 blocks; its second value has so many bytes.
pub fn with_value(length: usize) -> Tiny {
    let mut store = tiny_with(159, 20);
    store.leaf().offset = 8192;
    store.leaf().values[1] = measured(&vec![0; length]);
    store.leaf().code = 31;
    store
}

/// A value of 65,535 bytes is read, one of 65,536 is not, though all its bytes are there.
fn long_values() -> Vec<Case> {
    let edited = |name, length| {
        Case::new(name, "a variable-size length up to 65,535", with_value(length).image())
    };
    vec![
        edited("value-of-65535-bytes", 65535)
            .says(lookup(4), "value 16437 65535")
            .says(examine(), "report 2 1 1"),
        edited("value-of-65536-bytes", 65536)
            .refuses(vec![lookup(3), lookup(4), index(0), walk(&[]), examine(), count()], 10),
    ]
}

fn inners() -> Vec<Case> {
    let sum = "their sum below 2^48 (the count that takes it there can't be read)";
    let children = "n+1 positions, n+1 variable-size counts, n keys";
    let zero = "child position 0";
    vec![
        root("root-leftover", "nothing is left over", 10, &|p| p.leftover = vec![0]),
        root("root-counts-sum-2-to-48", sum, 10, &|p| {
            p.counts[0] = variable((1 << 48) - 5);
            p.counts[1] = vec![3];
        }),
        root("root-count-2-to-48", sum, 10, &|p| p.counts[0] = variable(1 << 48)),
        root("root-count-past-64-bits", sum, 10, &|p| {
            p.counts[0] = [vec![0x82; 9], vec![2]].concat()
        }),
        root("root-count-not-shortest", children, 10, &|p| p.counts[2] = vec![0x82, 0]),
        root("root-one-child-fewer", children, 10, &|p| {
            p.children.pop();
        }),
        root("root-count-missing", children, 10, &|p| {
            p.counts.pop();
            p.keys.pop();
        }),
        root("root-key-cut", children, 10, &|p| {
            p.keys[1].pop();
        }),
        root("root-count-of-keys-huge", children, 10, &|p| p.n = variable((1 << 31) - 1)),
        Case::standard("child-position-0", zero, &|s| s.plan.page(s.forces).children[1] = 0)
            .refuses(page_calls(7, 3, &[0, 1]), 7)
            .says(lookup(9), "value 12474 24"),
        Case::standard("metadata-child-position-0", zero, &|s| {
            s.plan.page(s.metadata).children[1] = 0;
        })
        .refuses(every_call(), 7),
    ]
}

fn accepted() -> Vec<Case> {
    vec![
        Case::standard("root-counts-sum-2-to-48-less-1", "their sum below 2^48", &|s| {
            s.plan.page(s.forces).counts[2] = variable((1 << 48) - 5);
        })
        .says(count(), "count 281474976710655")
        .says(index(6), "refused 15")
        .says(index(281474976710655), "refused 15")
        .says(examine(), "refused 12"),
        Case::standard("inner-page-without-keys", "n+1 positions", &|s| {
            let page = s.plan.page(s.forces);
            page.n = vec![0];
            page.children.truncate(1);
            page.counts.truncate(1);
            page.keys.clear();
        })
        .says(count(), "count 2")
        .says(examine(), "report 2 2 2")
        .says(lookup(7), "absent")
        .says(walk(&[0, 1]), "done"),
        Case::standard("pages-overlap", "a page begins at its offset", &|s| {
            // Two children that are the same bytes: page rules do not mind.
            let first = s.plan.page(s.forces).children[0];
            s.plan.page(s.forces).children[1] = first;
        })
        .says(examine(), "refused 12")
        .says(lookup(7), "absent"),
        Case::standard("chunk-says-no-pages", "pages is only required", &|s| {
            s.plan.chunks[OLD].header.set("pages", 0);
        })
        .says(examine(), "report 6 4 2"),
    ]
}
