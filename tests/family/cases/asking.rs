//! "Asking": names, roots, lookup on any page, index by recorded counts, copy, arguments.

use crate::build::page::{variable, PagePlan};
use crate::build::tree::number_key;
use crate::family::case::{join, Case};
use crate::family::questions::*;
use crate::family::standard::{numbered, standard, Standard};
use crate::subject::MapArgs;

pub fn cases() -> Vec<Case> {
    join(vec![arguments(), names(), roots(), lookups(), indexes(), copies(), listings()])
}

/// Refusal 1 in each call.
fn arguments() -> Vec<Case> {
    let why = "kind not 0 or 1; map 0 with kind 0; map id above 2^31-1; key badly formed; map name";
    let maps = [(1, 2), (1, u64::MAX), (0, 0), (1 << 31, 0), (u64::MAX, 1)];
    let mut case = Case::standard("bad-arguments", why, &|_| {});
    for (id, kind) in maps {
        let map = MapArgs { id, kind };
        let asked = [
            lookup_bytes(map, &[0; 8]),
            index_in(map, 0),
            count_of(map),
            copy_bytes(map, &[0; 8], 9),
            walk_in(map, &[]),
            examine_of(map),
        ];
        case = case.refuses(asked.to_vec(), 1);
    }
    let long = "x".repeat(1001);
    case = case.refuses(vec![find(""), find("a\n"), find("\u{7f}"), find(&long)], 1);
    case = case.says(find(&long[..1000]), "refused 13");
    let numbers: [&[u8]; 3] = [&[], &[0; 7], &[0; 9]];
    case = case.refuses(numbers.map(|key| lookup_bytes(FORCES, key)).to_vec(), 1);
    let texts: [&[u8]; 3] = [&[31], &[b'k'; 1025], &[127]];
    case = case.refuses(texts.map(|key| lookup_bytes(NOTES, key)).to_vec(), 1);
    let last = MapArgs { id: (1 << 31) - 1, kind: 1 };
    vec![case
        .refuses(vec![copy_bytes(NOTES, b"a\0", 4)], 1)
        .says(lookup_bytes(NOTES, &[b'k'; 1024]), "absent")
        .says(count_of(last), "count 0")]
}

/// "`name.X` gives map X's id in hex; an id is 1 to 2^31-1."
fn names() -> Vec<Case> {
    let digits = "hex values follow the digits rule of a line";
    let range = "an id is 1 to 2^31-1";
    let named = |name, why, value: &str| {
        Case::standard(name, why, &|s| s.set_metadata("name.forces", value))
    };
    vec![
        Case::standard("name-missing", "no such map name", &|s| s.remove_metadata("name.forces"))
            .refuses(vec![find("forces")], 13),
        named("name-id-empty", digits, "").refuses(vec![find("forces")], 14),
        named("name-id-leading-zero", digits, "01").refuses(vec![find("forces")], 14),
        named("name-id-upper-case", digits, "A").refuses(vec![find("forces")], 14),
        named("name-id-with-space", digits, "1 ").refuses(vec![find("forces")], 14),
        named("name-id-0", range, "0").refuses(vec![find("forces")], 14),
        named("name-id-2-to-31", range, "80000000").refuses(vec![find("forces")], 14),
        named("name-id-2-to-32-and-1", range, "100000001").refuses(vec![find("forces")], 14),
        named("name-id-2-to-31-less-1", range, "7fffffff").says(find("forces"), "id 2147483647"),
        named("name-id-in-hex", digits, "10").says(find("forces"), "id 16"),
    ]
}

/// "`root.` with the id gives its root, absent meaning 0."
fn roots() -> Vec<Case> {
    let digits = "hex values follow the digits rule of a line";
    let absent = "root absent meaning 0";
    let takers = || [vec![count()], page_calls(0, 0, &[])].concat();
    let rooted = |name, why, value: &str| {
        Case::standard(name, why, &|s| s.set_metadata("root.1", value)).refuses(takers(), 14)
    };
    let empty = |name, edit: &dyn Fn(&mut Standard)| {
        let case = Case::standard(name, absent, edit).says(count(), "count 0");
        let case = case.says(examine(), "report 0 0 0").says(lookup(0), "absent");
        let case = case.says(index(0), "refused 15").says(walk(&[]), "done");
        case.says(walk(&[0]), "refused 12").says(copy(0, 0), "absent")
    };
    vec![
        rooted("root-entry-empty", digits, ""),
        rooted("root-entry-leading-zero", digits, "0140"),
        rooted("root-entry-upper-case", digits, "4000004F8C"),
        rooted("root-entry-17-digits", digits, "10000000000000000"),
        rooted("root-entry-not-digits", digits, "1x"),
        empty("root-entry-missing", &|s| s.remove_metadata("root.1")),
        empty("root-entry-0", &|s| s.set_metadata("root.1", "0")),
        Case::standard("root-entry-64-bits", "a position is 64 bits", &|s| {
            s.set_metadata("root.1", "ffffffffffffffff");
        })
        .refuses(takers(), 5),
    ]
}

/// A leaf with these keys in place of 0 and 7, in this order.
fn leaf_keys(store: &mut Standard, keys: &[i64]) {
    let page = store.plan.page(store.leaves[1]);
    let PagePlan { offset, code, .. } = *page;
    *page = PagePlan { offset, code, ..PagePlan::leaf(1, 0, &numbered(keys)) };
}

/// "Lookup on any page"
fn lookups() -> Vec<Case> {
    let first = "the first equal key that comes before any greater one";
    let child = "how many leading keys, up to the first greater one, are not greater";
    let at = |value: &str| format!("value {value}");
    vec![
        Case::standard("leaf-greater-key-first", first, &|s| leaf_keys(s, &[7, 0]))
            .says(lookup(0), "absent")
            .says(lookup(7), &at("8469 0"))
            .says(examine(), "refused 12"),
        Case::standard("leaf-key-twice", first, &|s| leaf_keys(s, &[0, 0, 7]))
            .says(lookup(0), &at("8477 0"))
            .says(examine(), "refused 12"),
        Case::standard("separators-fall", child, &|s| s.plan.page(s.forces).keys.swap(0, 1))
            .says(lookup(0), "absent")
            .says(lookup(-1), &at("8403 24"))
            .says(examine(), "refused 12"),
        Case::standard(
            "separator-equal-goes-right",
            "an entry equal to a separator is to its right",
            &|s| {
                s.plan.page(s.forces).keys[0] = number_key(7);
            },
        )
        .says(lookup(7), &at("8470 0"))
        .says(lookup(0), "absent")
        .says(examine(), "refused 12"),
    ]
}

/// "Index: the child is chosen by the recorded counts, left to right."
fn indexes() -> Vec<Case> {
    let by = "the child is chosen by the recorded counts, left to right";
    let counts = |name, why, counts: [u64; 3]| {
        Case::standard(name, why, &|s| {
            s.plan.page(s.forces).counts = counts.iter().map(|&c| variable(c)).collect();
        })
        .says(examine(), "refused 12")
    };
    vec![
        counts("counts-first-too-large", by, [3, 2, 2])
            .says(count(), "count 7")
            .says(index(2), "refused 15")
            .says(index(3), "entry 0 8469 0"),
        counts("counts-first-too-small", by, [1, 2, 2])
            .says(count(), "count 5")
            .says(index(1), "entry 0 8469 0")
            .says(index(5), "refused 15"),
        counts("counts-first-zero", by, [0, 2, 2]).says(index(0), "entry 0 8469 0"),
        counts("counts-all-zero", "not below their total", [0, 0, 0])
            .says(count(), "count 0")
            .says(index(0), "refused 15")
            .says(lookup(7), "value 8470 0"),
        counts("counts-last-wrong", by, [2, 2, 1])
            .says(index(4), "entry 9 12474 24")
            .says(index(5), "refused 15"),
    ]
}

/// "A copy writes the value at the area's start and nothing after it. For an unknown key the
/// answer is Absent, with no copy."
fn copies() -> Vec<Case> {
    let kept = format!("refused 16; area {}", "a5".repeat(23));
    let value: String = (9..33).map(|byte| format!("{byte:02x}")).collect();
    vec![Case::standard("copy-areas", "copy area smaller than the value", &|_| {})
        .says(copy(9, 23), &kept)
        .says(copy(9, 0), "refused 16; area -")
        .says(copy(9, 24), &format!("value 12474 24; area {value}"))
        .says(copy(9, 26), &format!("value 12474 24; area {value}a5a5"))
        .says(copy(7, 0), "value 8470 0; area -")
        .says(copy(7, 1), "value 8470 0; area a5")
        .says(copy(8, 0), "absent; area -")
        .says(copy(8, 2), "absent; area a5a5")]
}

/// "program input over 65,536 bytes" is refused by the program alone.
fn listings() -> Vec<Case> {
    let sized = |name, bytes: usize| {
        let mut image = standard().plan.image();
        image.resize(bytes, 0);
        Case::new(name, "program input over 65,536 bytes", image)
            .says(open(), "chunk 3 block 5 blocks 1 version 3")
    };
    let entries = "-5 24 | -1 24 | 0 0 | 7 0 | 9 24 | 100 24";
    let listed =
        format!("text chunk 3 block 5 version 3 | map 1 entries 6 pages 4 depth 2 | {entries}");
    vec![
        sized("listing-of-65536-bytes", 65536).says(list(), &listed),
        sized("listing-of-65537-bytes", 65537).says(list(), "text refused 2"),
    ]
}
