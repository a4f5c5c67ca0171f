//! Maps that are not sound, and some that look so.

use crate::build::page::variable;
use crate::build::tree::number_key;
use crate::family::case::Case;
use crate::family::questions::*;
use crate::family::standard::Standard;

pub fn cases() -> Vec<Case> {
    [keys(), separators(), counts(), vec![empty_leaf()], sound()].into_iter().flatten().collect()
}

fn unsound(name: &str, why: &str, edit: &dyn Fn(&mut Standard)) -> Case {
    Case::standard(name, why, edit).refuses(vec![examine()], 12)
}

fn unsound_beams(name: &str, why: &str, edit: &dyn Fn(&mut Standard)) -> Case {
    Case::standard(name, why, edit).refuses(vec![examine_of(BEAMS)], 12)
}

/// Puts other keys into a leaf of `forces`, two as before.
fn set_leaf(store: &mut Standard, leaf: usize, keys: &[i64]) {
    store.plan.page(store.leaves[leaf]).keys = keys.iter().map(|&key| number_key(key)).collect();
}

/// "a leaf's keys to rise strictly, not below the nearest on the left, below the nearest on the
/// right"
fn keys() -> Vec<Case> {
    let rise = "a leaf's keys to rise strictly";
    let left = "not below the nearest on the left";
    let right = "below the nearest on the right";
    vec![
        unsound("leaf-keys-fall", rise, &|s| set_leaf(s, 1, &[7, 0])),
        unsound("leaf-keys-equal", rise, &|s| set_leaf(s, 1, &[7, 7])),
        unsound("leaf-keys-rise-unsigned", rise, &|s| set_leaf(s, 0, &[-1, -5])),
        unsound("leaf-key-below-left-separator", left, &|s| set_leaf(s, 1, &[-1, 7])),
        unsound("leaf-key-at-right-separator", right, &|s| set_leaf(s, 1, &[0, 9])),
        unsound("leaf-key-above-right-separator", right, &|s| set_leaf(s, 1, &[0, 10])),
        unsound("first-leaf-key-at-separator", right, &|s| set_leaf(s, 0, &[-5, 0])),
        unsound("last-leaf-key-below-separator", left, &|s| set_leaf(s, 2, &[8, 100])),
        unsound_beams("deep-leaf-key-past-the-roots-separator", right, &|s| {
            let leaf = s.beam_leaves[1];
            s.plan.page(leaf).keys[1] = number_key(50);
        }),
        unsound_beams("deep-leaf-key-before-the-roots-separator", left, &|s| {
            let leaf = s.beam_leaves[2];
            s.plan.page(leaf).keys[0] = number_key(49);
        }),
        Case::standard("metadata-keys-fall", rise, &|s| s.plan.page(s.chunk_leaf).keys.swap(0, 1))
            .refuses(vec![examine_of(METADATA)], 12),
    ]
}

/// "Separators are tested to rise strictly and to lie strictly between the nearest separators
/// above on each side".
fn separators() -> Vec<Case> {
    let rise = "separators are tested to rise strictly";
    let between = "to lie strictly between the nearest separators above on each side";
    let shared = "each separator is above all keys to its left";
    let half = |name, half: usize, key: i64| {
        unsound_beams(name, between, &|s| {
            let page = s.beam_halves[half];
            s.plan.page(page).keys[0] = number_key(key);
        })
    };
    vec![
        unsound("separators-equal", rise, &|s| s.plan.page(s.forces).keys[1] = number_key(0)),
        unsound("separators-swapped", rise, &|s| s.plan.page(s.forces).keys.swap(0, 1)),
        half("separator-at-the-right-one-above", 0, 50),
        half("separator-past-the-right-one-above", 0, 51),
        half("separator-at-the-left-one-above", 1, 50),
        half("separator-before-the-left-one-above", 1, 49),
        unsound("separator-above-a-key-to-its-right", shared, &|s| {
            s.plan.page(s.forces).keys[0] = number_key(1);
        }),
        unsound("separator-at-a-key-to-its-left", shared, &|s| {
            s.plan.page(s.forces).keys[0] = number_key(-1);
        }),
        unsound("shared-child", shared, &|s| {
            let first = s.plan.page(s.forces).children[0];
            s.plan.page(s.forces).children[2] = first;
        }),
    ]
}

/// "each recorded count is the entries under that child"
fn counts() -> Vec<Case> {
    let why = "each recorded count is the entries under that child";
    let root = |name, child: usize, count: u64| {
        unsound(name, why, &|s| s.plan.page(s.forces).counts[child] = variable(count))
    };
    vec![
        root("count-first-one-more", 0, 3),
        root("count-middle-one-less", 1, 1),
        root("count-last-zero", 2, 0),
        unsound("counts-swapped-sum-right", why, &|s| {
            let page = s.plan.page(s.forces);
            page.counts = vec![variable(1), variable(3), variable(2)];
        })
        .says(count(), "count 6"),
        unsound_beams("count-of-a-half-wrong", why, &|s| {
            let half = s.beam_halves[1];
            s.plan.page(half).counts[0] = variable(3);
        })
        .says(count_of(BEAMS), "count 8"),
    ]
}

/// "only the root may be an empty leaf": the recorded count is right here.
fn empty_leaf() -> Case {
    unsound("empty-leaf-counted-0", "only the root may be an empty leaf", &|s| {
        let page = s.plan.page(s.leaves[1]);
        page.n = vec![0];
        page.keys.clear();
        page.values.clear();
        s.plan.page(s.forces).counts[1] = variable(0);
    })
    .says(count(), "count 4")
    .says(index(2), "entry 9 12474 24")
    .says(walk(&[0, 1]), "refused 12")
}

/// What looks odd and is sound.
fn sound() -> Vec<Case> {
    let at = "not above any to its right";
    let passes = |name, why, edit: &dyn Fn(&mut Standard)| {
        Case::standard(name, why, edit).says(examine(), "report 6 4 2")
    };
    vec![
        passes("separator-between-the-keys", at, &|s| {
            s.plan.page(s.forces).keys[1] = number_key(8);
        }),
        passes("separator-at-its-right-key", at, &|_| {}),
        Case::standard("root-is-an-empty-leaf", "only the root may be an empty leaf", &|_| {})
            .says(examine_of(BARE), "report 0 1 1"),
        Case::standard("extreme-keys", "signed 8-byte numbers", &|s| {
            set_leaf(s, 0, &[i64::MIN, -1]);
            set_leaf(s, 2, &[9, i64::MAX]);
        })
        .says(examine(), "report 6 4 2")
        .says(lookup(i64::MIN), "value 8378 24")
        .says(lookup(i64::MAX), "value 12499 24"),
        Case::standard("leaves-of-unequal-depth", "each of its children", &|s| {
            let leaf = s.plan.page(s.beams).children[1];
            let right = s.beam_halves[1];
            let child = s.plan.page(right).children[1];
            // The root's right child is a leaf now, the left one an inner page.
            assert_ne!(leaf, child);
            let page = s.plan.page(s.beams);
            page.children[1] = child;
            page.counts[1] = variable(2);
            page.keys[0] = number_key(50);
        })
        .says(examine_of(BEAMS), "report 6 5 3")
        .says(walk_in(BEAMS, &[0, 1, 1]), "entry 70 20806 0; state 2 0 1"),
    ]
}
