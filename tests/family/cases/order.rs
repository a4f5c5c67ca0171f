//! Two faults at once: the one that is judged first answers.

use crate::build::page::{variable, PagePlan};
use crate::build::tree::number_key;
use crate::family::base::blank_line;
use crate::family::case::Case;
use crate::family::questions::*;
use crate::family::standard::{Standard, NEWEST};
use crate::model::position::Position;
use crate::model::walk::{State, FRESH};
use crate::subject::{MapArgs, Question};

pub fn cases() -> Vec<Case> {
    let pages = [positions(), places_and_checks(), fields()];
    let calls = [
        calls(),
        asking(),
        walks(),
        examined_pages(),
        examined_separators(),
        examined_children(),
        examined_depth(),
    ];
    pages.into_iter().chain(calls).flatten().collect()
}

const ILL_FORMED: State = State { depth: 17, ..FRESH };

/// Questions whose arguments are refused, one for each call.
fn bad_arguments() -> Vec<Question> {
    let map = MapArgs { id: 1, kind: 2 };
    vec![
        find(""),
        lookup_bytes(map, &[0; 8]),
        index_in(map, 0),
        count_of(map),
        copy_bytes(map, &[0; 8], 0),
        walk_in(map, &[]),
        examine_of(map),
    ]
}

/// "Arguments come first, then opening, then the map."
fn calls() -> Vec<Case> {
    let why = "arguments come first, then opening, then the map";
    let walk_ill = || vec![walk_from(FORCES, ILL_FORMED)];
    let cut = |name, blocks: u64| {
        Case::standard(name, why, &|s| {
            s.plan.blocks = blocks;
            s.plan.headers = vec![blank_line(), blank_line()];
        })
    };
    vec![
        cut("arguments-before-size", 2).refuses(bad_arguments(), 1),
        cut("size-before-header", 2).refuses([every_call(), vec![open()]].concat(), 2),
        cut("arguments-before-header", 6).refuses(bad_arguments(), 1),
        cut("header-before-start", 6).refuses([every_call(), vec![open()], walk_ill()].concat(), 3),
        Case::standard("arguments-before-start", why, &|s| {
            s.plan.chunks[NEWEST].header.remove("pages");
        })
        .refuses(bad_arguments(), 1)
        .refuses([every_call(), walk_ill()].concat(), 4),
        Case::standard("arguments-before-the-map", why, &|s| s.set_metadata("root.1", "x"))
            .refuses(bad_arguments(), 1)
            .refuses(walk_ill(), 14),
        Case::standard("key-before-the-empty-map", why, &|_| {})
            .refuses(vec![lookup_bytes(BLANK, &[0])], 1),
    ]
}

/// A leaf of `forces` with two faults, or a position with two.
fn leaf(name: &str, number: u8, edit: &dyn Fn(&mut PagePlan)) -> Case {
    let why = "depth, child position 0, location, place, check, then the fields in file order";
    let case = Case::standard(name, why, &|s| edit(s.plan.page(s.leaves[1])));
    case.refuses(page_calls(7, 3, &[0, 1]), number)
}

fn child(name: &str, number: u8, position: Position) -> Case {
    let why = "depth, child position 0, location, place, check, then the fields in file order";
    let position = position.number().expect("the fields fit");
    let case = Case::standard(name, why, &|s| s.plan.page(s.forces).children[1] = position);
    case.refuses(page_calls(7, 3, &[0, 1]), number)
}

fn positions() -> Vec<Case> {
    let nowhere = Position { chunk: 99, offset: 0, code: 0, kind: 0 };
    vec![
        // Chunk 0 has no entry, so that its location would be 5.
        child("position-0-before-location", 7, Position { chunk: 0, ..nowhere }),
        child("location-before-place", 5, nowhere),
        child("chunk-0-is-located", 5, Position { chunk: 0, offset: 1, ..nowhere }),
        child("place-before-check", 7, Position { chunk: 1, offset: 3000, code: 31, kind: 0 }),
    ]
}

fn places_and_checks() -> Vec<Case> {
    vec![
        leaf("length-before-check", 7, &|p| {
            p.length = Some(8);
            p.check_xor = 1;
        }),
        leaf("code-before-check", 7, &|p| {
            p.leftover = vec![0; 40];
            p.check_xor = 1;
        }),
        leaf("length-before-map-id", 7, &|p| {
            p.length = Some(5000);
            p.map = vec![2];
        }),
        leaf("check-before-map-id", 8, &|p| {
            p.check_xor = 1;
            p.map = vec![2];
        }),
        leaf("check-before-contents", 8, &|p| {
            p.check_xor = 1;
            p.leftover = vec![0];
        }),
        leaf("check-before-type", 8, &|p| {
            p.check_xor = 1;
            p.type_byte = vec![1];
        }),
    ]
}

fn fields() -> Vec<Case> {
    vec![
        leaf("map-id-due-before-count", 9, &|p| {
            p.map = vec![2];
            p.n = vec![0x82, 0];
        }),
        leaf("map-id-unread-before-type", 10, &|p| {
            p.map = vec![0x81, 0];
            p.type_byte = vec![1];
        }),
        leaf("map-id-unread-before-due", 10, &|p| p.map = vec![0x82, 0]),
        leaf("count-before-type", 10, &|p| {
            p.n = vec![0x82, 0];
            p.type_byte = vec![1];
        }),
        leaf("type-before-keys", 9, &|p| {
            p.type_byte = vec![1];
            p.n = vec![9];
        }),
        leaf("type-before-leftover", 9, &|p| {
            p.type_byte = vec![2];
            p.leftover = vec![0];
        }),
        leaf("map-id-due-before-leftover", 9, &|p| {
            p.map = vec![2];
            p.leftover = vec![0];
        }),
    ]
}

/// The whole page is judged before it is used, and the pages above before those below.
fn asking() -> Vec<Case> {
    vec![
        Case::standard("index-before-the-childs-fault", "at any inner page reached", &|s| {
            s.plan.page(s.leaves[2]).check_xor = 1;
        })
        .says(index(6), "refused 15")
        .says(index(5), "refused 8"),
        Case::standard("page-rules-before-index", "a page judges", &|s| {
            s.plan.page(s.forces).leftover = vec![0];
        })
        .refuses(vec![index(6), index(0)], 10),
        Case::standard("page-rules-before-the-answer", "a page judges", &|s| {
            // The key is found before the fault that follows it in the page.
            s.plan.page(s.leaves[1]).values[1] = vec![1];
        })
        .refuses(vec![lookup(0), copy(0, 0), index(2), walk(&[0, 1])], 10),
        Case::standard("page-rules-before-area", "copy is a lookup that also writes", &|s| {
            s.plan.page(s.leaves[2]).leftover = vec![0];
        })
        .refuses(vec![copy(9, 0)], 10),
        Case::standard("absent-before-area", "absent, with no copy", &|_| {})
            .says(copy(8, 0), "absent"),
        Case::standard("root-number-before-the-root-page", "then the map", &|s| {
            s.plan.page(s.forces).check_xor = 1;
            s.set_metadata("root.1", "x");
        })
        .refuses(vec![lookup(0), count(), examine()], 14),
    ]
}

/// "After the map is found, a state not so formed, then a number or depth that doesn't fit the map
/// or the page it is used at".
fn walks() -> Vec<Case> {
    let why = "after the map is found, a state not so formed, then a number or depth";
    let faulty = |name, edit: &dyn Fn(&mut Standard)| Case::standard(name, why, edit);
    vec![
        faulty("state-before-the-root-page", &|s| s.plan.page(s.forces).check_xor = 1)
            .refuses(vec![walk_from(FORCES, ILL_FORMED)], 12)
            .refuses(vec![walk(&[9, 9]), walk(&[]), walk(&[0, 0, 0])], 8),
        faulty("number-before-the-page-below", &|s| s.plan.page(s.leaves[2]).check_xor = 1)
            .refuses(vec![walk(&[3, 0]), walk(&[2])], 12)
            .refuses(vec![walk(&[2, 9]), walk(&[2, 0, 0])], 8),
        faulty("page-before-its-number", &|s| s.plan.page(s.leaves[0]).leftover = vec![1])
            .refuses(vec![walk(&[0, 9])], 10)
            .says(walk(&[1, 0]), "entry 7 8470 0"),
        faulty("fresh-before-nothing", &|s| s.set_metadata("root.1", "x"))
            .refuses(vec![walk(&[]), walk(&[9])], 14),
    ]
}

/// "depth first, a page's own rules before its keys, its separators before its children, a child
/// before its recorded count; it refuses at the first fault"
fn examined(name: &str, why: &str, number: u8, edit: &dyn Fn(&mut Standard)) -> Case {
    Case::standard(name, why, edit).refuses(vec![examine()], number)
}

fn examined_pages() -> Vec<Case> {
    let own = "a page's own rules before its keys";
    let separators = "its separators before its children";
    vec![
        examined("rules-before-keys", own, 10, &|s| {
            s.plan.page(s.leaves[1]).keys.swap(0, 1);
            s.plan.page(s.leaves[1]).leftover = vec![0];
        }),
        examined("rules-before-separators", own, 10, &|s| {
            s.plan.page(s.forces).keys.swap(0, 1);
            s.plan.page(s.forces).leftover = vec![0];
        }),
        examined("separators-before-children", separators, 12, &|s| {
            s.plan.page(s.forces).keys.swap(0, 1);
            s.plan.page(s.leaves[0]).check_xor = 1;
        }),
    ]
}

/// A separator that only equals one above would be found out by the leaves between them; it is
/// refused before they are read.
fn examined_separators() -> Vec<Case> {
    let between = "strictly between the nearest separators above, before its children";
    let equal = |name, half: usize, leaf: usize| {
        Case::standard(name, between, &|s| {
            let (half, leaf) = (s.beam_halves[half], s.beam_leaves[leaf]);
            s.plan.page(half).keys[0] = number_key(50);
            s.plan.page(leaf).check_xor = 1;
        })
        .refuses(vec![examine_of(BEAMS)], 12)
    };
    vec![
        equal("separator-at-the-left-one-before-children", 1, 2),
        equal("separator-at-the-right-one-before-children", 0, 0),
    ]
}

fn examined_children() -> Vec<Case> {
    let count = "a child before its recorded count";
    let first = "it refuses at the first fault";
    vec![
        examined("child-before-its-count", count, 8, &|s| {
            s.plan.page(s.forces).counts[0] = variable(3);
            s.plan.page(s.leaves[0]).check_xor = 1;
        }),
        examined("count-before-the-next-child", count, 12, &|s| {
            s.plan.page(s.forces).counts[0] = variable(3);
            s.plan.page(s.leaves[1]).check_xor = 1;
        }),
        examined("earlier-child-before-a-later-count", count, 8, &|s| {
            s.plan.page(s.leaves[1]).check_xor = 1;
            s.plan.page(s.forces).counts[2] = variable(3);
        }),
        examined("leaf-keys-before-the-next-child", first, 12, &|s| {
            s.plan.page(s.leaves[0]).keys.swap(0, 1);
            s.plan.page(s.leaves[1]).check_xor = 1;
        }),
    ]
}

fn examined_depth() -> Vec<Case> {
    let first = "it refuses at the first fault";
    vec![
        Case::standard("rules-before-empty-leaf", "a page's own rules first", &|s| {
            let page = s.plan.page(s.leaves[1]);
            page.n = vec![0];
            page.keys.clear();
            page.values.clear();
            page.leftover = vec![0];
        })
        .refuses(vec![examine(), walk(&[0, 1]), lookup(7)], 10),
        Case::standard("depth-first", "the examination goes depth first", &|s| {
            let (leaf, half) = (s.beam_leaves[1], s.beam_halves[1]);
            s.plan.page(leaf).check_xor = 1;
            s.plan.page(half).leftover = vec![0];
        })
        .refuses(vec![examine_of(BEAMS)], 8),
        Case::standard("half-before-the-other-halfs-separators", first, &|s| {
            let (leaf, half) = (s.beam_leaves[0], s.beam_halves[1]);
            s.plan.page(leaf).map = vec![1];
            s.plan.page(half).keys[0] = number_key(0);
        })
        .refuses(vec![examine_of(BEAMS)], 9),
    ]
}
