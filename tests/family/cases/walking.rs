//! The walk: states of every form, and the maps it meets.

use crate::build::page::PagePlan;
use crate::family::case::Case;
use crate::family::questions::*;
use crate::model::walk::{State, DONE, FRESH, GOING_ON, PLACES};
use crate::subject::MapArgs;

pub fn cases() -> Vec<Case> {
    vec![recorded(), ill_formed(), unfit(), steps(), empty_leaf(), empty_maps(), moved_leaf()]
}

fn with(places: &[u64], depth: u64, last: u64) -> State {
    State { depth, last, ..state(places) }
}

/// "Done or a refusal ... is given again at each later step before anything is judged, the state
/// unchanged."
fn recorded() -> Case {
    let why = "Done or a refusal is given again before anything is judged, the state unchanged";
    let nonsense = MapArgs { id: u64::MAX, kind: 9 };
    let mut case = Case::standard("walk-recorded-answer", why, &|_| {});
    for number in 1..=16 {
        let words = format!("refused {number}; state 3 {number} 1,5,9");
        case = case.says(walk_from(nonsense, with(&[1, 5, 9], 3, number)), &words);
    }
    let done = format!("done; state 99 {DONE} 1,5,9");
    case = case.says(walk_from(nonsense, with(&[1, 5, 9], 99, DONE)), &done);
    // A refusal of the arguments is recorded like any other.
    case.says(walk_from(nonsense, FRESH), "refused 1; state 0 1 -")
}

/// "a state not so formed ... refuses with 12"
fn ill_formed() -> Case {
    let why = "after the map is found, a state not so formed refuses with 12";
    let mut last = [0; PLACES];
    last[15] = 1;
    let ill = [
        with(&[1], 0, GOING_ON),
        State { places: last, ..FRESH },
        with(&[0, 0, 1], 2, GOING_ON),
        State { places: last, depth: 15, last: GOING_ON },
        with(&[0, 0], 17, GOING_ON),
        with(&[], u64::MAX, GOING_ON),
        with(&[0, 0], 2, 17),
        with(&[], 0, DONE - 1),
        with(&[], 0, u64::MAX),
    ];
    let case = Case::standard("walk-state-ill-formed", why, &|_| {});
    let asked = |map| ill.iter().map(|&state| walk_from(map, state)).collect::<Vec<_>>();
    case.refuses(asked(FORCES), 12).refuses(asked(BLANK), 12).refuses(asked(BARE), 12)
}

/// "a number or depth that doesn't fit the map or the page it is used at, refuses with 12"
fn unfit() -> Case {
    let why = "a number or depth that doesn't fit the map or the page it is used at";
    let forces: [&[u64]; 8] =
        [&[0], &[2], &[3, 0], &[0, 2], &[0, 0, 0], &[2, 1, 0], &[u64::MAX, 0], &[1, u64::MAX]];
    let others = [
        walk_in(BLANK, &[0]),
        walk_in(ZERO, &[0, 0]),
        walk_in(BARE, &[0]),
        walk_in(BARE, &[0, 0]),
        walk_in(BEAMS, &[1, 1]),
        walk_in(BEAMS, &[1, 2, 0]),
    ];
    let all = [&forces.map(walk)[..], &others].concat();
    let deepest = walk_from(FORCES, State { depth: 16, ..FRESH });
    Case::standard("walk-state-unfit", why, &|_| {}).refuses(all, 12).refuses(vec![deepest], 12)
}

/// Steps through the standard store: within a leaf, to the next leaf, over two levels, to Done.
fn steps() -> Case {
    let why = "each step descends again from the root by them and moves to the next entry";
    Case::standard("walk-steps", why, &|_| {})
        .says(walk(&[]), "entry -5 8378 24; state 2 0 -")
        .says(walk(&[0, 0]), "entry -1 8403 24; state 2 0 0,1")
        .says(walk(&[0, 1]), "entry 0 8469 0; state 2 0 1")
        .says(walk(&[1, 0]), "entry 7 8470 0; state 2 0 1,1")
        .says(walk(&[2, 1]), &format!("done; state 2 {DONE} 2,1"))
        .says(walk_in(BEAMS, &[0, 0, 1]), "entry 30 12611 24; state 3 0 0,1")
        .says(walk_in(BEAMS, &[0, 1, 1]), "entry 50 12702 24; state 3 0 1")
        .says(walk_in(BEAMS, &[1, 1, 1]), &format!("done; state 3 {DONE} 1,1,1"))
}

/// "An empty leaf that is not the root refuses with 12."
fn empty_leaf() -> Case {
    let why = "an empty leaf that is not the root refuses with 12";
    Case::standard("empty-leaf-below-the-root", why, &|s| {
        let page = s.plan.page(s.leaves[1]);
        let PagePlan { offset, code, .. } = *page;
        *page = PagePlan { offset, code, ..PagePlan::leaf(1, 0, &[]) };
    })
    .says(walk(&[0, 1]), "refused 12; state 2 12 0,1")
    .says(walk(&[0, 0]), "entry -1 8403 24; state 2 0 0,1")
    .says(walk(&[1, 0]), "refused 12")
    .says(examine(), "refused 12")
    .says(lookup(7), "absent")
    .says(index(2), "refused 15")
}

fn empty_maps() -> Case {
    let why = "its first step goes to the leftmost entry; an empty map has none";
    let done = format!("done; state 0 {DONE} -");
    Case::standard("walk-of-empty-maps", why, &|_| {})
        .says(walk_in(BLANK, &[]), &done)
        .says(walk_in(ZERO, &[]), &done)
        .says(walk_in(BARE, &[]), &done)
}

/// A step that meets a fault keeps places and depth.
fn moved_leaf() -> Case {
    let why = "a refusal keeps places and depth, is recorded";
    Case::standard("walk-meets-a-fault", why, &|s| s.plan.page(s.leaves[2]).check_xor = 2)
        .says(walk(&[1, 0]), "entry 7 8470 0; state 2 0 1,1")
        .says(walk(&[1, 1]), "refused 8; state 2 8 1,1")
        .says(walk(&[2, 0]), "refused 8; state 2 8 2")
}
