//! Depth: maps and metadata that go too far down.

use crate::build::page::PagePlan;
use crate::build::plan::Plan;
use crate::family::base::deep;
use crate::family::case::Case;
use crate::family::questions::*;
use crate::model::walk::{State, FRESH};

/// "depth" comes before everything else of a page. The calls that go below the root meet it.
pub fn cases() -> Vec<Case> {
    let seventeenth = "a page at depth 17, the root being 1";
    let order = "depth before child position 0, location, place, check, fields";
    let below = || page_calls(3, 0, &[]);
    let last_child = |name, position: u64| {
        let mut plan = deep(17, 1);
        plan.chunks[0].pages[1].children[0] = position;
        Case::new(name, order, plan.image()).refuses(below(), 11)
    };
    let last_leaf = |name, edit: &dyn Fn(&mut PagePlan)| {
        let mut plan = deep(17, 1);
        edit(&mut plan.chunks[0].pages[0]);
        Case::new(name, order, plan.image()).refuses(below(), 11)
    };
    let walk_16 = walk_from(FORCES, State { depth: 16, ..FRESH });
    vec![
        Case::new("map-17-deep", seventeenth, deep(17, 1).image())
            .refuses(below(), 11)
            .says(count(), "count 2")
            .says(find("forces"), "id 1")
            .says(walk_16, "refused 12"),
        Case::new("metadata-17-deep", seventeenth, deep(1, 17).image()).refuses(every_call(), 11),
        last_child("depth-before-position-0", 0),
        last_child("depth-before-location", 99 << 38 | 1 << 16),
        last_child("depth-before-place", 1 << 38 | 1 << 6),
        last_leaf("depth-before-check", &|p| p.check_xor = 1),
        last_leaf("depth-before-map-id", &|p| p.map = vec![2]),
        last_leaf("depth-before-contents", &|p| p.leftover = vec![0]),
        Case::new("map-that-holds-itself", seventeenth, itself().image())
            .refuses(below(), 11)
            .says(count(), "count 2"),
    ]
}

/// The root's only child is the root.
fn itself() -> Plan {
    let mut plan = deep(2, 1);
    let root = plan.chunks[0].pages[1].position(1);
    plan.chunks[0].pages[1].children[0] = root;
    plan
}
