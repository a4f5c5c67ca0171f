//! The pages of a random map, spread over chunks.

use super::Random;
use crate::build::page::PagePlan;
use crate::build::plan::Plan;
use crate::build::tree::{number_key, Entries, MapPlan, Placed};

/// A leaf is closed before it passes this.
const LEAF_BYTES: usize = 1000;

/// Where pages go, and how many each page takes.
pub struct Shape {
    /// The chunks that pages may go into, by their numbers in the plan.
    pub chunks: Vec<usize>,
    /// Room to be left in each.
    pub reserve: u64,
    pub leaf: u64,
    pub fan_out: u64,
    /// Single-child pages put above the root.
    pub extra_depth: u64,
}

/// The root of a map of these entries; none if the chunks have no room for it.
pub fn tree(
    random: &mut Random,
    plan: &mut Plan,
    map: MapPlan,
    shape: &Shape,
    entries: &Entries,
) -> Option<Placed> {
    let mut level: Vec<Placed> = Vec::new();
    for group in leaf_groups(random, shape, entries) {
        let chunk = room(random, plan, shape, &PagePlan::leaf(map.id, map.kind, &group))?;
        level.push(map.leaf(plan, chunk, &group));
    }
    while level.len() > 1 {
        level = next_level(random, plan, map, shape, level)?;
    }
    let mut root = level.pop()?;
    // An empty leaf is sound only as the root.
    let extra_depth = if entries.is_empty() { 0 } else { shape.extra_depth };
    for _ in 0..extra_depth {
        root = inner(random, plan, map, shape, vec![root])?;
    }
    Some(root)
}

/// The entries of each leaf, left to right; one empty leaf for no entries.
fn leaf_groups(random: &mut Random, shape: &Shape, entries: &Entries) -> Vec<Entries> {
    let mut groups: Vec<Entries> = vec![Vec::new()];
    let mut due = random.range(1, shape.leaf);
    let mut bytes = 0;
    for entry in entries {
        let size = entry.0.len() + entry.1.len();
        let group = groups.last().map_or(0, |group| group.len() as u64);
        if group > 0 && (group >= due || bytes + size > LEAF_BYTES) {
            groups.push(Vec::new());
            due = random.range(1, shape.leaf);
            bytes = 0;
        }
        bytes += size;
        groups.last_mut().expect("one group at least").push(entry.clone());
    }
    groups
}

/// A level of inner pages over a level; at least two children once, so that levels end.
fn next_level(
    random: &mut Random,
    plan: &mut Plan,
    map: MapPlan,
    shape: &Shape,
    level: Vec<Placed>,
) -> Option<Vec<Placed>> {
    let mut above = Vec::new();
    let mut rest = level.into_iter().peekable();
    while rest.peek().is_some() {
        let least = if above.is_empty() { 2 } else { 1 };
        let take = random.range(least, shape.fan_out.max(least)) as usize;
        let children: Vec<Placed> = rest.by_ref().take(take).collect();
        above.push(inner(random, plan, map, shape, children)?);
    }
    Some(above)
}

fn inner(
    random: &mut Random,
    plan: &mut Plan,
    map: MapPlan,
    shape: &Shape,
    children: Vec<Placed>,
) -> Option<Placed> {
    let pairs = children.windows(2);
    let separators: Vec<_> =
        pairs.map(|p| separator(random, map.kind, &p[0].last, &p[1].first)).collect();
    let zeros = vec![(0, 0); children.len()];
    let sized = PagePlan::inner(map.id, map.kind, &zeros, &separators);
    let chunk = room(random, plan, shape, &sized)?;
    Some(map.inner_with(plan, chunk, &children, &separators))
}

/// A key above `left` and not above `right`.
fn separator(random: &mut Random, kind: u64, left: &[u8], right: &[u8]) -> Vec<u8> {
    if kind == 0 {
        let number = |key: &[u8]| i64::from_be_bytes(key.try_into().expect("8 bytes")) as i128;
        let step = (number(right) - number(left)).clamp(1, 1000) as u64;
        return number_key((number(right) - random.below(step) as i128) as i64);
    }
    // The shortest beginning of the right key that is above the left one, or any longer one.
    let shortest = (0..=right.len()).find(|&n| &right[..n] > left).unwrap_or(right.len());
    right[..random.range(shortest as u64, right.len() as u64) as usize].to_vec()
}

/// A chunk with room for the page and what its counts may yet take.
fn room(random: &mut Random, plan: &Plan, shape: &Shape, page: &PagePlan) -> Option<usize> {
    let length = page.true_length() + 16 + shape.reserve;
    let fits: Vec<usize> =
        shape.chunks.iter().copied().filter(|&chunk| plan.chunks[chunk].has_room(length)).collect();
    (!fits.is_empty()).then(|| *random.pick(&fits))
}
