//! Trees of depth 16: one that is wide, and one whose leaf takes eight open questions.

use super::draft::{names, Body, Draft};
use super::{Worst, FORCES_PLAN};
use crate::build::tree::number_key;
use crate::family::standard::METADATA_PLAN;
use crate::model::image::BLOCK;
use crate::model::locate::QUESTIONS;
use crate::model::page::DEEPEST;

/// What a chunk takes in the newest: its entry.
const CHUNK_ROOM: usize = 24;

/// One key a page and each page in a chunk of its own.
pub fn deep(size: usize) -> Worst {
    let chunks = size / (BLOCK as usize + CHUNK_ROOM) - 4;
    let mut draft = Draft::new();
    let chunks: Vec<usize> = (0..chunks).map(|_| draft.add_chunk()).collect();
    let newest = draft.add_chunk();
    // Every inner page has two children, so that there is one leaf more than inner pages.
    let entries = chunks.len() / 2 + 1;
    let mut free = chunks.iter().copied().chain([newest]);
    let forces = Deep { draft: &mut draft, free: &mut free }.page(0, entries as u64, 1);
    let root = draft.metadata(newest, &chunks, forces);
    let image = draft.image(newest, root);
    let last = entries as u64 - 1;
    // The last leaf is at the depth of the balanced tree that hangs below the steps.
    let examined = format!("report {entries} {} {DEEPEST}", 2 * entries - 1);
    Worst::forces(image, last as i64, last, &[0, 0], examined)
}

struct Deep<'d> {
    draft: &'d mut Draft,
    free: &'d mut dyn Iterator<Item = usize>,
}

impl Deep<'_> {
    /// The tree of some entries at a depth: steps with a leaf on their left, as long as a balanced
    /// tree of the rest is not deep enough.
    fn page(&mut self, first: u64, entries: u64, depth: u64) -> u64 {
        let chunk = self.free.next().expect("there are as many chunks as pages");
        if entries == 1 {
            let leaf = Body::leaf(FORCES_PLAN, &[(number_key(first as i64), Vec::new())]);
            return self.draft.put(chunk, &leaf);
        }
        let halves = u64::from((entries - 1).next_power_of_two().trailing_zeros());
        let left = if depth + halves < DEEPEST { 1 } else { entries / 2 };
        let children = [
            (self.page(first, left, depth + 1), left),
            (self.page(first + left, entries - left, depth + 1), entries - left),
        ];
        let separator = number_key((first + left) as i64);
        self.draft.put(chunk, &Body::inner(FORCES_PLAN, &children, &[separator]))
    }
}

/// Eight questions are open below the lowest of 16 levels, which takes the most stack. The entry of
/// each chunk is in the one before, and the last has the map's leaf; all else is in the newest.
pub fn questioned(_size: usize) -> Worst {
    let mut draft = Draft::new();
    let chunks: Vec<usize> = (0..QUESTIONS).map(|_| draft.add_chunk()).collect();
    let newest = draft.add_chunk();
    let last = chunks[chunks.len() - 1];
    let leaf = Body::leaf(FORCES_PLAN, &[(number_key(7), vec![7; 24])]);
    let lowest = draft.put(last, &leaf);
    let forces = (1..DEEPEST)
        .fold(lowest, |below, _| draft.put(newest, &Body::inner(FORCES_PLAN, &[(below, 1)], &[])));
    let mut children = Vec::new();
    let mut separators = Vec::new();
    let mut before = newest;
    for chunk in chunks {
        let entry = draft.entry(chunk);
        separators.extend((before != newest).then(|| entry.0.clone()));
        children.push((draft.put(before, &Body::leaf(METADATA_PLAN, &[entry])), 1));
        before = chunk;
    }
    let names = names(forces);
    separators.push(names[0].0.clone());
    children.push((draft.put(newest, &Body::leaf(METADATA_PLAN, &names)), names.len() as u64));
    let root = draft.put(newest, &Body::inner(METADATA_PLAN, &children, &separators));
    let examined = format!("report 1 {DEEPEST} {DEEPEST}");
    Worst::forces(draft.image(newest, root), 7, 0, &[0; DEEPEST as usize], examined)
}
