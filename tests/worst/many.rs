//! As many leaves as fit, no two that follow each other in the same chunk.

use super::draft::{Body, Draft};
use super::{Worst, FORCES_PLAN};
use crate::build::tree::number_key;
use crate::model::image::BLOCK;

/// Leaves of one entry under inner pages of this many children: both fill a chunk of one block.
const FAN_OUT: usize = 110;
/// What a chunk takes in the newest: its entry, and its inner page's child of the root.
const CHUNK_ROOM: usize = 48;

/// Two levels of inner pages over leaves.
pub fn leaves(size: usize) -> Worst {
    let mut draft = Draft::new();
    let inner = size / (BLOCK as usize + CHUNK_ROOM) - 4;
    let chunks: Vec<usize> = (0..inner).map(|_| draft.add_chunk()).collect();
    let newest = draft.add_chunk();
    let children: Vec<_> =
        (0..inner).map(|i| (put_inner(&mut draft, &chunks, i), FAN_OUT as u64)).collect();
    let separators: Vec<_> = (1..inner).map(|i| number_key((i * FAN_OUT) as i64)).collect();
    let forces = draft.put(newest, &Body::inner(FORCES_PLAN, &children, &separators));
    let root = draft.metadata(newest, &chunks, forces);
    let entries = inner * FAN_OUT;
    let examined = format!("report {entries} {} 3", entries + inner + 1);
    let (last, places) = (entries as u64 - 1, [inner as u64 - 1, FAN_OUT as u64 - 1, 0]);
    Worst::forces(draft.image(newest, root), last as i64, last, &places, examined)
}

/// An inner page and the leaves under it, each in another chunk.
fn put_inner(draft: &mut Draft, chunks: &[usize], number: usize) -> u64 {
    let keys = number * FAN_OUT..(number + 1) * FAN_OUT;
    let mut children = Vec::new();
    for key in keys.clone() {
        let leaf = Body::leaf(FORCES_PLAN, &[(number_key(key as i64), Vec::new())]);
        children.push((draft.put(chunks[key % chunks.len()], &leaf), 1));
    }
    let separators: Vec<_> = keys.skip(1).map(|key| number_key(key as i64)).collect();
    draft.put(chunks[number], &Body::inner(FORCES_PLAN, &children, &separators))
}
