//! A metadata leaf of half the image, which is read for each of the chunks in the other half.

use super::draft::{names, Body, Draft, EMPTY_ENTRY};
use super::{Worst, FORCES_PLAN};
use crate::build::tree::{number_key, Entries};
use crate::family::standard::METADATA_PLAN;
use crate::model::image::BLOCK;

/// What a chunk takes in the newest: its entry, and its leaf's child of the map's root.
const CHUNK_ROOM: usize = 44;

/// Empty keys come before all others.
pub fn wide_leaf(size: usize) -> Worst {
    let chunks = (size / 2) / (BLOCK as usize + CHUNK_ROOM);
    let mut draft = Draft::new();
    let numbers: Vec<usize> = (0..chunks).map(|_| draft.add_chunk()).collect();
    let newest = draft.add_chunk();
    let forces = scattered(&mut draft, &numbers, newest);
    let mut entries: Entries = numbers.iter().map(|&chunk| draft.entry(chunk)).collect();
    entries.extend(names(forces));
    let empty = (size / 2 - 4 * BLOCK as usize) / EMPTY_ENTRY;
    let root = draft.put(newest, &Body::wide_leaf(METADATA_PLAN, empty, &entries));
    let image = draft.image(newest, root);
    let last = chunks as u64 - 1;
    Worst::forces(image, last as i64, last, &[last, 0], format!("report {chunks} {} 2", chunks + 1))
}

/// A map with a leaf of one entry in each of these chunks, its root in the newest. The keys are the
/// leaves' numbers.
pub fn scattered(draft: &mut Draft, chunks: &[usize], newest: usize) -> u64 {
    let mut children = Vec::new();
    for (number, &chunk) in chunks.iter().enumerate() {
        let leaf = Body::leaf(FORCES_PLAN, &[(number_key(number as i64), Vec::new())]);
        children.push((draft.put(chunk, &leaf), 1));
    }
    let separators: Vec<Vec<u8>> = (1..chunks.len()).map(|i| number_key(i as i64)).collect();
    draft.put(newest, &Body::inner(FORCES_PLAN, &children, &separators))
}
