//! The standard store: six maps of both kinds over three chunks, small enough for the listing.
//!
//! | chunk | block | what is in it |
//! |---|---|---|
//! | 1 | 2 | the first leaves of `forces` and `notes`, a leaf of `beams` |
//! | 2 | 3, 4 | the other leaves, and the metadata leaf of names and roots |
//! | 3, newest | 5 | the metadata's root and its leaf of chunks, the maps' roots |

use crate::build::page::measured;
use crate::build::plan::{PageRef, Plan};
use crate::build::tree::{number_key, Entries, MapPlan, Placed};
use crate::vectors::bytes_word;

pub struct Standard {
    pub plan: Plan,
    pub forces: PageRef,
    /// Keys -5, -1; 0, 7; 9, 100.
    pub leaves: Vec<PageRef>,
    pub notes: PageRef,
    pub note_leaves: Vec<PageRef>,
    pub bare: PageRef,
    pub beams: PageRef,
    pub beam_halves: Vec<PageRef>,
    /// Keys 10, 20; 30, 40; 50, 60; 70, 80.
    pub beam_leaves: Vec<PageRef>,
    pub metadata: PageRef,
    pub chunk_leaf: PageRef,
    pub name_leaf: PageRef,
}

/// Numbers of the chunks in the plan.
pub const OLD: usize = 0;
pub const MIDDLE: usize = 1;
pub const NEWEST: usize = 2;

const FORCES: MapPlan = MapPlan { id: 1, kind: 0 };
const NOTES: MapPlan = MapPlan { id: 2, kind: 1 };
const BARE: MapPlan = MapPlan { id: 5, kind: 0 };
const BEAMS: MapPlan = MapPlan { id: 6, kind: 0 };
pub const METADATA_PLAN: MapPlan = MapPlan { id: 0, kind: 1 };

pub fn standard() -> Standard {
    let mut plan = Plan::new();
    for (id, len) in [(1, 1), (2, 2), (3, 1)] {
        let chunk = plan.add_chunk(id, len, id);
        plan.chunks[chunk].slack = 16;
    }
    plan.name_chunk(NEWEST);
    let (forces, leaves) = forces_map(&mut plan);
    let (notes, note_leaves) = notes_map(&mut plan);
    let bare = BARE.leaf(&mut plan, NEWEST, &[]).page;
    let (beams, beam_halves, beam_leaves) = beams_map(&mut plan);
    let roots = [(1, Some(forces)), (2, Some(notes)), (4, None), (5, Some(bare)), (6, Some(beams))];
    let (metadata, chunk_leaf, name_leaf) = metadata_map(&mut plan, &roots);
    let refs = |placed: Vec<Placed>| placed.into_iter().map(|p| p.page).collect();
    Standard {
        plan,
        forces,
        leaves: refs(leaves),
        notes,
        note_leaves: refs(note_leaves),
        bare,
        beams,
        beam_halves: refs(beam_halves),
        beam_leaves: refs(beam_leaves),
        metadata,
        chunk_leaf,
        name_leaf,
    }
}

/// A value of so many bytes that says whose it is.
pub fn value(key: i64, length: usize) -> Vec<u8> {
    (0..length).map(|i| (key as u8).wrapping_add(i as u8)).collect()
}

pub fn numbered(keys: &[i64]) -> Entries {
    let length = |key: i64| if key % 7 == 0 { 0 } else { 24 };
    keys.iter().map(|&key| (number_key(key), value(key, length(key)))).collect()
}

fn texts(keys: &[&str]) -> Entries {
    keys.iter().map(|key| (key.as_bytes().to_vec(), key.as_bytes().repeat(2))).collect()
}

fn forces_map(plan: &mut Plan) -> (PageRef, Vec<Placed>) {
    let leaves = vec![
        FORCES.leaf(plan, OLD, &numbered(&[-5, -1])),
        FORCES.leaf(plan, OLD, &numbered(&[0, 7])),
        FORCES.leaf(plan, MIDDLE, &numbered(&[9, 100])),
    ];
    (FORCES.inner(plan, NEWEST, &leaves).page, leaves)
}

fn notes_map(plan: &mut Plan) -> (PageRef, Vec<Placed>) {
    let leaves = vec![
        NOTES.leaf(plan, OLD, &texts(&["", "a", "ab"])),
        NOTES.leaf(plan, MIDDLE, &texts(&["abc", "b", "~"])),
    ];
    (NOTES.inner(plan, NEWEST, &leaves).page, leaves)
}

fn beams_map(plan: &mut Plan) -> (PageRef, Vec<Placed>, Vec<Placed>) {
    let keys = [[10, 20], [30, 40], [50, 60], [70, 80]];
    let chunks = [OLD, MIDDLE, MIDDLE, NEWEST];
    let leaf = |plan: &mut Plan, i: usize| BEAMS.leaf(plan, chunks[i], &numbered(&keys[i]));
    let leaves: Vec<Placed> = (0..4).map(|i| leaf(plan, i)).collect();
    let halves =
        vec![BEAMS.inner(plan, MIDDLE, &leaves[..2]), BEAMS.inner(plan, NEWEST, &leaves[2..])];
    (BEAMS.inner(plan, NEWEST, &halves).page, halves, leaves)
}

/// The metadata: its root, the leaf of chunks, the leaf of names and roots.
fn metadata_map(plan: &mut Plan, roots: &[(u64, Option<PageRef>)]) -> (PageRef, PageRef, PageRef) {
    let chunks: Entries = [OLD, MIDDLE].iter().map(|&chunk| chunk_entry(plan, chunk)).collect();
    let names = [("bare", "5"), ("beams", "6"), ("blank", "3"), ("forces", "1"), ("notes", "2")];
    let name =
        |(name, id): &(&str, &str)| (format!("name.{name}").into_bytes(), id.as_bytes().to_vec());
    let mut rest: Entries = names.iter().chain(&[("zero", "4")]).map(name).collect();
    for (id, root) in roots {
        let position = root.map_or(0, |page| plan.position(page));
        rest.push((format!("root.{id:x}").into_bytes(), format!("{position:x}").into_bytes()));
    }
    let chunk_leaf = METADATA_PLAN.leaf(plan, NEWEST, &chunks);
    let name_leaf = METADATA_PLAN.leaf(plan, MIDDLE, &rest);
    let root = METADATA_PLAN.inner(plan, NEWEST, &[chunk_leaf.clone(), name_leaf.clone()]).page;
    let position = plan.position(root);
    plan.chunks[NEWEST].header.set("root", position);
    (root, chunk_leaf.page, name_leaf.page)
}

/// The entry `chunk.N`, its value the chunk's header line without trailing spaces.
pub fn chunk_entry(plan: &Plan, chunk: usize) -> (Vec<u8>, Vec<u8>) {
    let chunk = &plan.chunks[chunk];
    (format!("chunk.{:x}", chunk.id).into_bytes(), chunk.header.text())
}

impl Standard {
    /// Gives the value of a metadata entry.
    pub fn set_metadata(&mut self, key: &str, value: &str) {
        let (page, i) = self.metadata_entry(key);
        self.plan.page(page).values[i] = measured(value.as_bytes());
    }

    /// Adds an entry after the metadata's other chunk entries.
    pub fn add_chunk_entry(&mut self, key: &str, value: &str) {
        let page = self.plan.page(self.chunk_leaf);
        page.keys.push(measured(key.as_bytes()));
        page.values.push(measured(value.as_bytes()));
        page.n[0] += 1;
    }

    pub fn remove_metadata(&mut self, key: &str) {
        let (page, i) = self.metadata_entry(key);
        let page = self.plan.page(page);
        page.keys.remove(i);
        page.values.remove(i);
        page.n[0] -= 1;
    }

    fn metadata_entry(&mut self, key: &str) -> (PageRef, usize) {
        let written = measured(key.as_bytes());
        for page in [self.chunk_leaf, self.name_leaf] {
            let at = self.plan.page(page).keys.iter().position(|k| *k == written);
            if let Some(i) = at {
                return (page, i);
            }
        }
        panic!("no metadata entry {}", bytes_word(key.as_bytes()))
    }

    /// Blocks added at the image's end, so that the last 128 bytes are no footer.
    pub fn add_tail(&mut self) {
        self.plan.blocks += 1;
    }
}
