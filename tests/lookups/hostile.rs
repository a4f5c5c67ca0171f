//! Stores in which locating takes very many pages unless what was located is remembered.

use crate::build::plan::Plan;
use crate::build::tree::{Entries, MapPlan, Placed};
use crate::family::standard::{chunk_entry, numbered, METADATA_PLAN};
use crate::model::page::DEEPEST;

/// Where the pages of a path lie, from the leaf up, the first of them in chunk number `first`.
#[derive(Clone, Copy)]
pub enum Path {
    /// All in one chunk: each asks for it anew.
    Level,
    /// Each in the chunk after the one before, up to the newest: the way down asks for chunks that
    /// take more and more questions.
    Rising,
}

impl Path {
    fn chunk(self, first: usize, page: usize, newest: usize) -> usize {
        match self {
            Path::Level => first,
            Path::Rising => newest.min(first + page),
        }
    }
}

/// A store whose metadata paths have as many pages as may be. The path to the entry of a chunk
/// begins in the chunk after it, the path to names and roots in the first. With 8 chunks and level
/// paths locating the first reads some 15 to the 8th pages.
pub fn hostile(chunks: u64, path: Path) -> Vec<u8> {
    let mut plan = Plan::new();
    for id in 1..=chunks + 1 {
        plan.add_chunk(id, 1, id);
    }
    let newest = chunks as usize;
    plan.name_chunk(newest);
    let rest = names(&mut plan);
    let put = |plan: &mut Plan, first: usize, entries: Entries| -> Placed {
        let leaf = METADATA_PLAN.leaf(plan, first, &entries);
        let pages = 1..DEEPEST as usize - 1;
        pages.fold(leaf, |below, page| {
            METADATA_PLAN.inner(plan, path.chunk(first, page, newest), &[below])
        })
    };
    let mut paths = Vec::new();
    for chunk in 0..newest {
        let entry = chunk_entry(&plan, chunk);
        paths.push(put(&mut plan, chunk + 1, vec![entry]));
    }
    paths.push(put(&mut plan, 0, rest));
    let root = METADATA_PLAN.inner(&mut plan, newest, &paths);
    let position = plan.position(root.page);
    plan.chunks[newest].header.set("root", position);
    plan.image()
}

/// The names of two maps, one as long as may be, and the root of the first.
fn names(plan: &mut Plan) -> Entries {
    let leaf = MapPlan { id: 1, kind: 0 }.leaf(plan, 0, &numbered(&[3, 4]));
    let position = plan.position(leaf.page);
    vec![
        (b"name.forces".to_vec(), b"1".to_vec()),
        (format!("name.{}", "x".repeat(1000)).into_bytes(), b"2".to_vec()),
        (b"root.1".to_vec(), format!("{position:x}").into_bytes()),
    ]
}
