//! The pages of a map from its entries, level by level.

use super::page::PagePlan;
use super::plan::{PageRef, Plan};

pub type Entries = Vec<(Vec<u8>, Vec<u8>)>;

/// A page that is put, the levels from it down to the lowest leaf, the entries under it, and its
/// first and last key.
#[derive(Clone, Debug)]
pub struct Placed {
    pub page: PageRef,
    pub levels: u64,
    pub count: u64,
    pub first: Vec<u8>,
    pub last: Vec<u8>,
}

/// A map under construction: its id and kind.
#[derive(Clone, Copy)]
pub struct MapPlan {
    pub id: u64,
    pub kind: u64,
}

impl MapPlan {
    /// Puts a leaf.
    pub fn leaf(&self, plan: &mut Plan, chunk: usize, entries: &[(Vec<u8>, Vec<u8>)]) -> Placed {
        let page = plan.put(chunk, PagePlan::leaf(self.id, self.kind, entries));
        let key =
            |entry: Option<&(Vec<u8>, Vec<u8>)>| entry.map(|e| e.0.clone()).unwrap_or_default();
        let (first, last) = (key(entries.first()), key(entries.last()));
        Placed { page, levels: 1, count: entries.len() as u64, first, last }
    }

    /// Puts an inner page over children; a separator is the first key to its right.
    pub fn inner(&self, plan: &mut Plan, chunk: usize, children: &[Placed]) -> Placed {
        let separators: Vec<_> = children[1..].iter().map(|child| child.first.clone()).collect();
        self.inner_with(plan, chunk, children, &separators)
    }

    pub fn inner_with(
        &self,
        plan: &mut Plan,
        chunk: usize,
        children: &[Placed],
        separators: &[Vec<u8>],
    ) -> Placed {
        let positions: Vec<_> = children.iter().map(|c| (plan.position(c.page), c.count)).collect();
        let page = plan.put(chunk, PagePlan::inner(self.id, self.kind, &positions, separators));
        let count = children.iter().map(|child| child.count).sum();
        let last = children[children.len() - 1].last.clone();
        let levels = 1 + children.iter().map(|child| child.levels).max().unwrap_or(0);
        Placed { page, levels, count, first: children[0].first.clone(), last }
    }
}

/// A key of kind 0.
pub fn number_key(number: i64) -> Vec<u8> {
    number.to_be_bytes().to_vec()
}

/// Entries in key order. A number key's bytes do not sort as its numbers do.
pub fn sorted(kind: u64, mut entries: Entries) -> Entries {
    entries.sort_by_key(|(key, _)| sort_key(kind, key));
    entries
}

fn sort_key(kind: u64, key: &[u8]) -> Vec<u8> {
    let mut bytes = key.to_vec();
    if kind == 0 {
        // The sign bit turned over makes signed numbers sort by their bytes.
        bytes[0] ^= 0x80;
    }
    bytes
}
