//! The least store: three blocks, one chunk, `forces` as one leaf, and the metadata as another.

use super::standard::{numbered, METADATA_PLAN};
use crate::build::page::{measured, smallest_code, variable, PagePlan};
use crate::build::plan::{PageRef, Plan};
use crate::build::tree::MapPlan;

pub struct Tiny {
    pub plan: Plan,
    /// Keys 3 and 4, 24 bytes each, at the first place after the chunk header's newline.
    pub leaf: PageRef,
    pub metadata: PageRef,
    /// What `root.1` says, where it is not the leaf's position.
    pub root: Option<u64>,
}

/// With the chunk header's newline at that place, and so many blocks for the chunk.
pub fn tiny_with(newline: u64, len: u64) -> Tiny {
    let mut plan = Plan::new();
    plan.newline = newline;
    plan.add_chunk(1, len, 1);
    plan.name_chunk(0);
    // Room for a leaf that grows; its code is the smallest all the same.
    plan.chunks[0].slack = 2048;
    let leaf = MapPlan { id: 1, kind: 0 }.leaf(&mut plan, 0, &numbered(&[3, 4])).page;
    plan.page(leaf).code = smallest_code(plan.page(leaf).true_length());
    let entries = [(b"name.forces".to_vec(), b"1".to_vec()), (b"root.1".to_vec(), vec![b'f'; 16])];
    let metadata = METADATA_PLAN.leaf(&mut plan, 0, &entries).page;
    Tiny { plan, leaf, metadata, root: None }
}

pub fn tiny() -> Tiny {
    tiny_with(159, 1)
}

impl Tiny {
    pub fn leaf(&mut self) -> &mut PagePlan {
        self.plan.page(self.leaf)
    }

    /// Sets the leaf's last value so that the leaf takes so many bytes, and its smallest code.
    pub fn set_leaf_length(&mut self, length: u64) {
        let leaf = self.plan.page(self.leaf);
        let room = length - (leaf.true_length() - leaf.values[1].len() as u64);
        let body = (0..room).rev().find(|&b| b + variable(b).len() as u64 == room);
        let body = body.expect("a value of that many bytes with its length");
        leaf.values[1] = measured(&vec![b'v'; body as usize]);
        leaf.code = smallest_code(length);
    }

    /// Gives the one chunk another id, in its lines and in the file headers.
    pub fn set_chunk(&mut self, id: u64) {
        let chunk = &mut self.plan.chunks[0];
        chunk.id = id;
        chunk.header.set("chunk", id);
        chunk.footer.set("chunk", id);
        self.plan.name_chunk(0);
    }

    /// The image as it was before C-13: each page has the low 16 bits as its check value.
    pub fn low_bits_image(mut self) -> Vec<u8> {
        for chunk in &mut self.plan.chunks {
            chunk.pages.iter_mut().for_each(|page| page.check_low_bits(chunk.id));
        }
        self.image()
    }

    /// The image, with `root.1` and the chunk's root saying where the pages are.
    pub fn image(mut self) -> Vec<u8> {
        let root = self.root.unwrap_or(self.plan.position(self.leaf));
        self.plan.page(self.metadata).values[1] = measured(format!("{root:x}").as_bytes());
        let metadata = self.plan.position(self.metadata);
        self.plan.chunks[0].header.set("root", metadata);
        self.plan.image()
    }
}
