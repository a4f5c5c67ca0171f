//! A chunk as it is to be written.

use super::line::{LinePlan, Sum};
use super::page::{smallest_code, PagePlan};
use crate::model::image::BLOCK;
use crate::model::line::FOOTER;

#[derive(Clone, Debug)]
pub struct ChunkPlan {
    /// The id that positions and check values are made with; the lines say their own.
    pub id: u64,
    /// Where the chunk is put, and its room in blocks; the lines say their own.
    pub block: u64,
    pub len: u64,
    pub header: LinePlan,
    pub footer: LinePlan,
    pub pages: Vec<PagePlan>,
    /// By how many bytes a page can grow, in its place and under its length code.
    pub slack: u64,
    /// Where the next page goes.
    free: u64,
}

/// What a chunk is made from; `next` is just past its end until it is set.
#[derive(Clone, Copy)]
pub struct ChunkStart {
    pub id: u64,
    pub block: u64,
    pub len: u64,
    pub version: u64,
    /// The place of the header line's newline, if the text leaves room.
    pub newline: u64,
}

impl ChunkPlan {
    pub fn new(start: ChunkStart) -> ChunkPlan {
        let ChunkStart { id, block, len, version, newline } = start;
        let named = [("chunk", id), ("block", block)];
        let rest = [("len", len), ("next", block + len), ("pages", 1), ("root", 0)];
        let fields = [&named[..], &rest[..], &[("version", version)]].concat();
        let mut header = LinePlan::new(&fields, Sum::None);
        header.newline_from = newline as usize;
        let footer = LinePlan::new(&[&named[..], &[("version", version)]].concat(), Sum::Xor(0));
        ChunkPlan { id, block, len, header, footer, pages: Vec::new(), slack: 0, free: newline + 1 }
    }

    /// Where the footer begins.
    pub fn footer_at(&self) -> u64 {
        self.len * BLOCK - FOOTER
    }

    /// Whether a page of that length still fits.
    pub fn has_room(&self, length: u64) -> bool {
        self.free + length <= self.footer_at()
    }

    /// Puts a page at the next free place, with the smallest code that holds it and the slack: its
    /// number here.
    pub fn put(&mut self, mut page: PagePlan) -> usize {
        let length = page.true_length();
        assert!(self.has_room(length), "chunk {} is full", self.id);
        page.offset = self.free;
        page.code = smallest_code(length + self.slack);
        self.free += length + self.slack;
        self.pages.push(page);
        self.pages.len() - 1
    }
}
