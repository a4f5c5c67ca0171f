//! A whole image as it is to be written.

use super::chunk::{ChunkPlan, ChunkStart};
use super::line::{LinePlan, Sum};
use super::page::PagePlan;
use crate::model::fletcher::Edition;
use crate::model::image::BLOCK;

/// A page of a plan: its chunk's number in the plan and its number there.
#[derive(Clone, Copy, Debug, PartialEq, Eq)]
pub struct PageRef {
    pub chunk: usize,
    pub page: usize,
}

#[derive(Clone, Debug, Default)]
pub struct Plan {
    /// The image's blocks; what does not lie in them is not written.
    pub blocks: u64,
    /// Bytes after the last block.
    pub part_block: u64,
    /// The place of the newline in the chunk headers that are added.
    pub newline: u64,
    pub headers: Vec<LinePlan>,
    pub chunks: Vec<ChunkPlan>,
}

impl Plan {
    /// Two file headers that name no chunk.
    pub fn new() -> Plan {
        let bare = LinePlan::new(&[("H", 2), ("blockSize", 0x1000), ("format", 1)], Sum::Xor(0));
        let headers = vec![bare.clone(), bare];
        Plan { blocks: 2, part_block: 0, newline: 159, headers, chunks: Vec::new() }
    }

    /// Adds a chunk just past the image's end, in so many blocks: its number in the plan.
    pub fn add_chunk(&mut self, id: u64, len: u64, version: u64) -> usize {
        let start = ChunkStart { id, block: self.blocks, len, version, newline: self.newline };
        self.blocks += len;
        self.chunks.push(ChunkPlan::new(start));
        self.chunks.len() - 1
    }

    /// Lets both file headers name a chunk, after `H`.
    pub fn name_chunk(&mut self, chunk: usize) {
        for copy in 0..self.headers.len() {
            self.name_chunk_in(copy, chunk);
        }
    }

    pub fn name_chunk_in(&mut self, copy: usize, chunk: usize) {
        let from = &self.chunks[chunk].header;
        for name in ["block", "chunk", "version"] {
            let value = from.fields.iter().find(|(n, _)| n == name).expect("a chunk has it");
            self.headers[copy].set_text(name, &value.1);
        }
    }

    /// Writes every sum by an edition.
    pub fn set_edition(&mut self, edition: Edition) {
        let footers = self.chunks.iter_mut().map(|chunk| &mut chunk.footer);
        self.headers.iter_mut().chain(footers).for_each(|line| line.edition = edition);
    }

    pub fn put(&mut self, chunk: usize, page: PagePlan) -> PageRef {
        PageRef { chunk, page: self.chunks[chunk].put(page) }
    }

    pub fn page(&mut self, page: PageRef) -> &mut PagePlan {
        &mut self.chunks[page.chunk].pages[page.page]
    }

    pub fn position(&self, page: PageRef) -> u64 {
        let chunk = &self.chunks[page.chunk];
        chunk.pages[page.page].position(chunk.id)
    }

    /// The bytes to be written, by their place in the image: chunks as the plan lists them, the
    /// pages of a chunk after its lines, so that a later part covers an earlier one.
    pub fn parts(&self) -> Vec<(u64, Vec<u8>)> {
        let header = |(i, line): (usize, &LinePlan)| (i as u64 * BLOCK, line.bytes().0);
        let mut parts: Vec<_> = self.headers.iter().enumerate().map(header).collect();
        for chunk in &self.chunks {
            let start = chunk.block * BLOCK;
            parts.push((start, chunk.header.bytes().0));
            parts.push((start + chunk.footer_at(), chunk.footer.bytes().0));
            for page in &chunk.pages {
                parts.push((start + page.offset, page.bytes(chunk.id)));
            }
        }
        parts
    }

    /// The image.
    pub fn image(&self) -> Vec<u8> {
        let mut image = vec![0; (self.blocks * BLOCK + self.part_block) as usize];
        for (at, bytes) in self.parts() {
            write(&mut image, at, &bytes);
        }
        image
    }
}

/// Writes what of the bytes lies within the image.
pub fn write(image: &mut [u8], at: u64, bytes: &[u8]) {
    let start = (at as usize).min(image.len());
    let end = (at as usize + bytes.len()).min(image.len());
    image[start..end].copy_from_slice(&bytes[..end - start]);
}
