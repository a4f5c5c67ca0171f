//! "What is read": one lent image, counted in blocks.

use super::refusal::{Outcome, IMAGE_SIZE};

/// "A block is 4,096 bytes."
pub const BLOCK: u64 = 4096;
/// "It has 3 to 268,435,456 blocks."
pub const LEAST_BLOCKS: u64 = 3;
pub const MOST_BLOCKS: u64 = 268_435_456;

/// A run of bytes of the image, by the byte offset of its first one.
#[derive(Clone, Copy, Debug, PartialEq, Eq, PartialOrd, Ord)]
pub struct Span {
    pub at: u64,
    pub length: u64,
}

/// The whole blocks of a lent image.
#[derive(Clone, Copy)]
pub struct Image<'a> {
    bytes: &'a [u8],
    pub blocks: u64,
}

impl<'a> Image<'a> {
    /// "The image is its whole blocks; a last part block is ignored. It has 3 to 268,435,456
    /// blocks."
    pub fn new(lent: &'a [u8]) -> Outcome<Image<'a>> {
        let blocks = lent.len() as u64 / BLOCK;
        if !(LEAST_BLOCKS..=MOST_BLOCKS).contains(&blocks) {
            return Err(IMAGE_SIZE);
        }
        Ok(Image { bytes: &lent[..(blocks * BLOCK) as usize], blocks })
    }

    /// The first `length` bytes of block `block`; none if the image has no such block.
    pub fn block_start(&self, block: u64, length: u64) -> Option<&'a [u8]> {
        (block < self.blocks).then(|| self.bytes_of(Span { at: block * BLOCK, length }))
    }

    /// The last `length` bytes of block `block`; none if the image has no such block.
    pub fn block_end(&self, block: u64, length: u64) -> Option<&'a [u8]> {
        let at = |b| b * BLOCK + BLOCK - length;
        (block < self.blocks).then(|| self.bytes_of(Span { at: at(block), length }))
    }

    /// The bytes of a span that is known to lie in the image.
    pub fn bytes_of(&self, span: Span) -> &'a [u8] {
        &self.bytes[span.at as usize..(span.at + span.length) as usize]
    }
}
