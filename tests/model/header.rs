//! The two file header copies.

use super::fletcher::Edition;
use super::image::{Image, BLOCK};
use super::line::summed_line;

/// What a good copy says. A copy names either all of block, chunk and version or none.
#[derive(Clone, Copy, Debug, PartialEq, Eq)]
pub struct Header {
    pub named: Option<Named>,
}

/// The chunk that a file header names.
#[derive(Clone, Copy, Debug, PartialEq, Eq)]
pub struct Named {
    pub block: u64,
    pub chunk: u64,
    pub version: u64,
}

/// "A file header copy (block 0, block 1) is good if its line has a right `fletcher`, H:2,
/// blockSize:1000, format:1, and either all of block, chunk, version or none."
pub fn good_copy(image: &Image, edition: Edition, block: u64) -> Option<Header> {
    let line = summed_line(edition, image.block_start(block, BLOCK)?)?;
    let due = [("H", 2), ("blockSize", 0x1000), ("format", 1)];
    if !due.iter().all(|&(name, value)| line.value(name) == Some(value)) {
        return None;
    }
    match (line.value("block"), line.value("chunk"), line.value("version")) {
        (Some(block), Some(chunk), Some(version)) => {
            Some(Header { named: Some(Named { block, chunk, version }) })
        }
        (None, None, None) => Some(Header { named: None }),
        _ => None,
    }
}

/// "Both good: the larger version, a copy without version counting lowest, the first copy at a
/// tie."
pub fn chosen_copy(image: &Image, edition: Edition) -> Option<Header> {
    // No version is the lowest: `None` is below every `Some`.
    let version = |header: &Header| header.named.map(|named| named.version);
    match (good_copy(image, edition, 0), good_copy(image, edition, 1)) {
        (Some(first), Some(second)) if version(&second) > version(&first) => Some(second),
        (Some(first), _) => Some(first),
        (None, second) => second,
    }
}
