//! Standing chunks.

use super::fletcher::Edition;
use super::image::{Image, BLOCK};
use super::line::{summed_line, text_of, Line, CHUNK_HEADER, FOOTER};

/// The id of a chunk is 26 bits wide in a position.
pub const CHUNK_IDS: u64 = 1 << 26;

/// A chunk that stands.
#[derive(Clone, Copy, Debug, PartialEq, Eq)]
pub struct Chunk {
    pub id: u64,
    pub block: u64,
    pub len: u64,
    pub next: u64,
    pub root: u64,
    pub version: u64,
    /// The place of the header line's newline, from the chunk's first byte.
    pub newline: u64,
}

impl Chunk {
    /// Where the footer begins, from the chunk's first byte.
    pub fn footer(&self) -> u64 {
        self.len * BLOCK - FOOTER
    }

    /// The block after the chunk.
    pub fn end(&self) -> u64 {
        self.block + self.len
    }
}

/// "A chunk stands at block b if b is at least 2; its header line has chunk, block, len, next,
/// pages, root, version; chunk is below 2^26; block is b; len is at least 1; b+len is at most the
/// image's blocks; and [its footer agrees]".
pub fn stands_at(image: &Image, edition: Edition, b: u64) -> Option<Chunk> {
    if b < 2 {
        return None;
    }
    let chunk = header_at(image, b)?;
    let within = chunk.block == b && chunk.len >= 1 && chunk.len <= image.blocks - b;
    (chunk.id < CHUNK_IDS && within && footer_agrees(image, edition, &chunk)).then_some(chunk)
}

/// The header line at block b, if the image has that block.
fn header_at(image: &Image, b: u64) -> Option<Chunk> {
    let text = text_of(image.block_start(b, CHUNK_HEADER)?)?;
    let line = Line::new(text.text)?;
    line.value("pages")?;
    Some(Chunk {
        id: line.value("chunk")?,
        block: line.value("block")?,
        len: line.value("len")?,
        next: line.value("next")?,
        root: line.value("root")?,
        version: line.value("version")?,
        newline: text.newline,
    })
}

/// "the last 128 bytes of block b+len-1 are a footer line with a right `fletcher` and the same
/// chunk, block and version. (Source 003's code doesn't compare the version; here it counts.)"
fn footer_agrees(image: &Image, edition: Edition, chunk: &Chunk) -> bool {
    let area = image.block_end(chunk.end() - 1, FOOTER);
    let Some(line) = area.and_then(|area| summed_line(edition, area)) else {
        return false;
    };
    line.value("chunk") == Some(chunk.id)
        && line.value("block") == Some(chunk.block)
        && line.value("version") == Some(chunk.version)
}
