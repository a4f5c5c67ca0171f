//! "Opening": the file header, the two starts, and the chain of `next`.

use super::chunk::{stands_at, Chunk};
use super::fletcher::Edition;
use super::header::{chosen_copy, Header};
use super::image::Image;
use super::line::{summed_line, FOOTER};
use super::refusal::{Outcome, NO_HEADER, NO_START};

/// The newest chunk of an image. 02, C-16: "opening takes an edition".
pub fn newest(image: &Image, edition: Edition) -> Outcome<Chunk> {
    let header = chosen_copy(image, edition).ok_or(NO_HEADER)?;
    let starts = [header_start(image, edition, &header), footer_start(image, edition)];
    let start = starts.into_iter().flatten().reduce(taken).ok_or(NO_START)?;
    Ok(follow(image, edition, start))
}

/// "the chunk standing at the file header's block with the header's chunk id, if named"
fn header_start(image: &Image, edition: Edition, header: &Header) -> Option<Chunk> {
    let named = header.named?;
    stands_at(image, edition, named.block).filter(|chunk| chunk.id == named.chunk)
}

/// "the chunk standing at the block that the image's last 128 bytes name as a footer, if it ends
/// where the image ends"
fn footer_start(image: &Image, edition: Edition) -> Option<Chunk> {
    let line = summed_line(edition, image.block_end(image.blocks - 1, FOOTER)?)?;
    stands_at(image, edition, line.value("block")?).filter(|chunk| chunk.end() == image.blocks)
}

/// "The higher version is taken, the lower block at a tie."
fn taken(one: Chunk, other: Chunk) -> Chunk {
    let higher = other.version > one.version;
    let tie_and_lower = other.version == one.version && other.block < one.block;
    if higher || tie_and_lower {
        other
    } else {
        one
    }
}

/// "Then, while a chunk stands at `next` with a strictly higher version, it becomes the newest."
fn follow(image: &Image, edition: Edition, start: Chunk) -> Chunk {
    let mut newest = start;
    let after = |chunk: &Chunk| stands_at(image, edition, chunk.next);
    while let Some(next) = after(&newest).filter(|next| next.version > newest.version) {
        newest = next;
    }
    newest
}
