//! An image cut down to what opening can look at, so that a large one takes few bytes.

use crate::build::plan::write;
use crate::model::image::BLOCK;
use crate::model::line::{CHUNK_HEADER, FOOTER};

/// The image with nothing but the areas that opening can look at: file headers and footers whole,
/// chunk headers to their newline, where pages begin.
pub fn sparse(image: &[u8]) -> Vec<u8> {
    let mut kept = vec![0; image.len()];
    for (number, block) in image.chunks_exact(BLOCK as usize).enumerate() {
        let start = number as u64 * BLOCK;
        let footer = BLOCK - FOOTER;
        if number < 2 {
            write(&mut kept, start, block);
        } else {
            write(&mut kept, start, to_newline(&block[..CHUNK_HEADER as usize]));
            write(&mut kept, start + footer, &block[footer as usize..]);
        }
    }
    kept
}

/// An area to its first newline; whole where it has none.
fn to_newline(area: &[u8]) -> &[u8] {
    let newline = area.iter().position(|&byte| byte == b'\n');
    &area[..newline.map_or(area.len(), |at| at + 1)]
}
