//! "Readers that look right and aren't", one image a line. The second line, a block multiplied in
//! 32 bits, needs an image past 2^31 bytes: the sparse check has it.

use crate::family::case::Case;
use crate::family::questions::*;
use crate::family::standard::{MIDDLE, NEWEST, OLD};

pub fn cases() -> Vec<Case> {
    vec![
        Case::standard("reader-without-next", "taking the file header's chunk as newest", &|s| {
            // No footer ends the image, and the headers name the oldest chunk.
            s.add_tail();
            s.plan.name_chunk(OLD);
        })
        .says(open(), "chunk 3 block 5 blocks 1 version 3")
        .says(examine(), "report 6 4 2"),
        Case::standard("reader-sends-an-equal-key-left", "a key equal to a separator", &|_| {})
            .says(lookup(0), "value 8469 0")
            .says(lookup(9), "value 12474 24")
            .says(lookup_text(NOTES, "abc"), "value 12557 6"),
        Case::standard(
            "reader-trusts-an-earlier-footer",
            "a good header whose footer belongs to an earlier chunk",
            &|s| {
                // Chunk 3 was to take the place of an earlier chunk 3, whose footer is still there.
                s.plan.chunks[NEWEST].footer.set("version", 1);
                s.plan.name_chunk_in(0, MIDDLE);
                s.plan.name_chunk_in(1, MIDDLE);
            },
        )
        .says(open(), "chunk 2 block 3 blocks 2 version 2"),
        Case::standard("reader-compares-unsigned", "comparing number keys as unsigned", &|_| {})
            .says(lookup(-5), "value 8378 24")
            .says(lookup(-1), "value 8403 24")
            .says(lookup(7), "value 8470 0")
            .says(lookup(-2), "absent")
            .says(examine(), "report 6 4 2"),
    ]
}
