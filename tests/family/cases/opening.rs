//! The choice of the newest chunk. No chunk leads to another here, so that each choice shows.

use crate::build::line::Sum;
use crate::build::plan::write;
use crate::family::base::{blank_line, forked};
use crate::family::case::{join, Case};
use crate::family::questions::*;
use crate::family::standard::{Standard, MIDDLE, NEWEST, OLD};
use crate::model::image::BLOCK;

const CHUNK_1: &str = "chunk 1 block 2 blocks 1 version 1";
const CHUNK_2: &str = "chunk 2 block 3 blocks 2 version 2";
const CHUNK_3: &str = "chunk 3 block 5 blocks 1 version 3";

pub fn cases() -> Vec<Case> {
    join(vec![
        copies(),
        unnamed_copies(),
        bad_copies(),
        starts(),
        tied_starts(),
        last_footers(),
        chains(),
        sizes(),
    ])
}

fn edited(name: &str, why: &str, edit: &dyn Fn(&mut Standard)) -> Case {
    let mut store = forked();
    edit(&mut store);
    Case::new(name, why, store.plan.image())
}

fn unnamed(store: &mut Standard, copy: usize) {
    for name in ["block", "chunk", "version"] {
        store.plan.headers[copy].remove(name);
    }
}

fn names(store: &mut Standard, first: usize, second: usize) {
    store.plan.name_chunk_in(0, first);
    store.plan.name_chunk_in(1, second);
}

/// "Both good: the larger version, a copy without version counting lowest, the first copy at a
/// tie."
fn copies() -> Vec<Case> {
    let both = "both good: the larger version";
    let tie = "the first copy at a tie";
    vec![
        edited("second-copy-larger", both, &|s| names(s, OLD, MIDDLE)).says(open(), CHUNK_2),
        edited("first-copy-larger", both, &|s| names(s, MIDDLE, OLD)).says(open(), CHUNK_2),
        edited("copies-tie", tie, &|s| {
            names(s, OLD, MIDDLE);
            s.plan.headers[0].set("version", 2);
        })
        .says(open(), CHUNK_1),
        edited("version-of-64-bits", both, &|s| {
            names(s, OLD, MIDDLE);
            s.plan.headers[0].set("version", u64::MAX);
        })
        .says(open(), CHUNK_1),
    ]
}

fn unnamed_copies() -> Vec<Case> {
    let lowest = "a copy without version counting lowest";
    vec![
        edited("copy-without-version-before-version-0", lowest, &|s| {
            unnamed(s, 0);
            s.plan.headers[1].set("version", 0);
        })
        .says(open(), CHUNK_3),
        edited("copy-without-version-after-version-0", lowest, &|s| {
            unnamed(s, 1);
            s.plan.headers[0].set("version", 0);
        })
        .says(open(), CHUNK_3),
        edited("no-copy-names-a-chunk", "if named", &|s| {
            unnamed(s, 0);
            unnamed(s, 1);
        })
        .refuses(vec![open()], 4),
    ]
}

fn bad_copies() -> Vec<Case> {
    vec![
        edited("larger-copy-has-a-wrong-sum", "a copy is good", &|s| {
            names(s, OLD, MIDDLE);
            s.plan.headers[1].sum = Sum::Xor(1);
        })
        .says(open(), CHUNK_1),
        edited("first-copy-has-a-wrong-sum", "a copy is good", &|s| {
            names(s, MIDDLE, OLD);
            s.plan.headers[0].sum = Sum::Xor(1);
        })
        .says(open(), CHUNK_1),
        edited("no-good-copy", "no good file header", &|s| {
            s.plan.headers = vec![blank_line(), blank_line()];
        })
        .refuses([every_call(), vec![open()]].concat(), 3),
        edited(
            "chosen-copy-names-nothing-standing",
            "the larger version is chosen, not tried",
            &|s| {
                names(s, OLD, MIDDLE);
                s.plan.headers[1].set("block", 4);
            },
        )
        .refuses([every_call(), vec![open()]].concat(), 4),
    ]
}

/// "Two starts: ... The higher version is taken, the lower block at a tie."
fn starts() -> Vec<Case> {
    let footer = "the block that the image's last 128 bytes name as a footer";
    let higher = "the higher version is taken";
    vec![
        edited("footer-start-alone", footer, &|s| {
            s.plan.blocks -= 1;
            unnamed(s, 0);
            unnamed(s, 1);
        })
        .says(open(), CHUNK_3),
        edited("footer-start-higher", higher, &|s| {
            s.plan.blocks -= 1;
            names(s, OLD, OLD);
        })
        .says(open(), CHUNK_3),
        edited("header-start-higher", higher, &|s| {
            s.plan.blocks -= 1;
            set_version(s, NEWEST, 1);
            names(s, MIDDLE, MIDDLE);
        })
        .says(open(), CHUNK_2),
        edited("header-names-nothing-footer-stands", "two starts", &|s| {
            s.plan.blocks -= 1;
            s.plan.headers[0].set("chunk", 9);
        })
        .says(open(), CHUNK_3),
    ]
}

fn tied_starts() -> Vec<Case> {
    vec![
        edited("starts-tie", "the lower block at a tie", &|s| {
            s.plan.blocks -= 1;
            set_version(s, NEWEST, 2);
            names(s, MIDDLE, MIDDLE);
        })
        .says(open(), CHUNK_2),
        edited("starts-tie-one-inside-the-other", "the lower block at a tie", &|s| {
            // The last footer is that of a chunk around the one that the header names.
            set_version(s, NEWEST, 2);
            names(s, NEWEST, NEWEST);
            s.plan.chunks[MIDDLE].len = 4;
            s.plan.chunks[MIDDLE].header.set("len", 4);
        })
        .says(open(), "chunk 2 block 3 blocks 4 version 2"),
    ]
}

/// "if it ends where the image ends"
fn last_footers() -> Vec<Case> {
    let ends = "if it ends where the image ends";
    vec![
        footer_elsewhere("last-footer-of-an-earlier-chunk", ends, MIDDLE, &|s| {
            unnamed(s, 0);
            unnamed(s, 1);
        })
        .refuses(vec![open()], 4),
        footer_elsewhere("last-footer-of-an-earlier-chunk-beside-a-header", ends, NEWEST, &|s| {
            names(s, OLD, OLD);
        })
        .says(open(), CHUNK_1),
    ]
}

/// The footer of a chunk stands at the image's end too, where the chunk does not end.
fn footer_elsewhere(name: &str, why: &str, chunk: usize, edit: &dyn Fn(&mut Standard)) -> Case {
    let mut store = forked();
    edit(&mut store);
    let mut image = store.plan.image();
    let footer = store.plan.chunks[chunk].footer.bytes().0;
    write(&mut image, store.plan.blocks * BLOCK - 128, &footer);
    Case::new(name, why, image)
}

fn set_version(store: &mut Standard, chunk: usize, version: u64) {
    store.plan.chunks[chunk].header.set("version", version);
    store.plan.chunks[chunk].footer.set("version", version);
}

/// "while a chunk stands at `next` with a strictly higher version, it becomes the newest"
fn chains() -> Vec<Case> {
    let chain = "while a chunk stands at next with a strictly higher version";
    let linked = |name, edit: &dyn Fn(&mut Standard)| {
        edited(name, chain, &|s| {
            names(s, OLD, OLD);
            s.plan.chunks[OLD].header.set("next", 3);
            edit(s);
        })
    };
    vec![
        linked("next-once", &|_| {}).says(open(), CHUNK_2),
        linked("next-twice", &|s| s.plan.chunks[MIDDLE].header.set("next", 5))
            .says(open(), CHUNK_3),
        linked("next-past-a-gap", &|s| s.plan.chunks[OLD].header.set("next", 5))
            .says(open(), CHUNK_3),
        linked("next-of-the-same-version", &|s| set_version(s, MIDDLE, 1)).says(open(), CHUNK_1),
        linked("next-of-a-lower-version", &|s| set_version(s, MIDDLE, 0)).says(open(), CHUNK_1),
        linked("next-is-itself", &|s| s.plan.chunks[OLD].header.set("next", 2))
            .says(open(), CHUNK_1),
        linked("next-past-the-image", &|s| s.plan.chunks[OLD].header.set("next", u64::MAX))
            .says(open(), CHUNK_1),
        linked("next-into-a-chunk", &|s| s.plan.chunks[OLD].header.set("next", 4))
            .says(open(), CHUNK_1),
        linked("next-does-not-stand", &|s| s.plan.chunks[MIDDLE].footer.sum = Sum::Xor(1))
            .says(open(), CHUNK_1),
        linked("next-leads-back", &|s| s.plan.chunks[MIDDLE].header.set("next", 2))
            .says(open(), CHUNK_2),
    ]
}

/// "The image is its whole blocks; a last part block is ignored. It has 3 to 268,435,456 blocks."
fn sizes() -> Vec<Case> {
    let few = "it has 3 to 268,435,456 blocks";
    let cut = |name, bytes: usize| {
        let mut image = forked().plan.image();
        image.truncate(bytes);
        Case::new(name, few, image).refuses([every_call(), vec![open()]].concat(), 2)
    };
    vec![
        cut("no-bytes", 0),
        cut("two-blocks", 8192),
        cut("three-blocks-less-a-byte", 12287),
        edited("part-block-at-the-end", "a last part block is ignored", &|s| {
            s.plan.blocks -= 1;
            s.plan.part_block = 4095;
            unnamed(s, 0);
            unnamed(s, 1);
        })
        .says(open(), CHUNK_3),
    ]
}
