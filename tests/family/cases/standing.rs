//! "A chunk stands at block b if ...": only the file header names a start, so that a fault in the
//! newest chunk's lines refuses with 4.

use crate::build::line::{LinePlan, Sum};
use crate::family::base::{lone, newest_header};
use crate::family::case::{join, Case};
use crate::family::questions::*;
use crate::family::standard::{Standard, MIDDLE, NEWEST};

pub fn cases() -> Vec<Case> {
    join(vec![missing_fields(), header_faults(), footer_faults(), ends(), accepted()])
}

fn edited(name: &str, why: &str, edit: &dyn Fn(&mut Standard)) -> Case {
    let mut store = lone();
    edit(&mut store);
    Case::new(name, why, store.plan.image())
}

fn refused(name: &str, why: &str, edit: &dyn Fn(&mut Standard)) -> Case {
    edited(name, why, edit).refuses(vec![open()], 4)
}

fn footer(store: &mut Standard) -> &mut LinePlan {
    &mut store.plan.chunks[NEWEST].footer
}

fn missing_fields() -> Vec<Case> {
    let why = "its header line has chunk, block, len, next, pages, root, version";
    let names = [
        ("chunk-header-without-chunk", "chunk"),
        ("chunk-header-without-block", "block"),
        ("chunk-header-without-len", "len"),
        ("chunk-header-without-next", "next"),
        ("chunk-header-without-pages", "pages"),
        ("chunk-header-without-root", "root"),
        ("chunk-header-without-version", "version"),
    ];
    names.map(|(name, field)| refused(name, why, &|s| newest_header(s).remove(field))).into()
}

fn header_faults() -> Vec<Case> {
    vec![
        refused("chunk-id-2-to-26", "chunk is below 2^26", &|s| {
            let chunk = &mut s.plan.chunks[NEWEST];
            chunk.header.set("chunk", 1 << 26);
            chunk.footer.set("chunk", 1 << 26);
            s.plan.name_chunk(NEWEST);
        }),
        refused("chunk-header-names-another-block", "block is b", &|s| {
            newest_header(s).set("block", 3);
            footer(s).set("block", 3);
        }),
        copied_block("header-names-a-copied-chunk", "block is b"),
        refused("chunk-header-not-a-line", "its header line", &|s| newest_header(s).add("x", "01")),
        refused("chunk-header-without-newline", "no newline: no line", &|s| {
            newest_header(s).newline = false;
        }),
        refused("header-names-another-chunk", "with the header's chunk id", &|s| {
            s.plan.headers[0].set("chunk", 2);
            s.plan.headers[1].set("chunk", 2);
        }),
        refused("header-block-0", "b is at least 2", &|s| set_header_block(s, 0)),
        refused("header-block-past-the-image", "b+len is at most the image's blocks", &|s| {
            set_header_block(s, 7);
        }),
        refused("header-block-huge", "b+len is at most the image's blocks", &|s| {
            set_header_block(s, u64::MAX);
        }),
        refused("chunk-at-block-1", "b is at least 2", &|s| {
            let chunk = &mut s.plan.chunks[NEWEST];
            chunk.header.set("block", 1);
            chunk.footer.set("block", 1);
            chunk.block = 1;
            s.plan.name_chunk_in(0, NEWEST);
        }),
    ]
}

/// The newest chunk's block stands once more at the image's end, and there the headers name it.
fn copied_block(name: &str, why: &str) -> Case {
    let mut store = lone();
    let mut copied = store.plan.chunks[NEWEST].clone();
    copied.block = 6;
    store.plan.chunks.push(copied);
    set_header_block(&mut store, 6);
    Case::new(name, why, store.plan.image()).refuses(vec![open()], 4)
}

fn set_header_block(store: &mut Standard, block: u64) {
    for header in &mut store.plan.headers {
        header.set("block", block);
    }
}

/// "a footer line with a right `fletcher` and the same chunk, block and version"
fn footer_faults() -> Vec<Case> {
    let same = "the same chunk, block and version";
    let right = "a footer line with a right fletcher";
    vec![
        refused("footer-sum-wrong", right, &|s| footer(s).sum = Sum::Xor(0x10000)),
        refused("footer-without-sum", right, &|s| footer(s).sum = Sum::None),
        refused("footer-without-newline", right, &|s| footer(s).newline = false),
        refused("footer-newline-past-128", "a footer's 128 bytes", &|s| {
            footer(s).newline_from = 128;
        }),
        refused("footer-not-a-line", right, &|s| footer(s).add("x", "01")),
        refused("footer-of-another-chunk", same, &|s| footer(s).set("chunk", 2)),
        refused("footer-of-another-block", same, &|s| footer(s).set("block", 3)),
        refused("footer-of-another-version", "here it counts", &|s| footer(s).set("version", 2)),
        refused("footer-without-chunk", same, &|s| footer(s).remove("chunk")),
        refused("footer-without-block", same, &|s| footer(s).remove("block")),
        refused("footer-without-version", same, &|s| footer(s).remove("version")),
    ]
}

/// "len is at least 1; b+len is at most the image's blocks"
fn ends() -> Vec<Case> {
    let most = "b+len is at most the image's blocks";
    vec![
        refused("chunk-len-0", "len is at least 1", &|s| newest_header(s).set("len", 0)),
        refused("chunk-len-past-the-image", most, &|s| newest_header(s).set("len", 3)),
        refused("chunk-len-of-64-bits", most, &|s| newest_header(s).set("len", u64::MAX)),
        refused("chunk-len-that-wraps", most, &|s| newest_header(s).set("len", u64::MAX - 3)),
        refused("chunk-len-2-no-footer-there", "the last 128 bytes of block b+len-1", &|s| {
            newest_header(s).set("len", 2);
        }),
    ]
}

fn accepted() -> Vec<Case> {
    let newest = "chunk 3 block 5 blocks 1 version 3";
    vec![
        edited("chunk-id-2-to-26-less-1", "chunk is below 2^26", &|s| {
            let chunk = &mut s.plan.chunks[NEWEST];
            chunk.header.set("chunk", (1 << 26) - 1);
            chunk.footer.set("chunk", (1 << 26) - 1);
            s.plan.name_chunk(NEWEST);
        })
        .says(open(), "chunk 67108863 block 5 blocks 1 version 3"),
        edited("footer-newline-ends-block", "a footer's 128 bytes", &|s| {
            footer(s).newline_from = 127;
        })
        .says(open(), newest),
        edited("footer-fields-in-another-order", "the same chunk, block and version", &|s| {
            footer(s).fields.reverse();
        })
        .says(open(), newest),
        edited("chunk-header-unknown-names", "unknown names are skipped", &|s| {
            newest_header(s).add("liveMax", "1c0");
        })
        .says(open(), newest),
        edited("header-version-not-the-chunks", "with the header's chunk id", &|s| {
            s.plan.headers[0].set("version", 77);
        })
        .says(open(), newest),
        edited("chunk-stands-behind-another", "standing is each chunk's own", &|s| {
            s.plan.chunks[MIDDLE].footer.sum = Sum::Xor(1);
        })
        .says(open(), newest)
        .says(lookup(9), "refused 5"),
    ]
}
