//! "A page begins at its offset ...": where a page may lie and how long it may be, in the least
//! store. The root of `forces` is the leaf that is moved about.

use crate::build::page::PagePlan;
use crate::family::case::{join, Case};
use crate::family::questions::*;
use crate::family::tiny::{tiny, tiny_with, Tiny};
use crate::model::image::BLOCK;
use crate::model::position::bound;
use crate::subject::Question;

/// Where the footer begins in the one chunk.
const FOOTER_AT: u64 = BLOCK - 128;

pub fn cases() -> Vec<Case> {
    join(vec![newlines(), offsets(), lengths(), codes(), accepted()])
}

fn edited(name: &str, why: &str, edit: &dyn Fn(&mut Tiny)) -> Case {
    let mut store = tiny();
    edit(&mut store);
    Case::new(name, why, store.image())
}

/// The calls that read the root.
pub fn root_calls() -> Vec<Question> {
    [page_calls(3, 0, &[]), vec![count()]].concat()
}

fn refused(name: &str, why: &str, edit: &dyn Fn(&mut Tiny)) -> Case {
    edited(name, why, edit).refuses(root_calls(), 7).says(find("forces"), "id 1")
}

/// "Areas: ... a chunk header's first 1,024 bytes"
fn newlines() -> Vec<Case> {
    let area = "a chunk header's first 1,024 bytes";
    vec![
        Case::new("chunk-header-newline-at-1023", area, tiny_with(1023, 1).image())
            .says(open(), "chunk 1 block 2 blocks 1 version 1")
            .says(examine(), "report 2 1 1"),
        Case::new("chunk-header-newline-at-1024", area, tiny_with(1024, 1).image())
            .refuses(vec![open()], 4),
    ]
}

/// "not before the byte after the chunk header's newline nor less than 9 bytes before the footer"
fn offsets() -> Vec<Case> {
    let before = "not before the byte after the chunk header's newline";
    let footer = "nor less than 9 bytes before the footer";
    vec![
        refused("page-at-the-chunks-start", before, &|t| set_offset(t, 0)),
        refused("page-in-the-header-line", before, &|t| set_offset(t, 20)),
        refused("page-on-the-newline", before, &|t| set_offset(t, 159)),
        refused("page-8-bytes-before-the-footer", footer, &|t| set_offset(t, FOOTER_AT - 8)),
        refused("page-in-the-footer", footer, &|t| set_offset(t, FOOTER_AT)),
        refused("page-past-the-chunk", footer, &|t| set_offset(t, BLOCK + 160)),
        refused("page-at-the-last-offset", footer, &|t| set_offset(t, u64::from(u32::MAX))),
    ]
}

/// `root.1` names another offset; the leaf stays.
fn set_offset(store: &mut Tiny, offset: u64) {
    let mut moved: PagePlan = store.leaf().clone();
    moved.offset = offset;
    store.root = Some(moved.position(1));
}

/// "length (4 bytes, at least 9, within the code's bound, ending no later than the footer begins)"
fn lengths() -> Vec<Case> {
    let least = "length at least 9";
    let ends = "ending no later than the footer begins";
    vec![
        refused("page-length-0", least, &|t| t.leaf().length = Some(0)),
        refused("page-length-8", least, &|t| t.leaf().length = Some(8)),
        refused("page-length-of-32-bits", ends, &|t| {
            t.leaf().length = Some(u64::from(u32::MAX));
            t.leaf().code = 31;
        }),
        refused("page-length-2-to-31", ends, &|t| {
            t.leaf().length = Some(1 << 31);
            t.leaf().code = 31;
        }),
        refused("page-a-byte-into-the-footer", ends, &|t| {
            // The byte that both claim is the footer's first, a c.
            *t.leaf().values[1].last_mut().expect("a value with its length") = b'c';
            let length = t.leaf().true_length();
            t.leaf().offset = FOOTER_AT - length + 1;
        }),
        refused("page-longer-than-the-chunk-has", ends, &|t| {
            t.leaf().length = Some(BLOCK);
            t.leaf().code = 31;
        }),
    ]
}

/// Each small code at its bound and a byte past it.
fn codes() -> Vec<Case> {
    let why = "within the code's bound";
    let names = [
        ("code-4-at-its-bound", "code-4-past-its-bound", 4),
        ("code-5-at-its-bound", "code-5-past-its-bound", 5),
        ("code-6-at-its-bound", "code-6-past-its-bound", 6),
        ("code-7-at-its-bound", "code-7-past-its-bound", 7),
        ("code-8-at-its-bound", "code-8-past-its-bound", 8),
        ("code-9-at-its-bound", "code-9-past-its-bound", 9),
        ("code-10-at-its-bound", "code-10-past-its-bound", 10),
        ("code-11-at-its-bound", "code-11-past-its-bound", 11),
        ("code-12-at-its-bound", "code-12-past-its-bound", 12),
    ];
    let mut cases = Vec::new();
    for (at, past, code) in names {
        let most = bound(code).expect("a code below 31");
        let good = edited(at, why, &|t| t.set_leaf_length(most));
        cases.push(good.says(examine(), "report 2 1 1"));
        cases.push(refused(past, why, &|t| {
            t.set_leaf_length(most + 1);
            t.leaf().code = code;
        }));
    }
    cases
}

fn accepted() -> Vec<Case> {
    let stays = "ending no later than the footer begins";
    vec![
        edited("page-ends-at-the-footer", stays, &|t| {
            let length = t.leaf().true_length();
            t.leaf().offset = FOOTER_AT - length;
        })
        .says(examine(), "report 2 1 1"),
        edited("page-of-9-bytes-before-the-footer", "nor less than 9 bytes before", &|t| {
            *t.leaf() = PagePlan { offset: FOOTER_AT - 9, ..PagePlan::leaf(1, 0, &[]) };
        })
        .says(examine(), "report 0 1 1")
        .says(count(), "count 0")
        .says(walk(&[]), "done")
        .says(index(0), "refused 15"),
        edited("code-30-for-a-small-page", "within the code's bound", &|t| t.leaf().code = 30)
            .says(examine(), "report 2 1 1"),
        edited("code-31-for-a-small-page", "code 31 sets no bound", &|t| t.leaf().code = 31)
            .says(examine(), "report 2 1 1"),
    ]
}
