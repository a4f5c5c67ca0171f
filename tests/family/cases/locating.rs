//! "Where a chunk is": entries of the metadata, and the questions that open inside each other.

use crate::family::base::nested;
use crate::family::case::{join, Case};
use crate::family::questions::*;
use crate::family::standard::{Standard, MIDDLE, OLD};

pub fn cases() -> Vec<Case> {
    join(vec![entries(), accepted(), handed_up()])
}

/// Chunk 1 holds the leaf of keys 0 and 7: the questions that read it are refused.
fn refused(name: &str, why: &str, edit: &dyn Fn(&mut Standard)) -> Case {
    let case = Case::standard(name, why, edit).refuses(page_calls(7, 3, &[1, 0]), 5);
    case.says(count(), "count 6")
}

fn entries() -> Vec<Case> {
    let usable = "unusable entry";
    let line = "the value's bytes are a line in the sense above, without the newline";
    let text = |s: &Standard| String::from_utf8(s.plan.chunks[OLD].header.text()).expect("ASCII");
    vec![
        refused("chunk-entry-missing", "no entry", &|s| s.remove_metadata("chunk.1")),
        refused("chunk-entry-empty", usable, &|s| s.set_metadata("chunk.1", "")),
        refused("chunk-entry-without-block", usable, &|s| s.set_metadata("chunk.1", "chunk:1")),
        refused("chunk-entry-leading-zero", line, &|s| s.set_metadata("chunk.1", "block:02")),
        refused("chunk-entry-trailing-space", line, &|s| {
            s.set_metadata("chunk.1", &(text(s) + " "));
        }),
        refused("chunk-entry-with-newline", line, &|s| s.set_metadata("chunk.1", "block:2\n")),
        refused("chunk-entry-name-twice", line, &|s| s.set_metadata("chunk.1", "block:2,block:2")),
        refused("chunk-entry-of-another-chunk", "where chunk N must stand", &|s| {
            s.set_metadata("chunk.1", "block:3");
        }),
        refused("chunk-entry-block-1", "chunk not standing there", &|s| {
            s.set_metadata("chunk.1", "block:1");
        }),
        refused("chunk-entry-block-past-the-image", "chunk not standing there", &|s| {
            s.set_metadata("chunk.1", "block:ffffffffffffffff");
        }),
        refused("chunk-entry-of-the-newest", "chunk not standing there", &|s| {
            s.set_metadata("chunk.1", "block:5");
        }),
        refused("located-chunk-footer-version", "chunk not standing there", &|s| {
            s.plan.chunks[OLD].footer.set("version", 9);
        }),
        Case::standard("metadata-in-an-unknown-chunk", "no entry", &|s| {
            s.remove_metadata("chunk.2");
        })
        .refuses(every_call(), 5),
    ]
}

fn accepted() -> Vec<Case> {
    let found = |name, why, edit: &dyn Fn(&mut Standard)| {
        let case = Case::standard(name, why, edit);
        case.says(examine(), "report 6 4 2").says(count(), "count 6")
    };
    vec![
        found("chunk-entry-only-block", "its block says where chunk N must stand", &|s| {
            s.set_metadata("chunk.1", "block:2");
        }),
        found("chunk-entry-says-another-id", "its block says where chunk N must stand", &|s| {
            s.set_metadata("chunk.1", "chunk:9,block:2,version:77");
        }),
        found("newest-is-not-asked-for", "the newest stands where opening found it", &|s| {
            s.add_chunk_entry("chunk.3", "block:2");
        }),
    ]
}

/// "A refusal of such a lookup is handed up unchanged."
fn handed_up() -> Vec<Case> {
    let why = "a refusal of such a lookup is handed up unchanged";
    let mut cases = vec![
        Case::standard("question-meets-check-value", why, &|s| {
            s.plan.page(s.chunk_leaf).check_xor = 1;
        })
        .refuses(every_call(), 8),
        Case::standard("question-meets-contents", why, &|s| {
            s.plan.page(s.chunk_leaf).leftover = vec![0];
        })
        .refuses(every_call(), 10),
        Case::standard("question-meets-map-id", why, &|s| s.plan.page(s.chunk_leaf).map = vec![1])
            .refuses(every_call(), 9),
        Case::standard("question-meets-position-0", why, &|s| {
            s.plan.page(s.metadata).children[0] = 0;
        })
        .refuses(every_call(), 7),
    ];
    cases.push(
        Case::standard("question-needs-itself", "a ninth open question", &|s| {
            // The leaf of chunks goes into chunk 2, whose place only it knows.
            let page = s.plan.page(s.chunk_leaf).clone();
            let moved = s.plan.put(MIDDLE, page);
            let position = s.plan.position(moved);
            s.plan.page(s.metadata).children[0] = position;
        })
        .refuses(every_call(), 6),
    );
    cases
}

/// "At most 8 of these questions are open at once."
pub fn nested_cases() -> Vec<Case> {
    let ninth = "a ninth open question";
    let all = [vec![lookup(3), index(1), copy(3, 32), walk(&[0, 0]), examine()]].concat();
    let eighth_missing = {
        let mut plan = nested(9, false);
        // Not even a missing entry is found: the ninth question is not asked.
        plan.chunks[9].pages[1].keys[0][7] = b'x';
        plan
    };
    vec![
        Case::new("eight-questions-for-names", "at most 8 are open", nested(8, true).image())
            .says(find("forces"), "id 1")
            .says(lookup(3), "value 8378 24"),
        Case::new("nine-questions", ninth, nested(9, false).image())
            .refuses(all.clone(), 6)
            .says(find("forces"), "id 1")
            .says(count(), "count 2"),
        Case::new("nine-questions-for-names", ninth, nested(9, true).image())
            .refuses(every_call(), 6),
        Case::new(
            "ninth-question-has-no-entry",
            "the ninth is refused unasked",
            eighth_missing.image(),
        )
        .refuses(all, 6),
    ]
}
