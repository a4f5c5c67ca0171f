//! The bases of the family.

use super::case::Base;
use super::questions::*;
use super::standard::{chunk_entry, numbered, standard, Standard, METADATA_PLAN, NEWEST};
use super::tiny::tiny;
use crate::build::line::{LinePlan, Sum};
use crate::build::plan::Plan;
use crate::build::tree::{Entries, MapPlan, Placed};
use crate::subject::Question;

/// The questions that the standard store and its cases are asked.
fn questions() -> Vec<Question> {
    let mut all = vec![open(), list(), find("forces"), find("notes"), find("nothing")];
    all.extend([count(), examine(), copy(9, 26), copy(7, 0), copy(8, 0)]);
    all.extend([-5, -1, 0, 7, 8, 9, 100].map(lookup));
    all.extend((0..7).map(index));
    all.extend([&[][..], &[0, 0], &[0, 1], &[1, 1], &[2, 1]].map(walk));
    all.extend([count_of(NOTES), examine_of(NOTES), index_in(NOTES, 3), walk_in(NOTES, &[0, 2])]);
    all.extend(["", "ab", "abc", "c", "~"].map(|key| lookup_text(NOTES, key)));
    for map in [BLANK, BARE, METADATA, BEAMS] {
        all.extend([count_of(map), examine_of(map), index_in(map, 0), walk_in(map, &[])]);
    }
    all.extend([
        lookup_text(METADATA, "chunk.1"),
        lookup_in(BEAMS, 50),
        walk_in(BEAMS, &[0, 1, 1]),
    ]);
    all
}

/// For bases whose cases are about opening.
fn opening_questions() -> Vec<Question> {
    vec![open(), list(), find("forces"), lookup(7), lookup(100)]
}

pub fn standard_base() -> Base {
    Base {
        name: "standard",
        why: "six maps of both kinds over three chunks",
        image: standard().plan.image(),
        questions: questions(),
    }
}

/// A line of no bytes and no newline.
pub fn blank_line() -> LinePlan {
    let mut line = LinePlan::new(&[], Sum::None);
    line.newline = false;
    line
}

/// The standard store with one file header: a fault in it is the end.
pub fn single() -> Standard {
    let mut store = standard();
    store.plan.headers[1] = blank_line();
    store
}

pub fn single_base() -> Base {
    Base {
        name: "single-header",
        why: "the second file header copy is blank",
        image: single().plan.image(),
        questions: opening_questions(),
    }
}

/// The standard store with a block after its last chunk: only the file header names a start.
pub fn lone() -> Standard {
    let mut store = standard();
    store.add_tail();
    store
}

pub fn lone_base() -> Base {
    Base {
        name: "lone-start",
        why: "the image's last 128 bytes are no footer; the file header names the newest chunk",
        image: lone().plan.image(),
        questions: opening_questions(),
    }
}

/// Chunks that do not lead to each other, so that each choice at opening shows.
pub fn forked() -> Standard {
    let mut store = lone();
    for chunk in &mut store.plan.chunks {
        chunk.header.set("next", 0);
    }
    store
}

pub fn forked_base() -> Base {
    Base {
        name: "forked",
        why: "no chunk leads to another by next, and no footer ends the image",
        image: forked().plan.image(),
        questions: vec![open()],
    }
}

/// A store whose old chunks 1 to `chunks` need each other: the metadata leaf that says where chunk
/// i is lies in chunk i+1, the last one's in the newest. A leaf of `forces` lies in chunk 1; with
/// `names_in_first` the leaf of names and roots does too.
pub fn nested(chunks: u64, names_in_first: bool) -> Plan {
    let mut plan = Plan::new();
    for id in 1..=chunks + 1 {
        plan.add_chunk(id, 1, id);
    }
    let newest = chunks as usize;
    plan.name_chunk(newest);
    let forces = MapPlan { id: 1, kind: 0 };
    let leaf = forces.leaf(&mut plan, 0, &numbered(&[3, 4]));
    let root = forces.inner(&mut plan, newest, &[leaf]);
    let position = plan.position(root.page);
    let rest: Entries = vec![
        (b"name.forces".to_vec(), b"1".to_vec()),
        (b"root.1".to_vec(), format!("{position:x}").into_bytes()),
    ];
    let mut leaves: Vec<Placed> = Vec::new();
    for chunk in 0..newest {
        let entry = chunk_entry(&plan, chunk);
        leaves.push(METADATA_PLAN.leaf(&mut plan, chunk + 1, &[entry]));
    }
    let names_chunk = if names_in_first { 0 } else { newest };
    leaves.push(METADATA_PLAN.leaf(&mut plan, names_chunk, &rest));
    let root = METADATA_PLAN.inner(&mut plan, newest, &leaves);
    let position = plan.position(root.page);
    plan.chunks[newest].header.set("root", position);
    plan
}

pub fn nested_base() -> Base {
    Base {
        name: "eight-questions",
        why: "a leaf whose chunk opens eight questions, each inside the one before",
        image: nested(8, false).image(),
        questions: [every_call(), vec![lookup(3), index(1), walk(&[0, 0]), walk(&[0, 1])]].concat(),
    }
}

/// A chain of pages with one child each down to a leaf: so many pages for `forces`, so many for
/// the metadata.
pub fn deep(forces_depth: u64, metadata_depth: u64) -> Plan {
    let mut plan = Plan::new();
    plan.add_chunk(1, 1, 1);
    plan.name_chunk(0);
    let forces = MapPlan { id: 1, kind: 0 };
    let leaf = forces.leaf(&mut plan, 0, &numbered(&[3, 4]));
    let root = chain(&mut plan, forces, leaf, forces_depth);
    let position = plan.position(root.page);
    let entries: Entries = vec![
        (b"name.forces".to_vec(), b"1".to_vec()),
        (b"root.1".to_vec(), format!("{position:x}").into_bytes()),
    ];
    let leaf = METADATA_PLAN.leaf(&mut plan, 0, &entries);
    let root = chain(&mut plan, METADATA_PLAN, leaf, metadata_depth);
    let position = plan.position(root.page);
    plan.chunks[0].header.set("root", position);
    plan
}

fn chain(plan: &mut Plan, map: MapPlan, leaf: Placed, depth: u64) -> Placed {
    (1..depth).fold(leaf, |below, _| map.inner(plan, 0, &[below]))
}

pub fn deep_base() -> Base {
    let below = [vec![0; 15], vec![0]].concat();
    Base {
        name: "sixteen-deep",
        why: "a map and a metadata map of depth 16",
        image: deep(16, 16).image(),
        questions: [every_call(), vec![lookup(3), index(1), walk(&below), examine_of(METADATA)]]
            .concat(),
    }
}

pub fn tiny_base() -> Base {
    Base {
        name: "tiny",
        why: "three blocks, one chunk, a leaf for the map and a leaf for the metadata",
        image: tiny().image(),
        questions: [vec![open()], every_call(), vec![lookup(4), walk(&[0]), walk(&[1])]].concat(),
    }
}

/// The newest chunk's header line of a standard store.
pub fn newest_header(store: &mut Standard) -> &mut LinePlan {
    &mut store.plan.chunks[NEWEST].header
}
