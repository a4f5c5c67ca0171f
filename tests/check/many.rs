//! A map over many chunks. Of 299 a call of the library remembers all; of 4,199 it doesn't (4,096), so
//! that the last ones are located anew at each page, some of them by a question inside another.

use super::sweep::{sweep, Expected};
use crate::build::plan::Plan;
use crate::build::tree::{Entries, MapPlan, Placed};
use crate::family::questions::*;
use crate::family::standard::{chunk_entry, numbered, METADATA_PLAN};
use crate::model::ask::View;
use crate::model::fletcher::Edition;
use crate::subject::Judge;

struct Many {
    /// The old chunks; their ids have as many digits, so that their entries sort as their numbers do.
    chunks: usize,
    first_id: u64,
    /// Entries of this chunk and those after it lie in the first chunk, which no page of the map needs:
    /// it is not asked for before the chunks in front are located.
    late: usize,
    /// The blocks of the newest chunk, which has the metadata.
    blocks: u64,
}

const REMEMBERED: Many = Many { chunks: 300, first_id: 0x100, late: 257, blocks: 16 };
const TOO_MANY: Many = Many { chunks: 4_200, first_id: 0x1000, late: 4_160, blocks: 160 };
const FORCES_PLAN: MapPlan = MapPlan { id: 1, kind: 0 };

pub fn check(judge: &mut Judge) {
    let keys: Vec<i64> = (1..REMEMBERED.chunks as i64).collect();
    let image = many(&REMEMBERED, &keys).0.image();
    let entries = numbered(&keys);
    judge.image("many chunks", &image, View::FIRST);
    sweep(
        judge,
        &image,
        &Expected { view: View::FIRST, map: FORCES, entries: &entries },
        "many chunks",
    );
    faults(judge, &REMEMBERED);
    faults(judge, &TOO_MANY);
}

/// The map as it is, and with a fault at some leaves.
fn faults(judge: &mut Judge, of: &Many) {
    let keys: Vec<i64> = (1..of.chunks as i64).collect();
    let (plan, leaves) = many(of, &keys);
    let whole = judge.ask(&plan.image(), &examine());
    judge.claim(whole.refusal().is_none(), || format!("many chunks, {}: {whole}", of.chunks));
    for late in [of.late - 2, of.late - 1, of.late, of.chunks - 2] {
        wrong_check_value(judge, plan.clone(), &leaves[late]);
    }
    other_edition(judge, plan, &leaves[of.chunks - 2]);
}

/// A leaf of one entry in each chunk but the first; the roots in the newest.
fn many(of: &Many, keys: &[i64]) -> (Plan, Vec<Placed>) {
    let mut plan = Plan::new();
    for id in (of.first_id..).take(of.chunks) {
        plan.add_chunk(id, 1, id);
    }
    let id = of.first_id + of.chunks as u64;
    let newest = plan.add_chunk(id, of.blocks, id);
    plan.name_chunk(newest);
    let leaf = |(i, key): (usize, &i64)| FORCES_PLAN.leaf(&mut plan, i + 1, &numbered(&[*key]));
    let leaves: Vec<Placed> = keys.iter().enumerate().map(leaf).collect();
    let root = FORCES_PLAN.inner(&mut plan, newest, &leaves).page;
    let chunks: Entries = (0..of.chunks).map(|chunk| chunk_entry(&plan, chunk)).collect();
    let names: Entries = vec![
        (b"name.forces".to_vec(), b"1".to_vec()),
        (b"root.1".to_vec(), format!("{:x}", plan.position(root)).into_bytes()),
    ];
    let parts = [(newest, &chunks[..of.late]), (0, &chunks[of.late..]), (newest, &names)];
    let metadata = parts.map(|(chunk, part)| METADATA_PLAN.leaf(&mut plan, chunk, part));
    let root = METADATA_PLAN.inner(&mut plan, newest, &metadata).page;
    let position = plan.position(root);
    plan.chunks[newest].header.set("root", position);
    (plan, leaves)
}

/// A fault that the examination meets late.
fn wrong_check_value(judge: &mut Judge, mut plan: Plan, leaf: &Placed) {
    plan.page(leaf.page).check_xor = 1;
    let what = format!("many chunks, a fault in number {}", leaf.page.chunk);
    claim_refused(judge, &plan, &what, 8);
}

/// A chunk that stands by the other edition, located late.
fn other_edition(judge: &mut Judge, mut plan: Plan, leaf: &Placed) {
    let footer = &mut plan.chunks[leaf.page.chunk].footer;
    footer.edition = Edition::Second;
    footer.set_odd(true);
    let what = format!("many chunks, the other edition in number {}", leaf.page.chunk);
    claim_refused(judge, &plan, &what, 5);
}

fn claim_refused(judge: &mut Judge, plan: &Plan, what: &str, number: u8) {
    let image = plan.image();
    judge.image(what, &image, View::FIRST);
    let examined = judge.ask(&image, &examine());
    judge.claim(examined.refusal() == Some(number), || format!("{what}: {examined}"));
}
