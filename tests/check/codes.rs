//! Every length code: a leaf as long as the code allows, and one a byte longer.

use crate::build::page::{measured, variable, PagePlan};
use crate::build::plan::Plan;
use crate::build::tree::{number_key, Entries, MapPlan};
use crate::family::questions::*;
use crate::family::standard::METADATA_PLAN;
use crate::model::ask::View;
use crate::model::image::BLOCK;
use crate::model::page::LONGEST_VALUE;
use crate::subject::Judge;

const FORCES_PLAN: MapPlan = MapPlan { id: 1, kind: 0 };

pub fn check(judge: &mut Judge) {
    // "32, 48, 64, 96 and so on to 1,048,576 at code 30"
    for half in 0..=15 {
        for (code, most) in [(2 * half, 32 << half), (2 * half + 1, 48 << half)] {
            let bounded = code < 31;
            claim_length(judge, code, most, true);
            claim_length(judge, code, most + 1, !bounded);
        }
    }
}

/// A store whose `forces` is one leaf of that length under that code.
fn claim_length(judge: &mut Judge, code: u64, length: u64, good: bool) {
    let leaf = leaf_of(length);
    let entries = leaf.keys.len();
    let mut plan = Plan::new();
    plan.add_chunk(1, length / BLOCK + 2, 1);
    plan.name_chunk(0);
    let page = plan.put(0, leaf);
    plan.page(page).code = code;
    let root = format!("{:x}", plan.position(page)).into_bytes();
    let metadata: Entries = vec![(b"root.1".to_vec(), root)];
    let leaf = METADATA_PLAN.leaf(&mut plan, 0, &metadata).page;
    let position = plan.position(leaf);
    plan.chunks[0].header.set("root", position);
    let image = plan.image();
    judge.image(&format!("code {code}, length {length}"), &image, View::FIRST);
    let due = if good { format!("report {entries} 1 1") } else { "refused 7".to_string() };
    let reply = judge.ask(&image, &examine()).to_string();
    judge.claim(reply == due, || format!("code {code}, length {length}: {reply}, due {due}"));
    for question in [lookup(0), index(entries as u64 - 1), count()] {
        judge.ask(&image, &question);
    }
}

/// A leaf of exactly that many bytes: values as long as may be, the last one made to fit.
fn leaf_of(length: u64) -> PagePlan {
    let n = (length - 9) / (8 + LONGEST_VALUE + 3) + 1;
    let keys: Vec<Vec<u8>> = (0..n as i64).map(number_key).collect();
    let mut page = PagePlan {
        map: variable(FORCES_PLAN.id),
        n: variable(n),
        type_byte: vec![0],
        keys,
        values: vec![Vec::new(); n as usize],
        ..PagePlan::default()
    };
    for i in 0..n as usize {
        // Each value still to come takes a byte at least.
        let room = length - page.true_length() - (n - 1 - i as u64);
        page.values[i] = measured(&vec![0; body_for(room) as usize]);
    }
    assert_eq!(page.true_length(), length);
    page
}

/// The longest body that takes at most so much room with its length.
fn body_for(room: u64) -> u64 {
    let most = room.saturating_sub(1).min(LONGEST_VALUE);
    (0..=most).rev().find(|&body| body + variable(body).len() as u64 <= room).unwrap_or(0)
}
