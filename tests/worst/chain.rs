//! As many chunks as fit, through which opening goes one by one.

use super::draft::{Body, Draft};
use super::{Worst, FORCES_PLAN};
use crate::build::tree::number_key;
use crate::model::image::BLOCK;

pub fn chain(size: usize) -> Worst {
    let mut draft = Draft::new();
    // The file headers and the oldest take a block each.
    let order: Vec<usize> = (0..size / BLOCK as usize - 3).map(|_| draft.add_chunk()).collect();
    let newest = order.len() - 1;
    let leaf = Body::leaf(FORCES_PLAN, &[(number_key(7), vec![7; 24])]);
    let forces = draft.put(newest, &leaf);
    let root = draft.metadata(newest, &[], forces);
    Worst::forces(draft.chained(&order, root), 7, 0, &[0], "report 1 1 1".to_string())
}
