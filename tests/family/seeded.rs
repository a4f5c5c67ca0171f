//! Raw damage to the standard store, from a seed: what nobody thought of.

use super::base::standard_base;
use super::case::Case;
use crate::model::fletcher::Edition;
use crate::random::{raw, Random};
use crate::subject::Reply;

const SEED: u64 = 3;
/// So many are kept, each with replies that no other kept one gives.
const KEPT: usize = 60;

pub fn cases() -> Vec<Case> {
    let base = standard_base();
    let replies = |image: &[u8]| -> Vec<Reply> {
        base.questions.iter().map(|question| Reply::of_model(image, question)).collect()
    };
    let mut known = vec![replies(&base.image)];
    let mut kept = Vec::new();
    let mut random = Random::new(SEED);
    for number in 1.. {
        let mut image = base.image.clone();
        raw::damage(&mut random, Edition::First, &mut image);
        let given = replies(&image);
        if !known.contains(&given) {
            known.push(given);
            let name = format!("seeded-{number}");
            kept.push(Case::new(&name, &format!("damage {number} of seed {SEED}"), image));
        }
        if kept.len() == KEPT {
            break;
        }
    }
    kept
}
