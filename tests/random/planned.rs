//! Damage to a plan: sums, lengths and check values follow it.

use super::Random;
use crate::build::line::{LinePlan, Sum};
use crate::build::page::{measured, variable, PagePlan};
use crate::build::plan::Plan;

/// One piece of damage.
pub fn damage(random: &mut Random, plan: &mut Plan) {
    let chunk = random.below(plan.chunks.len() as u64) as usize;
    match random.below(20) {
        0 => {
            let copy = random.below(2) as usize;
            damage_line(random, &mut plan.headers[copy]);
        }
        1 => damage_line(random, &mut plan.chunks[chunk].header),
        2 => damage_line(random, &mut plan.chunks[chunk].footer),
        _ => damage_some_page(random, plan, chunk),
    }
}

fn damage_some_page(random: &mut Random, plan: &mut Plan, chunk: usize) {
    let known = Known::of(plan);
    let id = plan.chunks[chunk].id;
    let Some(page) = some(random, &mut plan.chunks[chunk].pages) else {
        return;
    };
    match (random.below(3), page.type_bit) {
        (0, _) => damage_head(random, page),
        (1, _) => borrow_key(random, page, &known),
        (_, 1) => damage_inner(random, page, &known),
        _ if random.once_in(3) => {
            empty(page);
            let position = page.position(id);
            record_empty(plan, position);
        }
        _ => damage_leaf(random, page),
    }
}

/// What the pages of a plan could be mistaken for.
struct Known {
    /// The positions of all pages.
    positions: Vec<u64>,
    /// The keys of all pages, each with its page's map id.
    keys: Vec<(Vec<u8>, Vec<u8>)>,
}

impl Known {
    fn of(plan: &Plan) -> Known {
        let mut known = Known { positions: Vec::new(), keys: Vec::new() };
        for chunk in &plan.chunks {
            for page in &chunk.pages {
                known.positions.push(page.position(chunk.id));
                known.keys.extend(page.keys.iter().map(|key| (page.map.clone(), key.clone())));
            }
        }
        known
    }
}

/// Puts another key of the same map in a key's place.
fn borrow_key(random: &mut Random, page: &mut PagePlan, known: &Known) {
    let of_map = known.keys.iter().filter(|(map, _)| *map == page.map);
    let keys: Vec<&Vec<u8>> = of_map.map(|(_, key)| key).collect();
    if !keys.is_empty() {
        let key = random.pick(&keys).to_vec();
        set(some(random, &mut page.keys), key);
    }
}

/// Lets the pages above a leaf say that it has no entries.
fn record_empty(plan: &mut Plan, position: u64) {
    for page in plan.chunks.iter_mut().flat_map(|chunk| &mut chunk.pages) {
        for (child, count) in page.children.iter().zip(&mut page.counts) {
            if *child == position {
                *count = variable(0);
            }
        }
    }
}

/// Any item of a list that has one.
fn some<'a, T>(random: &mut Random, list: &'a mut [T]) -> Option<&'a mut T> {
    let n = list.len() as u64;
    if n == 0 {
        return None;
    }
    list.get_mut(random.below(n) as usize)
}

fn damage_line(random: &mut Random, line: &mut LinePlan) {
    let number = *random.pick(&[0, 1, 2, 3, 5, 0xff, 1 << 26, u64::MAX]);
    match random.below(8) {
        0 => line.sum = Sum::Xor(1 << random.below(32)),
        1 => line.add("x", "01"),
        2 => line.add("chunk", "1"),
        3 => {
            let i = random.below(line.fields.len() as u64) as usize;
            line.fields.remove(i);
        }
        4 => line.trailing = b"   ".to_vec(),
        _ => {
            if let Some(field) = some(random, &mut line.fields) {
                field.1 = format!("{number:x}");
            }
        }
    }
    if line.fields.is_empty() {
        line.add("x", "1");
    }
}

/// The fields before keys, children and values.
fn damage_head(random: &mut Random, page: &mut PagePlan) {
    let length = page.true_length();
    match random.below(9) {
        0 => page.check_xor = 1 << random.below(16),
        1 => page.map = variable(random.below(3)),
        2 => page.map = vec![page.map[0] | 0x80, 0],
        3 => page.n = variable(random.below(8)),
        4 => page.n = variable(1 << random.range(20, 40)),
        5 => page.type_byte = vec![random.below(3) as u8],
        6 => page.leftover = vec![0; random.range(1, 3) as usize],
        7 => page.length = Some(*random.pick(&[0, 8, 9, length - 1, length + 1, 4000, 1 << 31])),
        _ => page.type_byte.clear(),
    }
}

/// Children that are missing, wrong or shared; counts and separators that are off.
fn damage_inner(random: &mut Random, page: &mut PagePlan, known: &Known) {
    let position = *random.pick(&known.positions);
    let own = page.children.first().copied().unwrap_or(0);
    let count = *random.pick(&[0, 1, 2, 3, 100, (1 << 48) - 1, 1 << 48]);
    match random.below(8) {
        0 => set(some(random, &mut page.children), 0),
        1 => set(some(random, &mut page.children), position),
        2 => set(some(random, &mut page.children), own),
        3 => {
            let bits = 1 << random.below(64);
            if let Some(child) = some(random, &mut page.children) {
                *child ^= bits;
            }
        }
        4 | 5 => set(some(random, &mut page.counts), variable(count)),
        6 => page.children.reverse(),
        _ => damage_keys(random, &mut page.keys),
    }
}

fn damage_leaf(random: &mut Random, page: &mut PagePlan) {
    let texts: [&[u8]; 7] = [b"", b"0", b"01", b"1", b"block:2", b"block:03", b"ffffffffffffffff"];
    let text = measured(random.pick::<&[u8]>(&texts));
    match random.below(6) {
        0 => set(some(random, &mut page.values), text),
        1 => set(some(random, &mut page.values), variable(70_000)),
        2 => empty(page),
        3 if page.values.len() > 1 => page.values.swap(0, 1),
        _ => damage_keys(random, &mut page.keys),
    }
}

/// Makes a leaf of no entries.
fn empty(page: &mut PagePlan) {
    page.n = vec![0];
    page.keys.clear();
    page.values.clear();
}

/// Keys swapped, doubled, or with a byte changed.
fn damage_keys(random: &mut Random, keys: &mut [Vec<u8>]) {
    let bits = 1 << random.below(8);
    match (keys.len(), random.below(3)) {
        (0, _) => {}
        (1, _) | (_, 0) => {
            let byte = some(random, keys).and_then(|key| key.last_mut());
            if let Some(byte) = byte {
                *byte ^= bits;
            }
        }
        (_, 1) => keys.swap(0, 1),
        _ => keys[1] = keys[0].clone(),
    }
}

fn set<T>(place: Option<&mut T>, value: T) {
    if let Some(place) = place {
        *place = value;
    }
}
