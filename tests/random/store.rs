//! A random store that is good: what is wrong with an image comes from the damage.

use super::entries::entries;
use super::tree::{tree, Shape};
use super::Random;
use crate::build::plan::Plan;
use crate::build::tree::{Entries, MapPlan};
use crate::model::fletcher::Edition;
use crate::model::page::DEEPEST;
use crate::subject::MapArgs;

/// Room kept in the newest chunk for the metadata.
const METADATA_ROOM: u64 = 3500;

pub struct RandomStore {
    /// The edition of all sums.
    pub edition: Edition,
    pub plan: Plan,
    pub maps: Vec<RandomMap>,
    /// Every map must be found as it was built: all metadata lies in the newest chunk, so that no
    /// question opens inside another, and nothing is too deep.
    pub plain: bool,
}

pub struct RandomMap {
    pub map: MapArgs,
    pub name: String,
    pub entries: Entries,
}

pub fn store(random: &mut Random) -> RandomStore {
    let mut plan = Plan::new();
    let newest = add_chunks(random, &mut plan);
    let maps = (0..random.range(1, 3)).map(|i| add_map(random, &mut plan, i, newest)).collect();
    let (maps, roots): (Vec<RandomMap>, Vec<(u64, u64)>) = Vec::into_iter(maps).unzip();
    let (positions, levels): (Vec<u64>, Vec<u64>) = roots.into_iter().unzip();
    let plain = !random.once_in(3);
    let shape = metadata_shape(random, &plan, newest, plain);
    let metadata_levels = add_metadata(random, &mut plan, &maps, &positions, newest, &shape);
    add_headers(random, &mut plan, newest);
    let edition = *random.pick(&[Edition::First, Edition::Second]);
    plan.set_edition(edition);
    let deepest = levels.into_iter().fold(metadata_levels, u64::max);
    RandomStore { edition, plan, maps, plain: plain && deepest <= DEEPEST }
}

/// One to six chunks; the newest, given back by its number, may be anywhere.
fn add_chunks(random: &mut Random, plan: &mut Plan) -> usize {
    let n = random.range(1, 6);
    let newest = if random.once_in(3) { random.below(n) } else { n - 1 };
    let step = *random.pick(&[1, 1, 7, 1 << 40]);
    let id_step = *random.pick(&[1, 1, 3, 16, 1 << 22]);
    for i in 0..n {
        // The newest has the highest version, the others rise by place.
        let version = if i == newest { (n + 1) * step } else { (i + 1) * step };
        let len = if i == newest { random.range(2, 3) } else { random.range(1, 3) };
        plan.newline = *random.pick(&[150, 159, 255, 1023]);
        plan.add_chunk((i + random.below(2)) * id_step + i, len, version);
    }
    newest as usize
}

/// A map with its pages spread over the chunks, its root and its levels.
fn add_map(random: &mut Random, plan: &mut Plan, i: u64, newest: usize) -> (RandomMap, (u64, u64)) {
    let map = MapPlan { id: map_id(random, i), kind: random.below(2) };
    let most = *random.pick(&[0, 3, 8, 8, 20, 40]);
    let mut list = entries(random, map.kind, most);
    let mut shape = Shape {
        chunks: (0..plan.chunks.len()).collect(),
        reserve: METADATA_ROOM,
        leaf: random.range(1, 6),
        fan_out: random.range(2, 4),
        extra_depth: if random.once_in(10) { random.below(13) } else { 0 },
    };
    if random.once_in(4) {
        shape.chunks = vec![newest];
    }
    // The reserve is the newest chunk's; the others can be filled.
    shape.chunks.retain(|&chunk| chunk == newest || random.once_in(2));
    let root = place(random, plan, map, &mut shape, &list, newest);
    if root.is_none() {
        list.clear();
    }
    let map = MapArgs { id: map.id, kind: map.kind };
    (RandomMap { map, name: name(i), entries: list }, root.unwrap_or((0, 0)))
}

/// In all chunks of the shape, or in the newest alone; none if neither has room.
fn place(
    random: &mut Random,
    plan: &mut Plan,
    map: MapPlan,
    shape: &mut Shape,
    list: &Entries,
    newest: usize,
) -> Option<(u64, u64)> {
    if list.is_empty() && random.once_in(2) {
        return None;
    }
    if shape.chunks.iter().any(|&chunk| chunk != newest) {
        shape.reserve = 0;
        shape.chunks.retain(|&chunk| chunk != newest);
    }
    let spread = tree(random, plan, map, shape, list);
    let root = spread.or_else(|| {
        shape.reserve = METADATA_ROOM;
        shape.chunks = vec![newest];
        tree(random, plan, map, shape, list)
    })?;
    Some((plan.position(root.page), root.levels))
}

/// The first map is the one that a listing is of.
fn name(i: u64) -> String {
    if i == 0 {
        "forces".to_string()
    } else {
        format!("m{i}")
    }
}

fn map_id(random: &mut Random, i: u64) -> u64 {
    match random.below(6) {
        0 => (1 << 31) - 1 - i,
        1 => 127 + i,
        _ => i + 1,
    }
}

/// In the newest chunk, or spread: questions inside questions, some of them without end.
fn metadata_shape(random: &mut Random, plan: &Plan, newest: usize, plain: bool) -> Shape {
    let other = random.below(plan.chunks.len() as u64) as usize;
    Shape {
        chunks: if plain { vec![newest] } else { vec![newest, newest, other] },
        reserve: 0,
        leaf: *random.pick(&[1, 3, 100]),
        fan_out: random.range(2, 4),
        extra_depth: if random.once_in(12) { random.below(13) } else { 0 },
    }
}

/// Chunk, name and root entries in as many pages as the shape makes; the levels of their tree.
fn add_metadata(
    random: &mut Random,
    plan: &mut Plan,
    maps: &[RandomMap],
    roots: &[u64],
    newest: usize,
    shape: &Shape,
) -> u64 {
    let text = |key: String, value: String| (key.into_bytes(), value.into_bytes());
    let mut list: Entries = Vec::new();
    for (i, chunk) in plan.chunks.iter().enumerate() {
        if i != newest || random.once_in(3) {
            list.push((format!("chunk.{:x}", chunk.id).into_bytes(), chunk.header.text()));
        }
    }
    for (map, &root) in maps.iter().zip(roots) {
        list.push(text(format!("name.{}", map.name), format!("{:x}", map.map.id)));
        if root != 0 || random.once_in(2) {
            list.push(text(format!("root.{:x}", map.map.id), format!("{root:x}")));
        }
    }
    list.sort();
    let map = MapPlan { id: 0, kind: 1 };
    let root = tree(random, plan, map, shape, &list);
    let position = root.as_ref().map_or(0, |root| plan.position(root.page));
    plan.chunks[newest].header.set("root", position);
    root.map_or(0, |root| root.levels)
}

/// The newest is named by a header, ends the image, or is found along `next`.
fn add_headers(random: &mut Random, plan: &mut Plan, newest: usize) {
    let ends_the_image = newest + 1 == plan.chunks.len();
    match random.below(4) {
        0 if ends_the_image => {}
        1 if ends_the_image => plan.name_chunk(0),
        2 => {
            // Along next from a chunk of any age, with no footer at the end.
            let block = plan.chunks[newest].block;
            for (i, chunk) in plan.chunks.iter_mut().enumerate() {
                if i != newest {
                    chunk.header.set("next", block);
                }
            }
            plan.name_chunk(random.below(plan.chunks.len() as u64) as usize);
            plan.blocks += random.below(2);
        }
        _ => plan.name_chunk_in(random.below(2) as usize, newest),
    }
}
