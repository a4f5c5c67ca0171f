//! A store of one map, laid out as H2 leaves one after many commits: the map's leaves in chunks of
//! every age, the metadata's in some of the newest, and a chunk's entry always in a chunk after it.

use crate::build::page::PagePlan;
use crate::build::plan::Plan;
use crate::build::tree::{number_key, Entries, MapPlan, Placed};
use crate::family::standard::{chunk_entry, METADATA_PLAN};
use crate::random::Random;

/// What H2's pages hold on average: entries of a leaf and children of an inner page, of the map and
/// of the metadata.
const LEAF: usize = 138;
const FAN_OUT: usize = 380;
const METADATA_LEAF: usize = 28;
const METADATA_FAN_OUT: usize = 180;
/// The share of the chunks, newest last, that has the metadata's leaves. A commit changes the entries
/// of the chunks whose pages it writes anew, so a leaf that names one of these lies in the same share
/// of them.
const RECENT_SHARE: usize = 16;
/// How many chunks lie between the map's inner pages, and the bytes that one takes at most.
const INNER_APART: usize = 3;
const INNER_ROOM: u64 = 8000;
/// The blocks of a chunk, and of the newest, which has room for all that finds none elsewhere.
const BLOCKS: u64 = 7;
const NEWEST_BLOCKS: u64 = 16;

const VALUE: [u8; 24] = [7; 24];
const FORCES_PLAN: MapPlan = MapPlan { id: 1, kind: 0 };

/// An image whose map `forces` has so many entries; entry i has the key 3i less their number.
pub struct Store {
    pub image: Vec<u8>,
    pub entries: u64,
}

impl Store {
    pub fn new(entries: u64, chunks: u64) -> Store {
        let mut building = Building::new(entries, chunks);
        let root = building.forces(entries);
        building.metadata(root);
        Store { image: building.plan.image(), entries }
    }

    pub fn key(&self, i: u64) -> i64 {
        key(self.entries, i)
    }
}

fn key(entries: u64, i: u64) -> i64 {
    3 * i as i64 - entries as i64
}

/// The chunk that a metadata entry is about, by its number in the plan: ids begin with 1.
fn named((key, _): &(Vec<u8>, Vec<u8>)) -> Option<usize> {
    let digits = std::str::from_utf8(key.strip_prefix(b"chunk.")?).ok()?;
    Some(usize::from_str_radix(digits, 16).ok()? - 1)
}

struct Building {
    random: Random,
    plan: Plan,
    newest: usize,
}

impl Building {
    /// Chunks without pages. The file headers name none: the newest ends the image.
    fn new(seed: u64, chunks: u64) -> Building {
        let mut plan = Plan::new();
        for id in 1..=chunks {
            let blocks = if id == chunks { NEWEST_BLOCKS } else { BLOCKS };
            let chunk = plan.add_chunk(id, blocks, id);
            for (name, value) in [("map", 1), ("max", 0x89b0), ("root", 0x40_0006_9944)] {
                plan.chunks[chunk].header.set(name, value);
            }
        }
        Building { random: Random::new(seed), plan, newest: chunks as usize - 1 }
    }

    /// The map's pages; its root's position.
    fn forces(&mut self, entries: u64) -> u64 {
        let entry = |i| (number_key(key(entries, i)), VALUE.to_vec());
        let mut leaves = Vec::new();
        for first in (0..entries).step_by(LEAF) {
            let part: Entries = (first..entries.min(first + LEAF as u64)).map(entry).collect();
            leaves.push(self.leaf(FORCES_PLAN, 0, &part));
        }
        self.root(FORCES_PLAN, FAN_OUT, INNER_APART, leaves)
    }

    /// The metadata's pages; its root is the newest chunk's. Every commit writes its inner pages.
    fn metadata(&mut self, root: u64) {
        let mut all: Entries = (0..self.newest).map(|chunk| self.entry_of(chunk)).collect();
        all.push((b"map.1".to_vec(), b"name:forces".to_vec()));
        all.push((b"name.forces".to_vec(), b"1".to_vec()));
        all.push((b"root.1".to_vec(), format!("{root:x}").into_bytes()));
        all.sort();
        let groups = all.chunks(METADATA_LEAF);
        let leaves = groups.map(|part| self.leaf(METADATA_PLAN, self.oldest_for(part), part));
        let leaves = leaves.collect();
        let position = self.root(METADATA_PLAN, METADATA_FAN_OUT, 0, leaves);
        self.plan.chunks[self.newest].header.set("root", position);
    }

    /// A chunk's entry, with two fields more than its header line.
    fn entry_of(&self, chunk: usize) -> (Vec<u8>, Vec<u8>) {
        let (key, line) = chunk_entry(&self.plan, chunk);
        (key, [line, b",liveMax:3000,livePages:2".to_vec()].concat())
    }

    /// The first chunk in which a leaf of these metadata entries may lie: after all chunks that it
    /// names, and in the newest if it has the root, which every commit writes.
    fn oldest_for(&self, entries: &[(Vec<u8>, Vec<u8>)]) -> usize {
        let recent = self.newest / RECENT_SHARE;
        match entries.iter().filter_map(named).max() {
            _ if entries.iter().any(|(key, _)| key == b"root.1") => self.newest,
            Some(last) if last + recent < self.newest => self.newest - recent,
            Some(last) => (last + 1).max(self.newest - recent / RECENT_SHARE),
            None => self.newest,
        }
    }

    /// A leaf in some chunk from one on.
    fn leaf(&mut self, map: MapPlan, from: usize, entries: &[(Vec<u8>, Vec<u8>)]) -> Placed {
        let length = PagePlan::leaf(map.id, map.kind, entries).true_length();
        loop {
            let chunk = self.random.range(from as u64, self.newest as u64) as usize;
            if self.plan.chunks[chunk].has_room(length) {
                return map.leaf(&mut self.plan, chunk, entries);
            }
        }
    }

    /// An inner page so many chunks back from the newest, or after that in the first with room.
    fn inner(&mut self, map: MapPlan, back: usize, children: &[Placed]) -> Placed {
        let from = self.newest.saturating_sub(back);
        let roomy = |&chunk: &usize| self.plan.chunks[chunk].has_room(INNER_ROOM);
        let chunk = (from..self.newest).find(roomy).unwrap_or(self.newest);
        map.inner(&mut self.plan, chunk, children)
    }

    /// Inner pages over leaves, so many chunks apart, up to a root in the newest chunk; the root's
    /// position.
    fn root(&mut self, map: MapPlan, fan_out: usize, apart: usize, leaves: Vec<Placed>) -> u64 {
        let mut level = leaves;
        while level.len() > 1 {
            let groups = level.chunks(fan_out).enumerate();
            level = groups.map(|(i, part)| self.inner(map, i * apart, part)).collect();
        }
        self.plan.position(level[0].page)
    }
}
