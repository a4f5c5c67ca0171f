//! 15 inner pages on the way to every entry of the metadata, each nearly as long as the image. They
//! share their bytes: nearly all separators are empty, so that a page is a header, its children's
//! positions and zeros. Each page begins a little after the one before, and its positions end one
//! place earlier. A lookup follows the child before the only separator that is not empty.
//!
//! The chunks of the map are in blocks that are positions of every page.

use super::draft::{position_of, Draft, FIRST_ID};
use super::metadata::scattered;
use super::Worst;
use crate::build::page::variable;
use crate::family::standard::METADATA_PLAN;
use crate::model::image::BLOCK;
use crate::model::page::DEEPEST;
use crate::model::position::{check_value, UNBOUNDED};

/// The pages on the way, without the leaf.
const PATH: u64 = DEEPEST - 1;
/// The chunk that has the shared bytes, and all other chunks in it.
const NEWEST: usize = 0;
/// Where the first page begins, and from a page's start to the next's.
const FIRST: u64 = 1024;
const STEP: u64 = 24;
/// The length of a header whose count of keys has three bytes.
const HEADER: u64 = 11;
/// What a child takes: a position, a count and an empty separator.
const CHILD: u64 = 8 + 1 + 1;
/// The separator that is not empty: it is above every key that is asked for.
const ABOVE: &[u8] = b"\x01~";
/// From that separator to the last.
const AFTER_ABOVE: u64 = 2000;
/// What a chunk takes after the shared bytes: its entry, and its child of the map's root.
const CHUNK_ROOM: u64 = 44;

pub fn overlap(size: usize) -> Worst {
    let room = (size as u64 - 12 * BLOCK) / (BLOCK + CHUNK_ROOM) * BLOCK;
    let shared = Shared::new(room);
    let mut draft = Draft::new();
    draft.add_chunk();
    draft.skip_to(NEWEST, FIRST);
    draft.put_bytes(NEWEST, &vec![0; room as usize]);
    let blocks = shared.free_blocks();
    let numbers: Vec<usize> = blocks.map(|block| draft.add_within(NEWEST, block)).collect();
    let forces = scattered(&mut draft, &numbers, NEWEST);
    let leaf = draft.metadata(NEWEST, &numbers, forces);
    let root = shared.write(&mut draft, leaf);
    let image = draft.image(NEWEST, root);
    let chunks = numbers.len() as u64;
    let examined = format!("report {chunks} {} 2", chunks + 1);
    Worst::forces(image, chunks as i64 - 1, chunks - 1, &[chunks - 1, 0], examined)
}

/// The shared bytes, by their offsets in the chunk.
struct Shared {
    /// Where the first page's positions end.
    end: u64,
    /// Where the separator is that is not empty.
    above: u64,
}

impl Shared {
    fn new(length: u64) -> Shared {
        let n = (length - HEADER - CHILD) / CHILD;
        let end = FIRST + HEADER + 8 * (n + 1);
        Shared { end, above: end + 2 * n + 1 - AFTER_ABOVE }
    }

    /// Where a page's positions end.
    fn end_of(&self, page: u64) -> u64 {
        self.end - 8 * page
    }

    /// A page's count of keys.
    fn n(&self, page: u64) -> u64 {
        (self.end_of(page) - start_of(page) - HEADER) / 8 - 1
    }

    fn separators(&self, page: u64) -> u64 {
        self.end_of(page) + self.n(page) + 1
    }

    /// Where the position is that a lookup follows.
    fn followed(&self, page: u64) -> u64 {
        start_of(page) + HEADER + 8 * (self.above - self.separators(page))
    }

    /// The blocks that are positions of every page, but none that is followed, and no headers.
    fn free_blocks(&self) -> impl Iterator<Item = u64> + '_ {
        let positions = 1..self.end_of(PATH) / BLOCK;
        positions.filter(|block| {
            let within = |offset: u64| offset / BLOCK == *block || (offset + 7) / BLOCK == *block;
            !(0..PATH).any(|page| within(self.followed(page)))
        })
    }

    /// Writes the pages on the way to a leaf: the position of the first.
    fn write(&self, draft: &mut Draft, leaf: u64) -> u64 {
        draft.write_over(NEWEST, self.above, ABOVE);
        (0..PATH).rev().fold(leaf, |next, page| {
            draft.write_over(NEWEST, start_of(page), &self.header(page));
            draft.write_over(NEWEST, self.followed(page), &next.to_be_bytes());
            position_of(NEWEST, start_of(page), UNBOUNDED, 1)
        })
    }

    fn header(&self, page: u64) -> Vec<u8> {
        let (start, n) = (start_of(page), self.n(page));
        // The separator that is not empty takes a byte more.
        let length = self.separators(page) + n + 1 - start;
        let check = check_value(FIRST_ID + NEWEST as u64, start, length) as u16;
        let head = [variable(METADATA_PLAN.id), variable(n), vec![1]].concat();
        let header = [&(length as u32).to_be_bytes()[..], &check.to_be_bytes(), &head].concat();
        assert_eq!(header.len() as u64, HEADER, "{n} keys");
        header
    }
}

fn start_of(page: u64) -> u64 {
    FIRST + STEP * page
}
