//! Metadata whose paths lie in chunks that are themselves to be located: each question opens 15
//! others, eight deep, and no chunk is needed twice in a row.

use super::draft::{names, Body, Draft};
use super::{Worst, FORCES_PLAN};
use crate::build::line::{LinePlan, Sum};
use crate::build::tree::{number_key, Entries};
use crate::family::standard::METADATA_PLAN;
use crate::model::image::BLOCK;
use crate::model::locate::QUESTIONS;
use crate::model::page::{DEEPEST, LONGEST_VALUE};

/// The layers of chunks: one of layer l takes l questions.
const LAYERS: usize = QUESTIONS as usize;
/// The pages of a path below the metadata's root.
const PATH: usize = DEEPEST as usize - 1;

pub fn nested(size: usize) -> Worst {
    Nested::new(size, false).worst()
}

/// The metadata's line of each chunk is as long as a value may be, and all its names are short: no
/// name may occur twice in a line, so a reader compares them.
pub fn long_lines(size: usize) -> Worst {
    Nested::new(size, true).worst()
}

struct Nested {
    draft: Draft,
    long_lines: bool,
    /// The numbers of the chunks of each layer; layer 0 is the newest chunk alone.
    layers: Vec<Vec<usize>>,
}

impl Nested {
    fn new(size: usize, long_lines: bool) -> Nested {
        let mut draft = Draft::new();
        let mut layers = vec![Vec::new()];
        for width in widths(chunks_in(size, long_lines)) {
            layers.push((0..width).map(|_| draft.add_chunk()).collect());
        }
        layers[0].push(draft.add_chunk());
        Nested { draft, long_lines, layers }
    }

    fn worst(mut self) -> Worst {
        let forces = self.forces();
        let mut separators: Vec<Vec<u8>> = Vec::new();
        let mut paths: Vec<(u64, u64)> = Vec::new();
        for layer in 1..=LAYERS {
            for number in 0..self.layers[layer].len() {
                let entry = self.entry(self.layers[layer][number]);
                if number > 0 || layer > 1 {
                    separators.push(entry.0.clone());
                }
                paths.push((self.path(layer - 1, number * PATH, vec![entry]), 1));
            }
        }
        let names = names(forces);
        separators.push(names[0].0.clone());
        paths.push((self.path(LAYERS, 0, names), 2));
        let newest = self.layers[0][0];
        let root = self.draft.put(newest, &Body::inner(METADATA_PLAN, &paths, &separators));
        let image = self.draft.image(newest, root);
        Worst::forces(image, 7, 0, &[0; PATH + 1], format!("report 1 {DEEPEST} {DEEPEST}"))
    }

    fn entry(&self, chunk: usize) -> (Vec<u8>, Vec<u8>) {
        let (key, line) = self.draft.entry(chunk);
        if !self.long_lines {
            return (key, line);
        }
        let mut long = LinePlan::new(&[], Sum::None);
        long.fields = fillers(LONGEST_VALUE as usize - line.len());
        (key, [long.text(), b",".to_vec(), line].concat())
    }

    /// A path of metadata pages to a leaf, each page in another chunk of the layer; a long leaf is
    /// in the newest.
    fn path(&mut self, layer: usize, first: usize, entries: Entries) -> u64 {
        let count = entries.len() as u64;
        let chunk = |layers: &[Vec<usize>], page: usize| {
            layers[layer][(first + page) % layers[layer].len()]
        };
        let leaf = Body::leaf(METADATA_PLAN, &entries);
        let long = leaf.bytes.len() > BLOCK as usize;
        let lowest = if long { self.layers[0][0] } else { chunk(&self.layers, PATH - 1) };
        let mut position = self.draft.put(lowest, &leaf);
        for page in (0..PATH - 1).rev() {
            let inner = Body::inner(METADATA_PLAN, &[(position, count)], &[]);
            position = self.draft.put(chunk(&self.layers, page), &inner);
        }
        position
    }

    /// A map of one entry at the end of a path through the last layer.
    fn forces(&mut self) -> u64 {
        let last = &self.layers[LAYERS];
        let leaf = Body::leaf(FORCES_PLAN, &[(number_key(7), vec![7; 24])]);
        let mut position = self.draft.put(last[PATH % last.len()], &leaf);
        for page in (0..PATH).rev() {
            let inner = Body::inner(FORCES_PLAN, &[(position, 1)], &[]);
            position = self.draft.put(last[page % last.len()], &inner);
        }
        position
    }
}

/// How many chunks each layer has. The last is as wide as one path needs, the one before as wide as
/// the paths to it, and the others share the rest.
fn widths(chunks: usize) -> [usize; LAYERS] {
    let mut widths = [0; LAYERS];
    let mut left = chunks;
    let mut needed = PATH + 1;
    for layer in (0..LAYERS).rev() {
        widths[layer] = needed.min(left / (layer + 1));
        left -= widths[layer];
        needed = needed.saturating_mul(PATH);
    }
    widths
}

/// How many chunks of one block fit in the image beside the newest.
fn chunks_in(size: usize, long_lines: bool) -> usize {
    let blocks = size / BLOCK as usize;
    let fits = |chunks: &usize| {
        let root = (chunks + 1) * (8 + 1 + 11);
        let paths = widths(*chunks)[0] * (PATH * 18 + 20);
        let values = if long_lines { chunks * (LONGEST_VALUE as usize + 32) } else { 0 };
        chunks + (root + paths + values).div_ceil(BLOCK as usize) + 5 <= blocks
    };
    (1..blocks).rev().find(fits).expect("the image has room for a chunk")
}

/// As many fields of short unknown names as fit in front of others in so many bytes.
fn fillers(room: usize) -> Vec<(String, String)> {
    let mut left = room;
    let fits = |name: &String| {
        // The name, a colon, a digit and a comma.
        let more = left.checked_sub(name.len() + 3);
        left = more.unwrap_or(0);
        more.is_some()
    };
    unknown_names().take_while(fits).map(|name| (name, "0".to_string())).collect()
}

/// Different names, the shortest first; none is one that a reader knows.
fn unknown_names() -> impl Iterator<Item = String> {
    let letters = || ('a'..='z').chain('A'..='Z').map(String::from);
    let two = move || letters().flat_map(move |a| letters().map(move |b| a.clone() + &b));
    let three = letters().flat_map(move |a| two().map(move |b| a.clone() + &b));
    letters().chain(two()).chain(three).filter(|name| name != "H" && name != "len")
}
