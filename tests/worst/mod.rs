//! One image for each way in which a call's cost grows: what a call needs on it, and how long it
//! takes.
//!
//! | file | image |
//! |---|---|
//! | `draft`    | an image under construction |
//! | `nested`   | locating one chunk needs 15 others, eight deep; lines as long as may be |
//! | `chain`    | opening goes through every chunk |
//! | `wide`     | one leaf with as many entries as fit |
//! | `deep`     | trees of depth 16, one of them with eight questions open below it |
//! | `many`     | as many leaves as fit |
//! | `metadata` | a wide leaf of the metadata, read for each chunk |
//! | `overlap`  | wide inner pages that share their bytes, read for each chunk |
//! | `count`, `ask` | a reader that counts what a call needs |
//! | `asked`    | a call of the exports in a process of its own |
//! | `table`    | the table of `tests/run --worst` |
//! | `short`    | small ones in the short run |

pub mod ask;
#[cfg(archive)]
pub mod asked;
mod chain;
pub mod count;
mod deep;
mod draft;
mod many;
mod metadata;
mod nested;
mod overlap;
#[cfg(archive)]
pub mod short;
#[cfg(archive)]
pub mod table;
mod wide;

use crate::build::tree::MapPlan;
use crate::family::questions::*;
use crate::subject::{MapArgs, Question};

const KILOBYTE: usize = 1 << 10;
pub const MEGABYTE: usize = 1 << 20;
const FORCES_PLAN: MapPlan = MapPlan { id: 1, kind: 0 };

/// An image, and what is asked about it.
pub struct Worst {
    pub image: Vec<u8>,
    pub map: MapArgs,
    pub key: Vec<u8>,
    pub at: u64,
    /// A state of the walk: places.
    pub places: Vec<u64>,
    /// What the examination must answer.
    pub examined: String,
}

/// Makes an image of at most so many bytes.
pub type Maker = fn(usize) -> Worst;

pub struct Named {
    pub name: &'static str,
    pub maker: Maker,
    /// The size of the small one, in KB.
    pub short: usize,
    /// Whether the model is fast enough on the small one.
    pub plain: bool,
}

const fn named(name: &'static str, maker: Maker) -> Named {
    Named { name, maker, short: 2048, plain: true }
}

/// One that takes minutes at 16 MB: pages nearly as long as the image are read for each chunk.
const fn growing(name: &'static str, maker: Maker) -> Named {
    Named { short: 240, ..named(name, maker) }
}

pub const ALL: [Named; 9] = [
    named("nested", nested::nested),
    // The model compares each name of a line with all before it.
    Named { short: 640, plain: false, ..named("nested-lines", nested::long_lines) },
    named("chain", chain::chain),
    Named { short: 1024, ..named("wide-leaf", wide::leaf) },
    named("deep", deep::deep),
    named("questioned", deep::questioned),
    named("many-leaves", many::leaves),
    growing("wide-metadata", metadata::wide_leaf),
    growing("overlap", overlap::overlap),
];

impl Named {
    /// The small one, which the short run asks.
    pub fn small(&self) -> Worst {
        (self.maker)(self.short * KILOBYTE)
    }
}

impl Worst {
    /// About `forces`, with number keys.
    fn forces(image: Vec<u8>, key: i64, at: u64, places: &[u64], examined: String) -> Worst {
        let key = key.to_be_bytes().to_vec();
        Worst { image, map: FORCES, key, at, places: places.to_vec(), examined }
    }

    /// The seven calls that read the metadata, under edition 1, in which these images are built.
    pub fn questions(&self) -> Vec<Question> {
        let (map, key) = (self.map, &self.key);
        vec![
            find("forces"),
            lookup_bytes(map, key),
            index_in(map, self.at),
            count_of(map),
            copy_bytes(map, key, 32),
            walk_in(map, &self.places),
            examine_of(map),
        ]
    }
}
