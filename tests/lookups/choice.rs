//! Which questions an image is asked, by what the model knows of it.

use std::collections::BTreeSet;

use super::Question;
use crate::model::ask::{self, View};
use crate::model::index::GivenKey;
use crate::model::key::Kind;
use crate::model::locate::{Store, QUESTIONS};
use crate::model::map::{map_of, Map};
use crate::model::page::{read, Body};
use crate::model::walk::{Step, FRESH};

/// The most pages of a map that are asked for.
const MOST_PAGES: usize = 20;
/// "map name not 1 to 1,000 bytes"
const LONGEST_NAME: usize = 1000;
/// No map and no chunk of any image has it.
const UNKNOWN: u64 = 0x3ff_fff0;

/// What the metadata names.
#[derive(Clone, Default)]
pub struct Names {
    maps: BTreeSet<Vec<u8>>,
    ids: BTreeSet<u64>,
    chunks: BTreeSet<u64>,
}

impl Names {
    /// What a walk of the metadata meets before it ends or is refused.
    pub fn of(image: &[u8], view: View) -> Names {
        let mut names = Names::default();
        let mut state = FRESH;
        while let Ok(Step::Yield(entry)) = ask::walk(image, view, 0, 1, &mut state) {
            if let GivenKey::Text(key) = entry.key {
                let bytes = |at, length| &image[at as usize..(at + length) as usize];
                let value = bytes(entry.value.at, entry.value.length);
                names.meet(bytes(key.at, key.length), value);
            }
        }
        names
    }

    fn meet(&mut self, key: &[u8], value: &[u8]) {
        if let Some(name) = key.strip_prefix(b"name.") {
            self.maps.insert(name.to_vec());
            self.ids.extend(hex(value));
        }
        self.ids.extend(key.strip_prefix(b"root.").and_then(hex));
        self.chunks.extend(key.strip_prefix(b"chunk.").and_then(hex));
    }

    pub fn join(mut self, other: Names) -> Names {
        self.maps.extend(other.maps);
        self.ids.extend(other.ids);
        self.chunks.extend(other.chunks);
        self
    }
}

/// An id or a chunk's number that every reader could take.
fn hex(digits: &[u8]) -> Option<u64> {
    let text = std::str::from_utf8(digits).ok()?;
    u64::from_str_radix(text, 16).ok().filter(|&number| number < UNKNOWN)
}

/// The questions for an image under a view; where opening refuses, whether it does so to another call
/// too.
pub fn questions(image: &[u8], view: View, names: &Names) -> Vec<Question> {
    let mut all = vec![Question::Open, Question::Map { name: b"nothing".to_vec() }];
    let Ok(store) = view.judge().and_then(|edition| Store::open(image, edition)) else {
        return all;
    };
    all.extend(names.maps.iter().map(|name| Question::Map { name: name.clone() }));
    let longest = names.maps.iter().filter(|name| name.len() == LONGEST_NAME);
    all.extend(longest.map(|name| Question::Map { name: [name, &b"x"[..]].concat() }));
    let ids = || names.ids.iter().copied().chain([0]);
    all.extend(ids().chain([UNKNOWN]).map(|id| Question::Root { id }));
    let newest = store.newest.id;
    let chunks = names.chunks.iter().copied().chain([newest, UNKNOWN]);
    all.extend(chunks.map(|id| Question::Chunk { id }));
    for id in ids() {
        if let Ok(map) = map_of(&store, id, Kind::Text) {
            all.extend(pages(&store, id, map.root));
        }
    }
    all
}

/// The root for the right and a wrong map and both kinds, and the pages below it, level by level. A
/// map other than the metadata is of kind 0 if its root can be read so.
fn pages(store: &Store, map: u64, root: u64) -> Vec<Question> {
    let due = |position, map, kind| Question::Page { position, map, kind };
    let mut asked = vec![due(root, map, 0), due(root, map, 1), due(root, map + 1, 1)];
    let kind = u64::from(map == 0 || children(store, map, 0, root).is_empty());
    let mut below = children(store, map, kind, root);
    let mut next = 0;
    while next < below.len().min(MOST_PAGES) {
        asked.push(due(below[next], map, kind));
        below.extend(children(store, map, kind, below[next]));
        next += 1;
    }
    asked
}

/// The children of a page; none where it is no inner page.
fn children(store: &Store, id: u64, kind: u64, position: u64) -> Vec<u64> {
    let kind = Kind::of(kind).expect("a kind is 0 or 1");
    let map = Map { id, kind, root: position };
    match read(store, &map, position, 1, QUESTIONS).map(|page| page.body) {
        Ok(Body::Inner(children)) => children.iter().map(|child| child.position).collect(),
        _ => Vec::new(),
    }
}
