//! Questions by short names, under edition 1. Those without a map ask about `forces`: map 1, kind 0.

use crate::build::tree::number_key;
use crate::model::ask::View;
use crate::model::walk::{State, FRESH, PLACES};
use crate::subject::{Asks, MapArgs, Question};

pub const FORCES: MapArgs = MapArgs { id: 1, kind: 0 };
pub const NOTES: MapArgs = MapArgs { id: 2, kind: 1 };
/// No entry `root.3`.
pub const BLANK: MapArgs = MapArgs { id: 3, kind: 0 };
/// `root.4` is `0`.
pub const ZERO: MapArgs = MapArgs { id: 4, kind: 0 };
/// The root is an empty leaf.
pub const BARE: MapArgs = MapArgs { id: 5, kind: 0 };
/// Depth 3.
pub const BEAMS: MapArgs = MapArgs { id: 6, kind: 0 };
pub const METADATA: MapArgs = MapArgs { id: 0, kind: 1 };

fn first(asks: Asks) -> Question {
    asks.under(View::FIRST)
}

pub fn open() -> Question {
    first(Asks::Open)
}

pub fn list() -> Question {
    first(Asks::List)
}

pub fn find(name: &str) -> Question {
    first(Asks::Find { name: name.as_bytes().to_vec() })
}

pub fn lookup(key: i64) -> Question {
    lookup_in(FORCES, key)
}

pub fn lookup_in(map: MapArgs, key: i64) -> Question {
    lookup_bytes(map, &number_key(key))
}

pub fn lookup_text(map: MapArgs, key: &str) -> Question {
    lookup_bytes(map, key.as_bytes())
}

pub fn lookup_bytes(map: MapArgs, key: &[u8]) -> Question {
    first(Asks::Lookup { map, key: key.to_vec() })
}

pub fn index(at: u64) -> Question {
    index_in(FORCES, at)
}

pub fn index_in(map: MapArgs, at: u64) -> Question {
    first(Asks::Index { map, at })
}

pub fn count() -> Question {
    count_of(FORCES)
}

pub fn count_of(map: MapArgs) -> Question {
    first(Asks::Count { map })
}

pub fn copy(key: i64, area: usize) -> Question {
    copy_bytes(FORCES, &number_key(key), area)
}

pub fn copy_bytes(map: MapArgs, key: &[u8], area: usize) -> Question {
    first(Asks::Copy { map, key: key.to_vec(), area })
}

pub fn walk(places: &[u64]) -> Question {
    walk_in(FORCES, places)
}

/// A step from the state with these places and their depth; no places is the fresh state.
pub fn walk_in(map: MapArgs, places: &[u64]) -> Question {
    walk_from(map, state(places))
}

pub fn walk_from(map: MapArgs, state: State) -> Question {
    first(Asks::Walk { map, state })
}

pub fn state(places: &[u64]) -> State {
    let mut all = [0; PLACES];
    all[..places.len()].copy_from_slice(places);
    State { places: all, depth: places.len() as u64, ..FRESH }
}

pub fn examine() -> Question {
    examine_of(FORCES)
}

pub fn examine_of(map: MapArgs) -> Question {
    first(Asks::Examine { map })
}

/// Questions under an edition.
pub fn under(edition: u64, questions: Vec<Question>) -> Vec<Question> {
    questions.into_iter().map(|question| question.under(View { edition })).collect()
}

/// The seven calls that read the metadata, each once, about `forces`: what a fault in it meets.
pub fn every_call() -> Vec<Question> {
    [vec![find("forces"), count()], page_calls(0, 0, &[])].concat()
}

/// The five calls that reach a page by a key, by the index before it, and by the place before it.
pub fn page_calls(key: i64, at: u64, before: &[u64]) -> Vec<Question> {
    vec![lookup(key), index(at), copy(key, 32), walk(before), examine()]
}
