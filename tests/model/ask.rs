//! The public calls. "Arguments come first, then opening, then the map."

use super::chunk::Chunk;
use super::examine::{self, Report};
use super::fletcher::Edition;
use super::image::Span;
use super::index::{self, Entry};
use super::key::{well_formed, Key, Kind};
use super::locate::{Store, QUESTIONS};
use super::lookup;
use super::map::{id_of, judge_map, judge_name, map_of, Map};
use super::refusal::{Outcome, Refusal, AREA, ARGUMENT};
use super::walk::{self, is_final, State, Step, DONE};

/// How an image is opened, as a caller says it.
#[derive(Clone, Copy, Debug, PartialEq, Eq, PartialOrd, Ord)]
pub struct View {
    pub edition: u64,
}

impl View {
    pub const FIRST: View = View { edition: 1 };
    pub const SECOND: View = View { edition: 2 };

    pub fn of(edition: Edition) -> View {
        View { edition: edition.number() }
    }

    /// 02, C-16: "edition not 1 or 2 is 1", a refusal of an argument.
    pub fn judge(self) -> Outcome<Edition> {
        Edition::of(self.edition)
    }
}

/// Opening alone: the newest chunk.
pub fn open(image: &[u8], view: View) -> Outcome<Chunk> {
    let edition = view.judge()?;
    Store::open(image, edition).map(|store| store.newest)
}

/// "One call finds a map's id by name".
pub fn find(image: &[u8], view: View, name: &[u8]) -> Outcome<u64> {
    let edition = view.judge()?;
    judge_name(name)?;
    id_of(&Store::open(image, edition)?, name)
}

/// "the others take id and kind": the opened image and the map.
pub fn map(image: &[u8], view: View, id: u64, kind: u64) -> Outcome<(Store<'_>, Map)> {
    let edition = view.judge()?;
    let kind = judge_map(id, kind)?;
    found(image, edition, id, kind)
}

fn found(image: &[u8], edition: Edition, id: u64, kind: Kind) -> Outcome<(Store<'_>, Map)> {
    let store = Store::open(image, edition)?;
    let map = map_of(&store, id, kind)?;
    Ok((store, map))
}

/// The value of a key by its place, or absent.
pub fn lookup(image: &[u8], view: View, id: u64, kind: u64, key: &[u8]) -> Outcome<Option<Span>> {
    let edition = view.judge()?;
    let (kind, key) = judge_key(id, kind, key)?;
    let (store, map) = found(image, edition, id, kind)?;
    lookup::lookup(&store, &map, key, QUESTIONS)
}

/// "key badly formed (kind 0 given as bytes: not 8)"
fn judge_key(id: u64, kind: u64, key: &[u8]) -> Outcome<(Kind, Key<'_>)> {
    let kind = judge_map(id, kind)?;
    Ok((kind, well_formed(kind, key).ok_or(ARGUMENT)?))
}

/// The entry at an index.
pub fn index(image: &[u8], view: View, id: u64, kind: u64, at: u64) -> Outcome<Entry> {
    let (store, map) = map(image, view, id, kind)?;
    index::index(&store, &map, at)
}

/// The count of a map.
pub fn count(image: &[u8], view: View, id: u64, kind: u64) -> Outcome<u64> {
    let (store, map) = map(image, view, id, kind)?;
    index::count(&store, &map)
}

/// "Copy is a lookup that also writes the value." "A copy writes the value at the area's start and
/// nothing after it. For an unknown key the answer is Absent, with no copy." A refusal leaves the
/// area as it was.
pub fn copy(
    image: &[u8],
    view: View,
    id: u64,
    kind: u64,
    key: &[u8],
    area: &mut [u8],
) -> Outcome<Option<Span>> {
    let edition = view.judge()?;
    let (kind, key) = judge_key(id, kind, key)?;
    let (store, map) = found(image, edition, id, kind)?;
    let Some(value) = lookup::lookup(&store, &map, key, QUESTIONS)? else {
        return Ok(None);
    };
    if (area.len() as u64) < value.length {
        return Err(AREA);
    }
    area[..value.length as usize].copy_from_slice(store.image.bytes_of(value));
    Ok(Some(value))
}

/// One step of a walk. "Done or a refusal keeps places and depth, is recorded, and is given again
/// at each later step before anything is judged, the state unchanged."
pub fn walk(image: &[u8], view: View, id: u64, kind: u64, state: &mut State) -> Outcome<Step> {
    if is_final(state.last) {
        return if state.last == DONE { Ok(Step::Done) } else { Err(Refusal(state.last as u8)) };
    }
    let step = map(image, view, id, kind).and_then(|(store, map)| walk::step(&store, &map, state));
    match step {
        Ok(Some((entry, next))) => {
            *state = next;
            Ok(Step::Yield(entry))
        }
        Ok(None) => {
            state.last = DONE;
            Ok(Step::Done)
        }
        Err(refusal) => {
            state.last = u64::from(refusal.0);
            Err(refusal)
        }
    }
}

/// "The examination passes a map if it doesn't refuse."
pub fn examine(image: &[u8], view: View, id: u64, kind: u64) -> Outcome<Report> {
    let (store, map) = map(image, view, id, kind)?;
    examine::examine(&store, &map)
}
