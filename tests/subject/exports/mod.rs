//! The proved library through its C exports: what a C caller gets, with nothing in between.

pub mod answers;
pub mod calls;
mod walk;

use super::{Answer, Asks, Call, MapArgs, Question, Reply, Subject, AREA_FILL};
use crate::model::ask;
use calls::*;

/// The bytes before and after a copy's area, which a copy must leave alone. An odd number, so that
/// the area is not aligned.
const MARGIN: usize = 61;
const MARGIN_FILL: u8 = 0x5a;

pub struct Exports;

impl Subject for Exports {
    fn name(&self) -> &str {
        "exports"
    }

    fn offers(&self, call: Call) -> bool {
        call != Call::List
    }

    fn reply(&mut self, image: &[u8], question: &Question) -> Option<Reply> {
        let lent = &Lent { image, view: question.view };
        let answer = match &question.asks {
            Asks::Open => answers::of_chunk(&newest(lent)),
            Asks::Find { name } => answers::of_id(&map(lent, name)),
            Asks::Lookup { map, key } => answers::of_value(&lookup(lent, *map, key)),
            Asks::Index { map, at } => answers::of_entry(map.kind, &index(lent, *map, *at)),
            Asks::Count { map } => answers::of_count(&count(lent, *map)),
            Asks::Copy { map, key, area } => return Some(copied(lent, *map, key, *area)),
            Asks::Walk { map, state } => return walk::stepped(lent, *map, state),
            Asks::Examine { map } => answers::of_report(&examine(lent, *map)),
            Asks::List => return None,
        };
        Some(Reply { answer, area: None, state: None })
    }
}

/// What every call takes first: the image, and how to open it.
pub struct Lent<'a> {
    pub image: &'a [u8],
    pub view: ask::View,
}

impl Lent<'_> {
    /// As C takes them.
    fn parts(&self) -> (*const u8, usize, View) {
        (lent(self.image), self.image.len(), View { edition: self.view.edition })
    }
}

// SAFETY, of each call: every pointer goes with the length of the slice it was taken from, or is
// null with length 0; the slices live through the call, and only the area is lent to be written.

pub fn newest(of: &Lent) -> Chunk {
    let (image, length, view) = of.parts();
    unsafe { mvstore_newest(image, length, view) }
}

pub fn map(of: &Lent, name: &[u8]) -> Id {
    let (image, length, view) = of.parts();
    unsafe { mvstore_map(image, length, view, lent(name), name.len()) }
}

pub fn lookup(of: &Lent, map: MapArgs, key: &[u8]) -> Value {
    let (image, length, view) = of.parts();
    unsafe { mvstore_lookup(image, length, view, map.id, map.kind, lent(key), key.len()) }
}

pub fn index(of: &Lent, map: MapArgs, at: u64) -> Entry {
    let (image, length, view) = of.parts();
    unsafe { mvstore_index(image, length, view, map.id, map.kind, at) }
}

pub fn count(of: &Lent, map: MapArgs) -> Count {
    let (image, length, view) = of.parts();
    unsafe { mvstore_count(image, length, view, map.id, map.kind) }
}

pub fn examine(of: &Lent, map: MapArgs) -> Report {
    let (image, length, view) = of.parts();
    unsafe { mvstore_examine(image, length, view, map.id, map.kind) }
}

pub fn copy(of: &Lent, map: MapArgs, key: &[u8], area: &mut [u8]) -> Value {
    let (image, length, view) = of.parts();
    let (key_len, area_len) = (key.len(), area.len());
    let (key, area) = (lent(key), lent_area(area));
    unsafe { mvstore_copy(image, length, view, map.id, map.kind, key, key_len, area, area_len) }
}

/// A copy into an area that lies between two margins.
fn copied(of: &Lent, map: MapArgs, key: &[u8], length: usize) -> Reply {
    let mut bytes = vec![MARGIN_FILL; length + 2 * MARGIN];
    let inside = MARGIN..MARGIN + length;
    bytes[inside.clone()].fill(AREA_FILL);
    let raw = copy(of, map, key, &mut bytes[inside.clone()]);
    let margins = [&bytes[..inside.start], &bytes[inside.end..]].concat();
    let answer = if margins.iter().all(|&byte| byte == MARGIN_FILL) {
        answers::of_value(&raw)
    } else {
        Answer::Odd(format!("{raw:?}, and bytes beside the area are written"))
    };
    Reply { answer, area: Some(bytes[inside].to_vec()), state: None }
}
