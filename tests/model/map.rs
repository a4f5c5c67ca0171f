//! Finding a map: its id by name, its root by id.

use super::bytes::{digits, digits_value};
use super::image::Span;
use super::key::{plain, Key, Kind};
use super::locate::{Store, QUESTIONS};
use super::lookup::lookup;
use super::page::IDS;
use super::position::EMPTY;
use super::refusal::{Outcome, ARGUMENT, NOT_A_NUMBER, NO_NAME};

/// "A map, in an image that opens, is an id and a kind not refused with 1 whose root is found
/// without refusal."
#[derive(Clone, Copy)]
pub struct Map {
    pub id: u64,
    pub kind: Kind,
    pub root: u64,
}

/// "map name not 1 to 1,000 bytes of 32 to 126"
pub fn judge_name(name: &[u8]) -> Outcome<()> {
    let good = (1..=1000).contains(&name.len()) && plain(name);
    good.then_some(()).ok_or(ARGUMENT)
}

/// "kind not 0 or 1; map 0 with kind 0; map id above 2^31-1"
pub fn judge_map(id: u64, kind: u64) -> Outcome<Kind> {
    let kind = Kind::of(kind)?;
    let good = id < IDS && (id != 0 || kind == Kind::Text);
    good.then_some(kind).ok_or(ARGUMENT)
}

/// "`name.X` gives map X's id in hex; an id is 1 to 2^31-1."
pub fn id_of(store: &Store, name: &[u8]) -> Outcome<u64> {
    let value = metadata_value(store, b"name.", name)?.ok_or(NO_NAME)?;
    let id = number(store, value)?;
    (1..IDS).contains(&id).then_some(id).ok_or(NOT_A_NUMBER)
}

/// "`root.` with the id gives its root, absent meaning 0."
pub fn map_of(store: &Store, id: u64, kind: Kind) -> Outcome<Map> {
    if id == 0 {
        return Ok(store.metadata());
    }
    let root = match metadata_value(store, b"root.", &digits(id))? {
        Some(value) => number(store, value)?,
        None => EMPTY,
    };
    Ok(Map { id, kind, root })
}

fn metadata_value(store: &Store, start: &[u8], rest: &[u8]) -> Outcome<Option<Span>> {
    let key = [start, rest].concat();
    lookup(store, &store.metadata(), Key::Text(&key), QUESTIONS)
}

/// "Hex values follow the digits rule of a line".
fn number(store: &Store, value: Span) -> Outcome<u64> {
    digits_value(store.image.bytes_of(value)).ok_or(NOT_A_NUMBER)
}
