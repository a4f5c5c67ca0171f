//! Looking a key up.

use super::image::Span;
use super::key::Key;
use super::locate::Store;
use super::map::Map;
use super::page::{read, Body, Page, PageKey};
use super::position::EMPTY;
use super::refusal::Outcome;

/// The value of a key by its place, or absent. "A found value is given as its place in the image
/// and its length".
pub fn lookup(store: &Store, map: &Map, key: Key, left: u32) -> Outcome<Option<Span>> {
    if map.root == EMPTY {
        return Ok(None);
    }
    let mut number = map.root;
    let mut depth = 1;
    loop {
        let Page { keys, body } = read(store, map, number, depth, left)?;
        match body {
            Body::Inner(children) => number = children[child_for(&keys, key)].position,
            Body::Leaf(values) => return Ok(first_equal(&keys, key).map(|i| values[i])),
        }
        depth += 1;
    }
}

/// "at an inner page take the child numbered by how many leading keys, up to the first greater
/// one, are not greater"
fn child_for(keys: &[PageKey], key: Key) -> usize {
    keys.iter().take_while(|k| k.key <= key).count()
}

/// "At a leaf answer the first equal key that comes before any greater one."
fn first_equal(keys: &[PageKey], key: Key) -> Option<usize> {
    let not_greater = keys.iter().take_while(|k| k.key <= key);
    not_greater.enumerate().find(|(_, k)| k.key == key).map(|(i, _)| i)
}
