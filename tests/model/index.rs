//! Entries by index, and the count.

use super::image::Span;
use super::key::Key;
use super::locate::{Store, QUESTIONS};
use super::map::Map;
use super::page::{read, Body, Child, Page, PageKey};
use super::position::EMPTY;
use super::refusal::{Outcome, INDEX};

/// "index and walk give the key too, kind 1 by place and length."
#[derive(Clone, Copy, Debug, PartialEq, Eq)]
pub struct Entry {
    pub key: GivenKey,
    pub value: Span,
}

#[derive(Clone, Copy, Debug, PartialEq, Eq)]
pub enum GivenKey {
    Number(i64),
    Text(Span),
}

impl Entry {
    pub fn new(key: &PageKey, value: Span) -> Entry {
        let key = match key.key {
            Key::Number(number) => GivenKey::Number(number),
            Key::Text(_) => GivenKey::Text(key.place),
        };
        Entry { key, value }
    }
}

/// "If what is left of the index is not below their total at any inner page reached, or not below
/// a reached leaf's n, refusal 15; so is any index of the empty map."
pub fn index(store: &Store, map: &Map, index: u64) -> Outcome<Entry> {
    if map.root == EMPTY {
        return Err(INDEX);
    }
    let (mut number, mut depth, mut left) = (map.root, 1, index);
    loop {
        let page = read(store, map, number, depth, QUESTIONS)?;
        if left >= total(&page) {
            return Err(INDEX);
        }
        match page.body {
            Body::Inner(children) => (number, left) = child_at(&children, left),
            Body::Leaf(values) => {
                let i = left as usize;
                return Ok(Entry::new(&page.keys[i], values[i]));
            }
        }
        depth += 1;
    }
}

/// "the child is chosen by the recorded counts, left to right": the child and what is left of an
/// index that is below their total.
pub fn child_at(children: &[Child], index: u64) -> (u64, u64) {
    let mut left = index;
    for child in children {
        if left < child.count {
            return (child.position, left);
        }
        left -= child.count;
    }
    unreachable!("the index is below the total of the counts")
}

/// "the root's n or the sum of its recorded counts"
pub fn total(page: &Page) -> u64 {
    match &page.body {
        Body::Leaf(values) => values.len() as u64,
        Body::Inner(children) => children.iter().map(|child| child.count).sum(),
    }
}

/// "The count is the root's n or the sum of its recorded counts, 0 for the empty map."
pub fn count(store: &Store, map: &Map) -> Outcome<u64> {
    if map.root == EMPTY {
        return Ok(0);
    }
    read(store, map, map.root, 1, QUESTIONS).map(|page| total(&page))
}
