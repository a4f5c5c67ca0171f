//! Reached pages and the entry list.

use std::collections::BTreeMap;

use super::index::Entry;
use super::key::Key;
use super::locate::{Store, QUESTIONS};
use super::map::Map;
use super::page::{read, Body, Page};
use super::position::EMPTY;
use super::refusal::Outcome;

/// A reached page by its depth and position: what is read there depends on nothing else.
pub type Spot = (u64, u64);

/// The reached pages of a map.
pub struct Reached<'a> {
    pub root: Option<Spot>,
    pub pages: BTreeMap<Spot, Outcome<Page<'a>>>,
}

/// "Its reached pages are the one at the root, unless that is 0, and, where a reached inner page
/// itself meets the page rules, depth and location included, each of its children, whether or not
/// the child meets them."
pub fn reached<'a>(store: &Store<'a>, map: &Map) -> Reached<'a> {
    let root = (map.root != EMPTY).then_some((1, map.root));
    let mut pages = BTreeMap::new();
    let mut due: Vec<Spot> = root.into_iter().collect();
    while let Some(spot) = due.pop() {
        if pages.contains_key(&spot) {
            continue;
        }
        let (depth, position) = spot;
        let page = read(store, map, position, depth, QUESTIONS);
        if let Ok(page) = &page {
            due.extend(children(page, depth));
        }
        pages.insert(spot, page);
    }
    Reached { root, pages }
}

/// The spots of a page's children, child 0 first; a leaf has none.
pub fn children(page: &Page, depth: u64) -> Vec<Spot> {
    match &page.body {
        Body::Inner(children) => children.iter().map(|c| (depth + 1, c.position)).collect(),
        Body::Leaf(_) => Vec::new(),
    }
}

impl<'a> Reached<'a> {
    pub fn all_meet_the_rules(&self) -> bool {
        self.pages.values().all(|page| page.is_ok())
    }

    /// The leaves under a spot, left to right, where all reached pages meet the rules.
    pub fn leaves(&self, spot: Spot) -> Leaves<'_, 'a> {
        Leaves { reached: self, due: vec![spot] }
    }

    /// The keys of the entries under a spot, left to right.
    pub fn keys(&self, spot: Spot) -> impl Iterator<Item = Key<'a>> + '_ {
        self.leaves(spot).flat_map(|leaf| leaf.keys.iter().map(|key| key.key))
    }

    /// "Where all of them meet the rules, its entry list is: nothing for the empty map; for a leaf
    /// its n entries in page order; for an inner page its children's lists joined, child 0 first.
    /// Recorded counts play no part in it."
    pub fn entry_list(&self) -> impl Iterator<Item = Entry> + '_ {
        self.root.into_iter().flat_map(|root| self.leaves(root)).flat_map(leaf_entries)
    }
}

fn leaf_entries<'p>(leaf: &'p Page) -> impl Iterator<Item = Entry> + 'p {
    let values: &[_] = match &leaf.body {
        Body::Leaf(values) => values,
        Body::Inner(_) => &[],
    };
    leaf.keys.iter().zip(values).map(|(key, &value)| Entry::new(key, value))
}

/// The leaves that are still due; the next one is under the last spot.
pub struct Leaves<'r, 'a> {
    reached: &'r Reached<'a>,
    due: Vec<Spot>,
}

impl<'r, 'a> Iterator for Leaves<'r, 'a> {
    type Item = &'r Page<'a>;

    fn next(&mut self) -> Option<&'r Page<'a>> {
        while let Some(spot) = self.due.pop() {
            let page = self.reached.pages[&spot].as_ref().ok()?;
            match &page.body {
                Body::Leaf(_) => return Some(page),
                Body::Inner(_) => self.due.extend(children(page, spot.0).into_iter().rev()),
            }
        }
        None
    }
}
