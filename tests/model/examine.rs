//! The examination.

use super::key::Key;
use super::locate::{Store, QUESTIONS};
use super::map::Map;
use super::page::{read, Body, Child, PageKey};
use super::position::EMPTY;
use super::refusal::{Outcome, UNSOUND};

/// "It reports entries, pages and the deepest page's depth of that reading (0, 0, 0 for the empty
/// map)."
#[derive(Clone, Copy, Debug, Default, PartialEq, Eq)]
pub struct Report {
    pub entries: u64,
    pub pages: u64,
    pub depth: u64,
}

/// "the nearest separators above on each side"
#[derive(Clone, Copy)]
pub struct Between<'a> {
    pub left: Option<Key<'a>>,
    pub right: Option<Key<'a>>,
}

/// "The examination goes depth first; it refuses at the first fault."
pub fn examine(store: &Store, map: &Map) -> Outcome<Report> {
    if map.root == EMPTY {
        return Ok(Report::default());
    }
    let everything = Between { left: None, right: None };
    Examination { store, map }.page(map.root, 1, everything)
}

struct Examination<'s, 'a> {
    store: &'s Store<'a>,
    map: &'s Map,
}

impl<'a> Examination<'_, 'a> {
    /// "a page's own rules before its keys, its separators before its children"
    fn page(&self, number: u64, depth: u64, between: Between<'a>) -> Outcome<Report> {
        let page = read(self.store, self.map, number, depth, QUESTIONS)?;
        match &page.body {
            Body::Leaf(values) => {
                // "only the root may be an empty leaf"
                let placed = depth == 1 || !values.is_empty();
                judge(placed && leaf_keys_good(&page.keys, between))?;
                Ok(Report { entries: values.len() as u64, pages: 1, depth })
            }
            Body::Inner(children) => {
                judge(separators_good(&page.keys, between))?;
                self.children(children, &page.keys, depth, between)
            }
        }
    }

    /// "a child before its recorded count"
    fn children(
        &self,
        children: &[Child],
        separators: &[PageKey<'a>],
        depth: u64,
        between: Between<'a>,
    ) -> Outcome<Report> {
        let mut report = Report { entries: 0, pages: 1, depth };
        for (i, child) in children.iter().enumerate() {
            let left = i.checked_sub(1).map(|i| separators[i].key).or(between.left);
            let right = separators.get(i).map(|separator| separator.key).or(between.right);
            let below = self.page(child.position, depth + 1, Between { left, right })?;
            judge(below.entries == child.count)?;
            report.entries += below.entries;
            report.pages += below.pages;
            report.depth = report.depth.max(below.depth);
        }
        Ok(report)
    }
}

fn judge(good: bool) -> Outcome<()> {
    good.then_some(()).ok_or(UNSOUND)
}

/// "Separators are tested to rise strictly and to lie strictly between the nearest separators
/// above on each side".
pub fn separators_good(keys: &[PageKey], between: Between) -> bool {
    let inside = |key: Key| {
        between.left.is_none_or(|left| left < key) && between.right.is_none_or(|right| key < right)
    };
    rise_strictly(keys) && keys.iter().all(|k| inside(k.key))
}

/// "a leaf's keys to rise strictly, not below the nearest on the left, below the nearest on the
/// right"
pub fn leaf_keys_good(keys: &[PageKey], between: Between) -> bool {
    let inside = |key: Key| {
        between.left.is_none_or(|left| left <= key) && between.right.is_none_or(|right| key < right)
    };
    rise_strictly(keys) && keys.iter().all(|k| inside(k.key))
}

fn rise_strictly(keys: &[PageKey]) -> bool {
    keys.windows(2).all(|pair| pair[0].key < pair[1].key)
}
