//! The paragraph "Sound", sentence by sentence. It shares only the reading of pages with the
//! examination, so that one can be held against the other.

use super::locate::Store;
use super::map::Map;
use super::page::{Body, Page};
use super::reached::{children, reached, Reached, Spot};

/// "Sound: all reached pages meet the page rules; leaf keys rise strictly from left to right; each
/// separator is above all keys to its left in its page's subtree and not above any to its right;
/// each recorded count is the entries under that child; only the root may be an empty leaf."
///
/// The last clause is tried early: with it and rising keys no page is reached twice, so that the
/// other two end soon.
pub fn sound(store: &Store, map: &Map) -> bool {
    let reached = reached(store, map);
    reached.all_meet_the_rules()
        && only_the_root_is_an_empty_leaf(&reached)
        && leaf_keys_rise(&reached)
        && each_inner(&reached, separators_part_the_keys)
        && each_inner(&reached, counts_are_the_entries)
}

fn only_the_root_is_an_empty_leaf(reached: &Reached) -> bool {
    let empty = |page: &Page| matches!(&page.body, Body::Leaf(values) if values.is_empty());
    let below = reached.pages.iter().filter(|(spot, _)| Some(**spot) != reached.root);
    below.flat_map(|(_, page)| page).all(|page| !empty(page))
}

fn leaf_keys_rise(reached: &Reached) -> bool {
    let keys = || reached.root.into_iter().flat_map(|root| reached.keys(root));
    keys().zip(keys().skip(1)).all(|(key, next)| key < next)
}

/// Whether a claim holds of each reached inner page.
fn each_inner(reached: &Reached, claim: fn(&Reached, &Page, &[Spot]) -> bool) -> bool {
    let pages = || reached.pages.iter().flat_map(|(spot, page)| page.as_ref().map(|p| (spot, p)));
    let mut inner = pages().filter(|(_, page)| matches!(page.body, Body::Inner(_)));
    inner.all(|(spot, page)| claim(reached, page, &children(page, spot.0)))
}

/// Separator i has the children 0 to i on its left and the others on its right.
fn separators_part_the_keys(reached: &Reached, page: &Page, children: &[Spot]) -> bool {
    page.keys.iter().enumerate().all(|(i, separator)| {
        let (left, right) = children.split_at(i + 1);
        let above_left = left.iter().flat_map(|c| reached.keys(*c)).all(|k| separator.key > k);
        let not_above_right =
            right.iter().flat_map(|c| reached.keys(*c)).all(|k| separator.key <= k);
        above_left && not_above_right
    })
}

fn counts_are_the_entries(reached: &Reached, page: &Page, children: &[Spot]) -> bool {
    let Body::Inner(recorded) = &page.body else {
        return true;
    };
    let mut pairs = recorded.iter().zip(children);
    pairs.all(|(recorded, child)| recorded.count == reached.keys(*child).count() as u64)
}
