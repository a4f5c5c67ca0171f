//! The walk: entries left to right from a state.

use super::index::Entry;
use super::locate::{Store, QUESTIONS};
use super::map::Map;
use super::page::{read, Body, Page};
use super::position::EMPTY;
use super::refusal::{Outcome, LAST, UNSOUND};

/// "The walk yields entries left to right from a state of 16 places. It also holds a depth d and
/// the last answer: going on, Done or a table number."
#[derive(Clone, Copy, Debug, PartialEq, Eq)]
pub struct State {
    pub places: [u64; PLACES],
    pub depth: u64,
    pub last: u64,
}

pub const PLACES: usize = 16;
pub const GOING_ON: u64 = 0;
/// 01 leaves Done's own number free; it must be outside the table and its later growth.
pub const DONE: u64 = 255;

/// "The fresh state is all 0".
pub const FRESH: State = State { places: [0; PLACES], depth: 0, last: GOING_ON };

/// What a step gives. A refusal stands beside it, in the outcome.
#[derive(Clone, Copy, Debug, PartialEq, Eq)]
pub enum Step {
    Yield(Entry),
    Done,
}

/// The pages from the root to a leaf, each with the number used at it.
struct Path<'s, 'a> {
    store: &'s Store<'a>,
    map: &'s Map,
    pages: Vec<(Page<'a>, u64)>,
}

/// A step after the map is found, from a state that is going on or not well formed: the entry and
/// the state that yields the one after it, or none for Done.
pub fn step(store: &Store, map: &Map, state: &State) -> Outcome<Option<(Entry, State)>> {
    if !well_formed(state) {
        return Err(UNSOUND);
    }
    let mut path = Path { store, map, pages: Vec::new() };
    let more = match (*state == FRESH, map.root == EMPTY) {
        (true, true) => false,
        // A depth that doesn't fit the map.
        (false, true) => return Err(UNSOUND),
        (true, false) => path.leftmost(map.root)?,
        (false, false) => {
            path.descend(&state.places[..state.depth as usize])?;
            path.advance()?
        }
    };
    Ok(more.then(|| path.answer()))
}

/// "Otherwise the first d places are child numbers and, last, the number of the entry last
/// yielded; the rest are 0." With d at 0 that leaves the fresh state.
fn well_formed(state: &State) -> bool {
    let depth_fits = state.depth <= PLACES as u64;
    let mut places = state.places.iter().enumerate();
    let rest_is_zero = places.all(|(i, &place)| (i as u64) < state.depth || place == 0);
    state.last == GOING_ON && depth_fits && rest_is_zero
}

/// A last answer that is given again before anything is judged: Done, or a number of the table.
pub fn is_final(last: u64) -> bool {
    last == DONE || (1..=u64::from(LAST)).contains(&last)
}

impl<'a> Path<'_, 'a> {
    /// "Each step descends again from the root by them". "a number or depth that doesn't fit the
    /// map or the page it is used at, refuses with 12".
    fn descend(&mut self, places: &[u64]) -> Outcome<()> {
        let mut number = self.map.root;
        for (i, &place) in places.iter().enumerate() {
            let page = self.read(number)?;
            match (&page.body, i + 1 == places.len()) {
                (Body::Inner(children), false) if place < children.len() as u64 => {
                    number = children[place as usize].position;
                }
                (Body::Leaf(values), true) if place < values.len() as u64 => {}
                _ => return Err(UNSOUND),
            }
            self.pages.push((page, place));
        }
        Ok(())
    }

    /// "and moves to the next entry": in the leaf, or at the leftmost entry under the next child
    /// of the lowest page that has one. False: there is none.
    fn advance(&mut self) -> Outcome<bool> {
        while let Some((page, place)) = self.pages.pop() {
            let next = place + 1;
            match &page.body {
                Body::Leaf(values) if next < values.len() as u64 => {
                    self.pages.push((page, next));
                    return Ok(true);
                }
                Body::Inner(children) if next < children.len() as u64 => {
                    let child = children[next as usize].position;
                    self.pages.push((page, next));
                    return self.leftmost(child);
                }
                _ => {}
            }
        }
        Ok(false)
    }

    /// Down the first children from a position to the first entry of a leaf. "An empty leaf that
    /// is not the root refuses with 12." An empty root has no entry.
    fn leftmost(&mut self, position: u64) -> Outcome<bool> {
        let mut number = position;
        loop {
            let page = self.read(number)?;
            match &page.body {
                Body::Inner(children) => number = children[0].position,
                Body::Leaf(values) if !values.is_empty() => {
                    self.pages.push((page, 0));
                    return Ok(true);
                }
                Body::Leaf(_) if self.pages.is_empty() => return Ok(false),
                Body::Leaf(_) => return Err(UNSOUND),
            }
            self.pages.push((page, 0));
        }
    }

    /// The page below the path so far.
    fn read(&self, number: u64) -> Outcome<Page<'a>> {
        read(self.store, self.map, number, self.pages.len() as u64 + 1, QUESTIONS)
    }

    /// The entry at the path's end, and the state that says so.
    fn answer(&self) -> (Entry, State) {
        let mut state = State { depth: self.pages.len() as u64, ..FRESH };
        for (place, (_, number)) in state.places.iter_mut().zip(&self.pages) {
            *place = *number;
        }
        let (page, number) = self.pages.last().expect("a path to an entry has a leaf");
        let Body::Leaf(values) = &page.body else {
            unreachable!("a path to an entry ends at a leaf")
        };
        let i = *number as usize;
        (Entry::new(&page.keys[i], values[i]), state)
    }
}
