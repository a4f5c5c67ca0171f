//! The calls, asked of the reader that counts.

use super::count::{Reader, Work};
use crate::model::bytes::{digits, digits_value};
use crate::model::examine::{leaf_keys_good, separators_good, Between, Report};
use crate::model::index::{child_at, total, Entry};
use crate::model::key::{well_formed, Key, Kind};
use crate::model::locate::QUESTIONS;
use crate::model::map::Map;
use crate::model::page::{Body, Page};
use crate::model::position::EMPTY;
use crate::model::refusal::{Outcome, ARGUMENT, INDEX, NOT_A_NUMBER, NO_NAME, UNSOUND};
use crate::subject::{Answer, Asks, MapArgs, Question};

/// The answer without what is written, and what it needs. Arguments are taken to be good.
pub fn ask(image: &[u8], question: &Question) -> (Answer, Work) {
    let edition = question.view.judge();
    let mut reader = match edition.and_then(|edition| Reader::open(image, edition)) {
        Ok(reader) => reader,
        Err(refusal) => return (Answer::Refused(refusal), Work::default()),
    };
    let answer = reader.ask(&question.asks).unwrap_or_else(Answer::Refused);
    (answer, reader.work)
}

impl<'a> Reader<'a> {
    fn ask(&mut self, asks: &Asks) -> Outcome<Answer> {
        match asks {
            Asks::Find { name } => self.number(b"name.", name)?.ok_or(NO_NAME).map(Answer::Id),
            Asks::Lookup { map, key } | Asks::Copy { map, key, .. } => {
                let map = self.map(map)?;
                let key = well_formed(map.kind, key).ok_or(ARGUMENT)?;
                let (value, _) = self.lookup(&map, key, QUESTIONS)?;
                Ok(value.map_or(Answer::Absent, Answer::Value))
            }
            Asks::Index { map, at } => {
                let map = self.map(map)?;
                self.index(&map, *at).map(Answer::Entry)
            }
            Asks::Count { map } => {
                let map = self.map(map)?;
                self.page(&map, map.root, 1).map(|root| Answer::Count(total(&root)))
            }
            Asks::Walk { map, state } => {
                let map = self.map(map)?;
                let entry = self.step(&map, &state.places[..state.depth as usize])?;
                Ok(entry.map_or(Answer::Done, Answer::Entry))
            }
            Asks::Examine { map } => {
                let map = self.map(map)?;
                let everything = Between { left: None, right: None };
                self.examine(&map, map.root, 1, everything).map(Answer::Report)
            }
            Asks::Open | Asks::List => unreachable!("these are no calls of the interface"),
        }
    }

    fn map(&mut self, map: &MapArgs) -> Outcome<Map> {
        let kind = Kind::of(map.kind)?;
        if map.id == 0 {
            return Ok(self.metadata());
        }
        let root = self.number(b"root.", &digits(map.id))?.unwrap_or(EMPTY);
        Ok(Map { id: map.id, kind, root })
    }

    /// A number that the metadata has.
    fn number(&mut self, start: &[u8], rest: &[u8]) -> Outcome<Option<u64>> {
        let key = [start, rest].concat();
        let (value, _) = self.lookup(&self.metadata(), Key::Text(&key), QUESTIONS)?;
        let number = |value| digits_value(self.image.bytes_of(value)).ok_or(NOT_A_NUMBER);
        value.map(number).transpose()
    }

    fn index(&mut self, map: &Map, at: u64) -> Outcome<Entry> {
        let (mut number, mut depth, mut left) = (map.root, 1, at);
        loop {
            let page = self.page(map, number, depth)?;
            if left >= total(&page) {
                return Err(INDEX);
            }
            match &page.body {
                Body::Inner(children) => (number, left) = child_at(children, left),
                Body::Leaf(_) => return Ok(entry(&page, left)),
            }
            depth += 1;
        }
    }

    /// A step of the walk from the places of a state: down by them, up to the lowest page with a
    /// next child or entry, and down its first children.
    fn step(&mut self, map: &Map, places: &[u64]) -> Outcome<Option<Entry>> {
        let mut pages: Vec<Page> = Vec::new();
        let mut number = map.root;
        for &place in places {
            let page = self.page(map, number, pages.len() as u64 + 1)?;
            number = child(&page, place).unwrap_or(EMPTY);
            pages.push(page);
        }
        let Some(last) = places.len().checked_sub(1) else {
            return self.leftmost(map, map.root, 1).map(Some);
        };
        if places[last] + 1 < total(&pages[last]) {
            return Ok(Some(entry(&pages[last], places[last] + 1)));
        }
        for i in (0..last).rev() {
            if let Some(child) = child(&pages[i], places[i] + 1) {
                return self.leftmost(map, child, i as u64 + 2).map(Some);
            }
        }
        Ok(None)
    }

    fn leftmost(&mut self, map: &Map, position: u64, depth: u64) -> Outcome<Entry> {
        let page = self.page(map, position, depth)?;
        match child(&page, 0) {
            Some(child) => self.leftmost(map, child, depth + 1),
            None if page.keys.is_empty() => Err(UNSOUND),
            None => Ok(entry(&page, 0)),
        }
    }

    fn examine(
        &mut self,
        map: &Map,
        number: u64,
        depth: u64,
        between: Between<'a>,
    ) -> Outcome<Report> {
        let Page { keys, body } = self.page(map, number, depth)?;
        let mut report = Report { entries: keys.len() as u64, pages: 1, depth };
        let Body::Inner(children) = body else {
            let good = (depth == 1 || !keys.is_empty()) && leaf_keys_good(&keys, between);
            return good.then_some(report).ok_or(UNSOUND);
        };
        separators_good(&keys, between).then_some(()).ok_or(UNSOUND)?;
        report.entries = 0;
        for (i, child) in children.iter().enumerate() {
            let left = i.checked_sub(1).map(|i| keys[i].key).or(between.left);
            let right = keys.get(i).map(|separator| separator.key).or(between.right);
            let below = self.examine(map, child.position, depth + 1, Between { left, right })?;
            (below.entries == child.count).then_some(()).ok_or(UNSOUND)?;
            report.entries += below.entries;
            report.pages += below.pages;
            report.depth = report.depth.max(below.depth);
        }
        Ok(report)
    }
}

/// The entry of a leaf by its number.
fn entry(page: &Page, number: u64) -> Entry {
    let Body::Leaf(values) = &page.body else { unreachable!("an entry is taken from a leaf") };
    Entry::new(&page.keys[number as usize], values[number as usize])
}

/// A child's position, if this is an inner page with a child of that number.
fn child(page: &Page, number: u64) -> Option<u64> {
    match &page.body {
        Body::Inner(children) => children.get(number as usize).map(|child| child.position),
        Body::Leaf(_) => None,
    }
}
