//! A reader that counts what a call needs where each chunk is located once: the pages read, the
//! questions about chunks, and the bytes of those pages. Its pages are judged by the model. It keeps
//! what lookups need of the metadata's, so that it is fast on the worst of images, and counts each
//! reading all the same.

use std::collections::{HashMap, HashSet};
use std::rc::Rc;

use crate::model::bytes::digits;
use crate::model::chunk::{stands_at, Chunk};
use crate::model::fletcher::Edition;
use crate::model::image::{Image, Span};
use crate::model::key::{Key, Kind};
use crate::model::line::field;
use crate::model::locate::QUESTIONS;
use crate::model::map::Map;
use crate::model::opening::newest;
use crate::model::page::{place, read_in, Body, Page, DEEPEST};
use crate::model::position::{Position, EMPTY};
use crate::model::refusal::{Outcome, NINTH_QUESTION, NO_CHUNK, OUT_OF_PLACE, TOO_DEEP};

/// What a call needs.
#[derive(Clone, Copy, Debug, Default, PartialEq, Eq)]
pub struct Work {
    pub pages: u64,
    pub questions: u64,
    pub bytes: u64,
}

/// What a lookup needs of a page: the keys that are greater than all before them. The first key that
/// is greater than some key is one of these, and so is the first that is equal to it, if no greater
/// one comes before.
enum Ways<'a> {
    /// Each with the position of the child before it; and the last child's.
    Inner(Vec<(Key<'a>, u64)>, u64),
    /// Each with its value.
    Leaf(Vec<(Key<'a>, Span)>),
}

impl<'a> Ways<'a> {
    fn of(page: &Page<'a>) -> Ways<'a> {
        match &page.body {
            Body::Inner(children) => {
                let position = |i: usize| children[i].position;
                Ways::Inner(risen(page, position), position(children.len() - 1))
            }
            Body::Leaf(values) => Ways::Leaf(risen(page, |i| values[i])),
        }
    }
}

fn risen<'a, T>(page: &Page<'a>, with: impl Fn(usize) -> T) -> Vec<(Key<'a>, T)> {
    let mut keys: Vec<(Key<'a>, T)> = Vec::new();
    for (i, at) in page.keys.iter().enumerate() {
        if keys.last().is_none_or(|(last, _)| *last < at.key) {
            keys.push((at.key, with(i)));
        }
    }
    keys
}

pub struct Reader<'a> {
    pub image: Image<'a>,
    edition: Edition,
    pub newest: Chunk,
    pub work: Work,
    /// The chunks that were located, each with the questions that it takes.
    located: HashMap<u64, (Chunk, u32)>,
    /// What lookups need of the metadata's pages.
    kept: HashMap<u64, Rc<Ways<'a>>>,
}

impl<'a> Reader<'a> {
    pub fn open(lent: &'a [u8], edition: Edition) -> Outcome<Reader<'a>> {
        let image = Image::new(lent)?;
        let newest = newest(&image, edition)?;
        let (located, kept) = (HashMap::from([(newest.id, (newest, 0))]), HashMap::new());
        Ok(Reader { image, edition, newest, work: Work::default(), located, kept })
    }

    pub fn metadata(&self) -> Map {
        Map { id: 0, kind: Kind::Text, root: self.newest.root }
    }

    /// Where a page at a depth is, with so many questions left; and the questions that it takes.
    fn find(&mut self, number: u64, depth: u64, left: u32) -> Outcome<(Chunk, Position, u32)> {
        if depth > DEEPEST {
            return Err(TOO_DEEP);
        }
        if number == 0 {
            return Err(OUT_OF_PLACE);
        }
        let position = Position::of(number);
        let (chunk, taken) = self.locate(position.chunk, left)?;
        self.work.pages += 1;
        self.work.bytes += place(&self.image, &chunk, &position)?.length;
        Ok((chunk, position, taken))
    }

    /// A page of a map, which has the whole of a call's questions.
    pub fn page(&mut self, map: &Map, number: u64, depth: u64) -> Outcome<Page<'a>> {
        let (chunk, position, _) = self.find(number, depth, QUESTIONS)?;
        read_in(&self.image, &chunk, map, &position)
    }

    /// What a lookup needs of a page, and the questions that it takes.
    fn ways(
        &mut self,
        map: &Map,
        number: u64,
        depth: u64,
        left: u32,
    ) -> Outcome<(Rc<Ways<'a>>, u32)> {
        let (chunk, position, taken) = self.find(number, depth, left)?;
        if let Some(ways) = self.kept.get(&number).filter(|_| map.id == 0) {
            return Ok((ways.clone(), taken));
        }
        let ways = Rc::new(Ways::of(&read_in(&self.image, &chunk, map, &position)?));
        if map.id == 0 {
            self.kept.insert(number, ways.clone());
        }
        Ok((ways, taken))
    }

    /// A refusal ends the call, so only what is found is remembered.
    fn locate(&mut self, id: u64, left: u32) -> Outcome<(Chunk, u32)> {
        let known = self.located.get(&id).copied();
        let found = match known {
            Some(found) => found,
            None if left == 0 => return Err(NINTH_QUESTION),
            None => self.question(id, left - 1)?,
        };
        self.located.insert(id, found);
        if found.1 > left {
            return Err(NINTH_QUESTION);
        }
        Ok(found)
    }

    fn question(&mut self, id: u64, left: u32) -> Outcome<(Chunk, u32)> {
        self.work.questions += 1;
        let key = [b"chunk.".to_vec(), digits(id)].concat();
        let (value, taken) = self.lookup(&self.metadata(), Key::Text(&key), left)?;
        let block = block_of(self.image.bytes_of(value.ok_or(NO_CHUNK)?)).ok_or(NO_CHUNK)?;
        let chunk = stands_at(&self.image, self.edition, block).filter(|chunk| chunk.id == id);
        Ok((chunk.ok_or(NO_CHUNK)?, taken + 1))
    }

    /// The value of a key, and the questions that the lookup takes.
    pub fn lookup(&mut self, map: &Map, key: Key, left: u32) -> Outcome<(Option<Span>, u32)> {
        let (mut number, mut depth, mut most) = (map.root, 1, 0);
        if number == EMPTY {
            return Ok((None, 0));
        }
        loop {
            let (ways, taken) = self.ways(map, number, depth, left)?;
            most = most.max(taken);
            match &*ways {
                Ways::Inner(keys, last) => {
                    let greater = keys.partition_point(|(before, _)| *before <= key);
                    number = keys.get(greater).map_or(*last, |&(_, position)| position);
                }
                Ways::Leaf(keys) => {
                    let equal = keys.partition_point(|(before, _)| *before < key);
                    let found = keys.get(equal).filter(|(found, _)| *found == key);
                    return Ok((found.map(|&(_, value)| value), most));
                }
            }
            depth += 1;
        }
    }
}

/// The field `block` of a line; the model compares each name with all before it.
fn block_of(line: &[u8]) -> Option<u64> {
    let mut seen = HashSet::new();
    let mut block = None;
    for part in line.split(|&byte| byte == b',') {
        let (name, value) = field(part)?;
        if !seen.insert(name) {
            return None;
        }
        if name == b"block" {
            block = Some(value);
        }
    }
    block
}
