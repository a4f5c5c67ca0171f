//! "Where a chunk is", and the questions that finding it opens.

use std::cell::RefCell;
use std::collections::HashMap;

use super::bytes::digits;
use super::chunk::{stands_at, Chunk};
use super::fletcher::Edition;
use super::image::Image;
use super::key::{Key, Kind};
use super::line::Line;
use super::lookup::lookup;
use super::map::Map;
use super::opening::newest;
use super::refusal::{Outcome, NINTH_QUESTION, NO_CHUNK};

/// "At most 8 of these questions are open at once."
pub const QUESTIONS: u32 = 8;

/// An opened image, for the length of one call.
pub struct Store<'a> {
    pub image: Image<'a>,
    pub edition: Edition,
    pub newest: Chunk,
    /// What a chunk's question answered with so many left: only the running time depends on it.
    answered: RefCell<HashMap<(u64, u32), Outcome<Chunk>>>,
}

impl<'a> Store<'a> {
    /// "Each public call opens the image itself".
    pub fn open(lent: &'a [u8], edition: Edition) -> Outcome<Store<'a>> {
        let image = Image::new(lent)?;
        let newest = newest(&image, edition)?;
        Ok(Store { image, edition, newest, answered: RefCell::default() })
    }

    /// "Metadata is map 0, kind 1, its root in the newest chunk's header."
    pub fn metadata(&self) -> Map {
        Map { id: 0, kind: Kind::Text, root: self.newest.root }
    }

    /// "the newest stands where opening found it. Chunk N otherwise is found by a metadata lookup".
    pub fn locate(&self, chunk: u64, left: u32) -> Outcome<Chunk> {
        if chunk == self.newest.id {
            return Ok(self.newest);
        }
        if left == 0 {
            return Err(NINTH_QUESTION);
        }
        let known = self.answered.borrow().get(&(chunk, left)).copied();
        known.unwrap_or_else(|| {
            let answer = self.question(chunk, left - 1);
            self.answered.borrow_mut().insert((chunk, left), answer);
            answer
        })
    }

    /// "a metadata lookup of `chunk.` and N in hex; the value's bytes are a line in the sense
    /// above, without the newline; its `block` says where chunk N must stand. A refusal of such a
    /// lookup is handed up unchanged."
    fn question(&self, chunk: u64, left: u32) -> Outcome<Chunk> {
        let key = [b"chunk.".to_vec(), digits(chunk)].concat();
        let value = lookup(self, &self.metadata(), Key::Text(&key), left)?.ok_or(NO_CHUNK)?;
        let line = Line::new(self.image.bytes_of(value)).ok_or(NO_CHUNK)?;
        let block = line.value("block").ok_or(NO_CHUNK)?;
        let standing = stands_at(&self.image, self.edition, block);
        standing.filter(|standing| standing.id == chunk).ok_or(NO_CHUNK)
    }
}
