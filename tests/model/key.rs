//! Keys of both kinds, their order, and how a page holds them.

use super::bytes::{big_endian, part, variable};
use super::image::Span;
use super::refusal::{Outcome, ARGUMENT};

/// The two kinds of keys.
#[derive(Clone, Copy, Debug, PartialEq, Eq)]
pub enum Kind {
    Number,
    Text,
}

/// "a variable-size length up to 1,024"
pub const LONGEST_KEY: u64 = 1024;
/// "signed 8-byte numbers"
pub const NUMBER_KEY: u64 = 8;

/// A key. The derived order is 01's: numbers signed; texts "ordered by byte, a beginning before
/// its extension".
#[derive(Clone, Copy, Debug, PartialEq, Eq, PartialOrd, Ord)]
pub enum Key<'a> {
    Number(i64),
    Text(&'a [u8]),
}

impl Kind {
    /// "kind not 0 or 1"
    pub fn of(number: u64) -> Outcome<Kind> {
        match number {
            0 => Ok(Kind::Number),
            1 => Ok(Kind::Text),
            _ => Err(ARGUMENT),
        }
    }
}

/// "bytes 32 to 126"
pub fn plain(bytes: &[u8]) -> bool {
    bytes.iter().all(|byte| (32..=126).contains(byte))
}

/// "A well-formed key is one of the map's kind as described under pages; kind 0 given as bytes has
/// 8."
pub fn well_formed(kind: Kind, bytes: &[u8]) -> Option<Key<'_>> {
    match kind {
        Kind::Number => {
            let number = (bytes.len() as u64 == NUMBER_KEY).then(|| big_endian(bytes, 0, 8));
            number.flatten().map(|bits| Key::Number(bits as i64))
        }
        Kind::Text => {
            let good = bytes.len() as u64 <= LONGEST_KEY && plain(bytes);
            good.then_some(Key::Text(bytes))
        }
    }
}

/// The place of the own bytes of the key at place `at`, if a key of that kind can be read there.
/// "Kind 0 keys are signed 8-byte numbers; kind 1 keys are a variable-size length up to 1,024 and
/// bytes 32 to 126".
pub fn key_at(kind: Kind, bytes: &[u8], at: u64) -> Option<Span> {
    let span = match kind {
        Kind::Number => Span { at, length: NUMBER_KEY },
        Kind::Text => {
            let (length, at) = variable(bytes, at, LONGEST_KEY + 1)?;
            Span { at, length }
        }
    };
    well_formed(kind, part(bytes, span.at, span.length)?)?;
    Some(span)
}
