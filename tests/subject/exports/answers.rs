//! The answer that a struct of the C interface carries. Whatever a member must be is asked for: an
//! absent value and a refusal have every other member 0, a key is a number or a place. What is none
//! of these is an odd answer, which equals no other.

use super::calls::{Chunk, Count, Entry, Id, Report, Step, Value};
use crate::model::examine;
use crate::model::image::Span;
use crate::model::index::{self, GivenKey};
use crate::model::refusal::{Refusal, LAST};
use crate::subject::Answer;

fn odd(raw: &dyn std::fmt::Debug) -> Answer {
    Answer::Odd(format!("{raw:?}"))
}

/// A refusal, whose other members were seen to be 0.
fn refused(number: u32, raw: &dyn std::fmt::Debug) -> Answer {
    match u8::try_from(number) {
        Ok(number) if (1..=LAST).contains(&number) => Answer::Refused(Refusal(number)),
        _ => odd(raw),
    }
}

pub fn of_chunk(raw: &Chunk) -> Answer {
    let [id, block, blocks] = [raw.chunk, raw.block, raw.blocks].map(u64::from);
    match (raw.refusal, id, block, blocks, raw.version) {
        (0, .., version) => Answer::Chunk { id, block, blocks, version },
        (refusal, 0, 0, 0, 0) => refused(refusal, raw),
        _ => odd(raw),
    }
}

pub fn of_id(raw: &Id) -> Answer {
    match *raw {
        Id { refusal: 0, id } => Answer::Id(id),
        Id { refusal, id: 0 } => refused(refusal, raw),
        _ => odd(raw),
    }
}

pub fn of_value(raw: &Value) -> Answer {
    match *raw {
        Value { refusal: 0, found: 1, at, len } => Answer::Value(Span { at, length: len }),
        Value { refusal: 0, found: 0, at: 0, len: 0 } => Answer::Absent,
        Value { refusal, found: 0, at: 0, len: 0 } => refused(refusal, raw),
        _ => odd(raw),
    }
}

pub fn of_entry(kind: u64, raw: &Entry) -> Answer {
    let Entry { refusal, number, key_at, key_len, at, len } = *raw;
    let key = match (kind, number, key_at, key_len) {
        (0, number, 0, 0) => GivenKey::Number(number),
        (_, 0, at, length) => GivenKey::Text(Span { at, length }),
        _ => return odd(raw),
    };
    match (refusal, number, key_at, key_len, at, len) {
        (0, ..) => Answer::Entry(index::Entry { key, value: Span { at, length: len } }),
        (_, 0, 0, 0, 0, 0) => refused(refusal, raw),
        _ => odd(raw),
    }
}

pub fn of_count(raw: &Count) -> Answer {
    match *raw {
        Count { refusal: 0, count } => Answer::Count(count),
        Count { refusal, count: 0 } => refused(refusal, raw),
        _ => odd(raw),
    }
}

/// A step without its state: Done has every member but `done` at 0, the others are as an entry's.
pub fn of_step(kind: u64, raw: &Step) -> Answer {
    let Step { refusal, done, number, key_at, key_len, at, len, .. } = *raw;
    let entry = Entry { refusal, number, key_at, key_len, at, len };
    match (done, of_entry(kind, &entry)) {
        (0, Answer::Odd(_)) => odd(raw),
        (0, answer) => answer,
        (1, _) if (refusal, number, key_at, key_len, at, len) == (0, 0, 0, 0, 0, 0) => Answer::Done,
        _ => odd(raw),
    }
}

pub fn of_report(raw: &Report) -> Answer {
    let Report { refusal, depth, entries, pages } = *raw;
    match (refusal, depth, entries, pages) {
        (0, ..) => Answer::Report(examine::Report { entries, pages, depth: u64::from(depth) }),
        (_, 0, 0, 0) => refused(refusal, raw),
        _ => odd(raw),
    }
}
