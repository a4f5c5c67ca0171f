//! The model's answer to a question about a leaf.

use std::cmp::Ordering;

use super::{bytes_word, word_bytes};
use crate::model::bytes::{big_endian, digits, digits_value, variable};
use crate::model::fletcher::{fletcher, Edition};
use crate::model::key::{key_at, well_formed, Kind};
use crate::model::line::{sum_is_right, text_of, Line};
use crate::model::position::{bound, check_value, Position};

/// The names whose values `fields` answers, in this order.
const NAMES: [&str; 11] = [
    "H",
    "blockSize",
    "format",
    "block",
    "chunk",
    "version",
    "len",
    "next",
    "pages",
    "root",
    "fletcher",
];

/// The answer line, or none if the question is not one.
pub fn answer(question: &str) -> Option<String> {
    let words: Vec<&str> = question.split(' ').collect();
    let number = |i: usize| u64::from_str_radix(words.get(i)?, 16).ok();
    let bytes = |i: usize| word_bytes(words.get(i)?);
    let edition = || Edition::of(number(1)?).ok();
    let filled = |i: usize| Some(vec![number(i)? as u8; number(i + 1)? as usize]);
    Some(match words[0] {
        "sum" => plain(fletcher(edition()?, &bytes(2)?)),
        "fill" => plain(fletcher(edition()?, &filled(2)?)),
        "words" => plain(fletcher(Edition::First, &filled(1)?)),
        "hex" => digits_value(&bytes(1)?).map_or("bad".to_string(), plain),
        "digits" => bytes_word(&digits(number(1)?)),
        "be" => plain(big_endian(&bytes(3)?, number(2)?, number(1)?).unwrap_or(0)),
        "var" => var(&bytes(3)?, number(2)?, number(1)?),
        "position" => position(number(1)?),
        "make" => make([number(1)?, number(2)?, number(3)?, number(4)?]),
        "bound" => bound(number(1)?).map_or("none".to_string(), plain),
        "check" => plain(check_value(number(1)?, number(2)?, number(3)?)),
        "line" => line(&bytes(1)?),
        "fields" => fields(&bytes(1)?),
        "right" => yes(sum_is_right(edition()?, &bytes(2)?)),
        "key" => key(kind(number(1)?)?, number(2)?, &bytes(3)?),
        "wellformed" => yes(well_formed(kind(number(1)?)?, &bytes(2)?).is_some()),
        "compare" => compare(kind(number(1)?)?, &bytes(2)?, &bytes(3)?)?,
        _ => return None,
    })
}

fn plain(number: u64) -> String {
    format!("{number:x}")
}

fn yes(holds: bool) -> String {
    if holds { "yes" } else { "no" }.to_string()
}

fn kind(number: u64) -> Option<Kind> {
    Kind::of(number).ok()
}

fn var(bytes: &[u8], at: u64, limit: u64) -> String {
    let read = variable(bytes, at, limit);
    read.map_or("bad".to_string(), |(value, next)| format!("{value:x} {next:x}"))
}

fn position(number: u64) -> String {
    let p = Position::of(number);
    format!("{:x} {:x} {:x} {:x}", p.chunk, p.offset, p.code, p.kind)
}

fn make([chunk, offset, code, kind]: [u64; 4]) -> String {
    Position { chunk, offset, code, kind }.number().map_or("bad".to_string(), plain)
}

fn line(area: &[u8]) -> String {
    let text = text_of(area);
    text.map_or("none".to_string(), |t| format!("{:x} {:x}", t.text.len(), t.newline))
}

fn fields(text: &[u8]) -> String {
    let Some(line) = Line::new(text) else {
        return "bad".to_string();
    };
    let value = |name: &&str| line.value(name).map_or("-".to_string(), plain);
    NAMES.iter().map(value).collect::<Vec<_>>().join(" ")
}

fn key(kind: Kind, at: u64, bytes: &[u8]) -> String {
    let span = key_at(kind, bytes, at);
    span.map_or("bad".to_string(), |s| format!("{:x} {:x} {:x}", s.at, s.length, s.at + s.length))
}

fn compare(kind: Kind, one: &[u8], other: &[u8]) -> Option<String> {
    let order = well_formed(kind, one)?.cmp(&well_formed(kind, other)?);
    let word = match order {
        Ordering::Less => "less",
        Ordering::Equal => "equal",
        Ordering::Greater => "greater",
    };
    Some(word.to_string())
}
