//! Pages, in the order in which a page judges.
//!
//! | bytes | field |
//! |---|---|
//! | 4 | length |
//! | 2 | check value |
//! | variable | map id |
//! | variable | key count n |
//! | 1 | type: 0 leaf, 1 inner |
//! | inner: 8 (n+1), variable (n+1) | child positions, recorded counts |
//! | n keys | |
//! | leaf: n values | variable-size length and bytes |

use super::bytes::{big_endian, part, variable};
use super::chunk::Chunk;
use super::image::{Image, Span, BLOCK};
use super::key::{key_at, well_formed, Key, Kind};
use super::locate::Store;
use super::map::Map;
use super::position::{bound, check_value, Position};
use super::refusal::{Outcome, CHECK_VALUE, CONTENTS, NOT_DUE, OUT_OF_PLACE, TOO_DEEP};

/// "a page at depth 17, the root being 1" is refused.
pub const DEEPEST: u64 = 16;
/// "length (4 bytes, at least 9"
const LEAST_LENGTH: u64 = 9;
/// The fields after length and check value begin here.
const FIELDS: u64 = 6;
/// "map id and key count n (below 2^31)"
pub const IDS: u64 = 1 << 31;
/// "their sum below 2^48"
pub const COUNTS: u64 = 1 << 48;
/// "Values: a variable-size length up to 65,535"
pub const LONGEST_VALUE: u64 = 65535;

/// A key of a page and the place of its own bytes in the image.
#[derive(Clone, Copy)]
pub struct PageKey<'a> {
    pub key: Key<'a>,
    pub place: Span,
}

/// A page that meets the page rules.
pub struct Page<'a> {
    pub keys: Vec<PageKey<'a>>,
    pub body: Body,
}

pub enum Body {
    /// The values of a leaf, by their places in the image.
    Leaf(Vec<Span>),
    Inner(Vec<Child>),
}

/// A child of an inner page: its position and its recorded count.
#[derive(Clone, Copy)]
pub struct Child {
    pub position: u64,
    pub count: u64,
}

/// "A page judges in this order: depth, child position 0, location, place, check, then the fields
/// in file order." The page at `number` as a page of `map` at `depth`, with `left` questions left.
/// A root of 0 is the empty map and never comes here.
pub fn read<'a>(
    store: &Store<'a>,
    map: &Map,
    number: u64,
    depth: u64,
    left: u32,
) -> Outcome<Page<'a>> {
    if depth > DEEPEST {
        return Err(TOO_DEEP);
    }
    if number == 0 {
        return Err(OUT_OF_PLACE);
    }
    let position = Position::of(number);
    let chunk = store.locate(position.chunk, left)?;
    read_in(&store.image, &chunk, map, &position)
}

/// The rest of it, in a chunk that is located: place, check, fields.
pub fn read_in<'a>(
    image: &Image<'a>,
    chunk: &Chunk,
    map: &Map,
    position: &Position,
) -> Outcome<Page<'a>> {
    let span = place(image, chunk, position)?;
    let bytes = image.bytes_of(span);
    let check = check_value(position.chunk, position.offset, span.length);
    if big_endian(bytes, 4, 2) != Some(check) {
        return Err(CHECK_VALUE);
    }
    Fields { bytes, start: span.at, at: FIELDS }.page(map, position.kind)
}

/// "A page begins at its offset, not before the byte after the chunk header's newline nor less
/// than 9 bytes before the footer. length (4 bytes, at least 9, within the code's bound, ending no
/// later than the footer begins)".
pub fn place(image: &Image, chunk: &Chunk, position: &Position) -> Outcome<Span> {
    let after_header = position.offset > chunk.newline;
    let before_footer = position.offset + LEAST_LENGTH <= chunk.footer();
    if !(after_header && before_footer) {
        return Err(OUT_OF_PLACE);
    }
    let at = chunk.block * BLOCK + position.offset;
    let head = image.bytes_of(Span { at, length: 4 });
    let length = big_endian(head, 0, 4).ok_or(OUT_OF_PLACE)?;
    let within = bound(position.code).is_none_or(|most| length <= most);
    let ends = position.offset + length <= chunk.footer();
    let good = length >= LEAST_LENGTH && within && ends;
    good.then_some(Span { at, length }).ok_or(OUT_OF_PLACE)
}

/// A reading of the fields of a page, one after the other.
struct Fields<'a> {
    /// The whole page.
    bytes: &'a [u8],
    /// Where the page begins in the image.
    start: u64,
    /// The place of the next field in the page.
    at: u64,
}

impl<'a> Fields<'a> {
    /// "A field that can't be read is 10; a map id or type that reads but isn't the one due is 9."
    fn page(mut self, map: &Map, kind: u64) -> Outcome<Page<'a>> {
        if self.variable(IDS)? != map.id {
            return Err(NOT_DUE);
        }
        let n = self.variable(IDS)?;
        // "type byte (0 leaf, 1 inner, equal to the position's bit)"
        if self.number(1)? != kind {
            return Err(NOT_DUE);
        }
        let page = match kind {
            0 => self.leaf(map.kind, n)?,
            _ => self.inner(map.kind, n)?,
        };
        // "Nothing is left over."
        let whole = self.at == self.bytes.len() as u64;
        whole.then_some(page).ok_or(CONTENTS)
    }

    /// "Leaf: n keys, then n values."
    fn leaf(&mut self, kind: Kind, n: u64) -> Outcome<Page<'a>> {
        let keys = self.keys(kind, n)?;
        let values: Outcome<_> = (0..n).map(|_| self.value()).collect();
        Ok(Page { keys, body: Body::Leaf(values?) })
    }

    /// "Inner: n+1 positions, n+1 variable-size counts, their sum below 2^48 (the count that takes
    /// it there can't be read), n keys."
    fn inner(&mut self, kind: Kind, n: u64) -> Outcome<Page<'a>> {
        let mut children = Vec::new();
        for _ in 0..=n {
            children.push(Child { position: self.number(8)?, count: 0 });
        }
        let mut sum = 0;
        for child in &mut children {
            child.count = self.variable(COUNTS - sum)?;
            sum += child.count;
        }
        Ok(Page { keys: self.keys(kind, n)?, body: Body::Inner(children) })
    }

    fn keys(&mut self, kind: Kind, n: u64) -> Outcome<Vec<PageKey<'a>>> {
        (0..n).map(|_| self.key(kind)).collect()
    }

    fn key(&mut self, kind: Kind) -> Outcome<PageKey<'a>> {
        let span = key_at(kind, self.bytes, self.at).ok_or(CONTENTS)?;
        self.at = span.at + span.length;
        let own = part(self.bytes, span.at, span.length).ok_or(CONTENTS)?;
        let key = well_formed(kind, own).ok_or(CONTENTS)?;
        Ok(PageKey { key, place: self.in_image(span) })
    }

    /// "Values: a variable-size length up to 65,535, then bytes."
    fn value(&mut self) -> Outcome<Span> {
        let length = self.variable(LONGEST_VALUE + 1)?;
        let span = Span { at: self.at, length };
        part(self.bytes, span.at, span.length).ok_or(CONTENTS)?;
        self.at += length;
        Ok(self.in_image(span))
    }

    fn variable(&mut self, limit: u64) -> Outcome<u64> {
        let (value, next) = variable(self.bytes, self.at, limit).ok_or(CONTENTS)?;
        self.at = next;
        Ok(value)
    }

    fn number(&mut self, width: u64) -> Outcome<u64> {
        let value = big_endian(self.bytes, self.at, width).ok_or(CONTENTS)?;
        self.at += width;
        Ok(value)
    }

    fn in_image(&self, span: Span) -> Span {
        Span { at: self.start + span.at, length: span.length }
    }
}
