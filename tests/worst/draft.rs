//! An image written straight into its bytes: a plan of hundreds of thousands of pages would be slow.

use crate::build::line::{LinePlan, Sum};
use crate::build::page::{smallest_code, variable};
use crate::build::tree::{Entries, MapPlan};
use crate::family::standard::METADATA_PLAN;
use crate::model::image::BLOCK;
use crate::model::line::FOOTER;
use crate::model::position::{check_value, Position};

/// Ids of four digits, so that the entries of chunks sort as their numbers do.
pub const FIRST_ID: u64 = 0x4000;
/// The newline's place in a chunk header.
const NEWLINE: u64 = 103;
/// The bytes of an entry with an empty text key and an empty value.
pub const EMPTY_ENTRY: usize = 2;

/// What stands in a page after its type byte.
pub struct Body {
    pub map: u64,
    pub type_bit: u64,
    pub n: u64,
    pub bytes: Vec<u8>,
}

impl Body {
    /// A leaf of entries, keys as a caller gives them.
    pub fn leaf(map: MapPlan, entries: &[(Vec<u8>, Vec<u8>)]) -> Body {
        Body::wide_leaf(map, 0, entries)
    }

    /// The same with so many entries of an empty text key and an empty value before them.
    pub fn wide_leaf(map: MapPlan, empty: usize, entries: &[(Vec<u8>, Vec<u8>)]) -> Body {
        let mut bytes = vec![0; empty];
        entries.iter().for_each(|(key, _)| push_key(&mut bytes, map.kind, key));
        bytes.resize(bytes.len() + empty, 0);
        entries.iter().for_each(|(_, value)| push_text(&mut bytes, value));
        Body { map: map.id, type_bit: 0, n: (empty + entries.len()) as u64, bytes }
    }

    /// An inner page of positions with their counts, and the separators between them.
    pub fn inner(map: MapPlan, children: &[(u64, u64)], separators: &[Vec<u8>]) -> Body {
        let mut bytes = Vec::new();
        children.iter().for_each(|(position, _)| bytes.extend(position.to_be_bytes()));
        children.iter().for_each(|(_, count)| bytes.extend(variable(*count)));
        separators.iter().for_each(|key| push_key(&mut bytes, map.kind, key));
        Body { map: map.id, type_bit: 1, n: separators.len() as u64, bytes }
    }
}

fn push_key(bytes: &mut Vec<u8>, kind: u64, key: &[u8]) {
    if kind == 0 {
        bytes.extend(key);
    } else {
        push_text(bytes, key);
    }
}

/// Bytes after their length.
fn push_text(bytes: &mut Vec<u8>, text: &[u8]) {
    bytes.extend(variable(text.len() as u64));
    bytes.extend(text);
}

struct Chunk {
    id: u64,
    version: u64,
    block: u64,
    len: u64,
    next: u64,
    /// Where the next page goes.
    free: u64,
}

pub struct Draft {
    bytes: Vec<u8>,
    chunks: Vec<Chunk>,
}

impl Draft {
    pub fn new() -> Draft {
        Draft { bytes: vec![0; 2 * BLOCK as usize], chunks: Vec::new() }
    }

    /// Adds a chunk of one block at the image's end, where it can grow: its number.
    pub fn add_chunk(&mut self) -> usize {
        let block = self.blocks();
        self.bytes.resize(self.bytes.len() + BLOCK as usize, 0);
        self.add_at(block)
    }

    /// Adds a chunk of one block within another, at the block with that number there.
    pub fn add_within(&mut self, chunk: usize, block: u64) -> usize {
        self.add_at(self.chunks[chunk].block + block)
    }

    fn add_at(&mut self, block: u64) -> usize {
        let number = self.chunks.len();
        let id = FIRST_ID + number as u64;
        let free = NEWLINE + 1;
        self.chunks.push(Chunk { id, version: id, block, len: 1, next: block + 1, free });
        number
    }

    fn blocks(&self) -> u64 {
        self.bytes.len() as u64 / BLOCK
    }

    /// The key of a chunk's entry and the shortest line that serves as its value.
    pub fn entry(&self, chunk: usize) -> (Vec<u8>, Vec<u8>) {
        let Chunk { id, block, .. } = self.chunks[chunk];
        (format!("chunk.{id:x}").into_bytes(), format!("block:{block:x}").into_bytes())
    }

    /// Writes a page at the chunk's next free place: its position.
    pub fn put(&mut self, chunk: usize, body: &Body) -> u64 {
        let head = [variable(body.map), variable(body.n), vec![body.type_bit as u8]].concat();
        let length = (6 + head.len() + body.bytes.len()) as u64;
        let Chunk { id, free: offset, .. } = self.chunks[chunk];
        let check = check_value(id, offset, length) as u16;
        self.put_bytes(chunk, &(length as u32).to_be_bytes());
        self.put_bytes(chunk, &check.to_be_bytes());
        self.put_bytes(chunk, &head);
        self.put_bytes(chunk, &body.bytes);
        position_of(chunk, offset, smallest_code(length), body.type_bit)
    }

    pub fn put_bytes(&mut self, chunk: usize, bytes: &[u8]) {
        self.grow(chunk, bytes.len() as u64);
        let Chunk { block, ref mut free, .. } = self.chunks[chunk];
        let at = block * BLOCK + *free;
        *free += bytes.len() as u64;
        self.write(at, bytes);
    }

    /// Writes bytes where there is something already.
    pub fn write_over(&mut self, chunk: usize, offset: u64, bytes: &[u8]) {
        self.write(self.chunks[chunk].block * BLOCK + offset, bytes);
    }

    /// Leaves room before the next page.
    pub fn skip_to(&mut self, chunk: usize, offset: u64) {
        self.chunks[chunk].free = offset;
    }

    /// Makes room for bytes; only a chunk at the image's end can take more blocks.
    fn grow(&mut self, chunk: usize, length: u64) {
        let blocks = self.blocks();
        let drafted = &mut self.chunks[chunk];
        let len = (drafted.free + length + FOOTER).div_ceil(BLOCK);
        if len > drafted.len {
            assert!(drafted.block + drafted.len == blocks, "chunk {chunk} is full");
            drafted.len = len;
            drafted.next = drafted.block + len;
            self.bytes.resize(((drafted.block + len) * BLOCK) as usize, 0);
        }
    }

    /// A metadata leaf with the entries of chunks and the name and root of map 1: its position.
    pub fn metadata(&mut self, newest: usize, chunks: &[usize], forces: u64) -> u64 {
        let mut entries: Entries = chunks.iter().map(|&chunk| self.entry(chunk)).collect();
        entries.extend(names(forces));
        self.put(newest, &Body::leaf(METADATA_PLAN, &entries))
    }

    /// The image: the newest chunk has the metadata's root, and the file headers name it.
    pub fn image(self, newest: usize, root: u64) -> Vec<u8> {
        self.named(newest, root, newest)
    }

    /// The same with one chunk more at the end, the oldest. Both starts are the oldest, so that
    /// opening goes through the chunks in this order to the newest.
    pub fn chained(mut self, order: &[usize], root: u64) -> Vec<u8> {
        let oldest = self.add_chunk();
        let chain = [&[oldest], order].concat();
        for (version, pair) in chain.windows(2).enumerate() {
            self.chunks[pair[0]].next = self.chunks[pair[1]].block;
            self.chunks[pair[1]].version = version as u64 + 1;
        }
        self.chunks[oldest].version = 0;
        self.named(chain[chain.len() - 1], root, oldest)
    }

    fn named(mut self, newest: usize, root: u64, named: usize) -> Vec<u8> {
        for number in 0..self.chunks.len() {
            self.write_lines(number, if number == newest { root } else { 0 });
        }
        let Chunk { id, version, block, .. } = self.chunks[named];
        let fixed = [("H", 2), ("blockSize", 0x1000), ("format", 1)];
        let names = [("block", block), ("chunk", id), ("version", version)];
        let line = LinePlan::new(&[&fixed[..], &names[..]].concat(), Sum::Xor(0));
        self.write(0, &line.bytes().0);
        self.write(BLOCK, &line.bytes().0);
        self.bytes
    }

    /// A chunk's header and footer lines.
    fn write_lines(&mut self, number: usize, root: u64) {
        let Chunk { id, version, block, len, next, .. } = self.chunks[number];
        let named = [("chunk", id), ("block", block), ("version", version)];
        let rest = [("len", len), ("next", next), ("pages", 1), ("root", root)];
        let mut header = LinePlan::new(&[&named[..], &rest[..]].concat(), Sum::None);
        header.newline_from = NEWLINE as usize;
        let footer = LinePlan::new(&named, Sum::Xor(0));
        self.write(block * BLOCK, &header.bytes().0);
        self.write((block + len) * BLOCK - FOOTER, &footer.bytes().0);
    }

    fn write(&mut self, at: u64, bytes: &[u8]) {
        self.bytes[at as usize..at as usize + bytes.len()].copy_from_slice(bytes);
    }
}

/// The position of a page, by its chunk's number.
pub fn position_of(chunk: usize, offset: u64, code: u64, type_bit: u64) -> u64 {
    let position = Position { chunk: FIRST_ID + chunk as u64, offset, code, kind: type_bit };
    position.number().expect("a written page's position fits its widths")
}

/// The name and the root of map 1.
pub fn names(root: u64) -> Entries {
    let root = format!("{root:x}").into_bytes();
    vec![(b"name.forces".to_vec(), b"1".to_vec()), (b"root.1".to_vec(), root)]
}
