//! A page as it is to be written: every field in its written form.

use crate::model::position::{bound, check_value, Position, UNBOUNDED};

/// A number in shortest variable-size form.
pub fn variable(value: u64) -> Vec<u8> {
    let mut bytes = Vec::new();
    let mut rest = value;
    while rest >= 0x80 {
        bytes.push(rest as u8 | 0x80);
        rest >>= 7;
    }
    bytes.push(rest as u8);
    bytes
}

/// Bytes after their variable-size length.
pub fn measured(bytes: &[u8]) -> Vec<u8> {
    [variable(bytes.len() as u64), bytes.to_vec()].concat()
}

/// A key given as a caller gives it, as a page holds it.
pub fn written_key(kind: u64, key: &[u8]) -> Vec<u8> {
    if kind == 0 {
        key.to_vec()
    } else {
        measured(key)
    }
}

#[derive(Clone, Debug, Default)]
pub struct PagePlan {
    /// Where it begins in its chunk, and the length code of its position.
    pub offset: u64,
    pub code: u64,
    /// The type bit of its position.
    pub type_bit: u64,
    /// The length as written, where it is not the true one.
    pub length: Option<u64>,
    /// Bits changed in the check value.
    pub check_xor: u64,
    pub map: Vec<u8>,
    pub n: Vec<u8>,
    pub type_byte: Vec<u8>,
    pub children: Vec<u64>,
    pub counts: Vec<Vec<u8>>,
    pub keys: Vec<Vec<u8>>,
    pub values: Vec<Vec<u8>>,
    pub leftover: Vec<u8>,
}

impl PagePlan {
    /// A leaf of entries, keys as a caller gives them.
    pub fn leaf(map: u64, kind: u64, entries: &[(Vec<u8>, Vec<u8>)]) -> PagePlan {
        PagePlan {
            map: variable(map),
            n: variable(entries.len() as u64),
            type_byte: vec![0],
            keys: entries.iter().map(|(key, _)| written_key(kind, key)).collect(),
            values: entries.iter().map(|(_, value)| measured(value)).collect(),
            ..PagePlan::default()
        }
    }

    /// An inner page of positions with their counts, and the separators between them.
    pub fn inner(map: u64, kind: u64, children: &[(u64, u64)], separators: &[Vec<u8>]) -> PagePlan {
        PagePlan {
            type_bit: 1,
            map: variable(map),
            n: variable(separators.len() as u64),
            type_byte: vec![1],
            children: children.iter().map(|&(position, _)| position).collect(),
            counts: children.iter().map(|&(_, count)| variable(count)).collect(),
            keys: separators.iter().map(|key| written_key(kind, key)).collect(),
            ..PagePlan::default()
        }
    }

    /// The fields after length and check value.
    fn fields(&self) -> Vec<u8> {
        let positions = self.children.iter().flat_map(|position| position.to_be_bytes()).collect();
        [
            self.map.clone(),
            self.n.clone(),
            self.type_byte.clone(),
            positions,
            self.counts.concat(),
            self.keys.concat(),
            self.values.concat(),
            self.leftover.clone(),
        ]
        .concat()
    }

    /// How many bytes the page takes, whatever length it claims.
    pub fn true_length(&self) -> u64 {
        self.fields().len() as u64 + 6
    }

    /// The length as written.
    fn claimed_length(&self) -> u64 {
        self.length.unwrap_or(self.true_length())
    }

    /// Gives the page the check value of 01, which leaves the upper halves out, in a chunk of this id.
    pub fn check_low_bits(&mut self, chunk: u64) {
        let low = (chunk ^ self.offset ^ self.claimed_length()) & 0xffff;
        self.check_xor = low ^ check_value(chunk, self.offset, self.claimed_length());
    }

    /// The page's bytes in a chunk of this id.
    pub fn bytes(&self, chunk: u64) -> Vec<u8> {
        let length = self.claimed_length();
        let check = check_value(chunk, self.offset, length) ^ self.check_xor;
        let head = [(length as u32).to_be_bytes().to_vec(), (check as u16).to_be_bytes().to_vec()];
        [head.concat(), self.fields()].concat()
    }

    /// The page's position in a chunk of this id.
    pub fn position(&self, chunk: u64) -> u64 {
        let position =
            Position { chunk, offset: self.offset, code: self.code, kind: self.type_bit };
        position.number().expect("a built page's position fits its widths")
    }
}

/// The smallest length code that holds a page.
pub fn smallest_code(length: u64) -> u64 {
    (0..UNBOUNDED).find(|&code| bound(code).is_some_and(|most| length <= most)).unwrap_or(UNBOUNDED)
}
