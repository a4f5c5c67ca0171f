//! The sum `fletcher` of a text, in two editions.

use super::refusal::{Outcome, ARGUMENT};

const MODULUS: u32 = 65535;

/// 02, C-16: "opening takes an edition, 1 as in 01 or 2, and every line in that image is judged by
/// it".
#[derive(Clone, Copy, Debug, PartialEq, Eq)]
pub enum Edition {
    First,
    Second,
}

impl Edition {
    /// "Refusals: edition not 1 or 2 is 1."
    pub fn of(number: u64) -> Outcome<Edition> {
        match number {
            1 => Ok(Edition::First),
            2 => Ok(Edition::Second),
            _ => Err(ARGUMENT),
        }
    }

    pub fn number(self) -> u64 {
        match self {
            Edition::First => 1,
            Edition::Second => 2,
        }
    }

    pub fn other(self) -> Edition {
        match self {
            Edition::First => Edition::Second,
            Edition::Second => Edition::First,
        }
    }
}

/// Both running sums, reduced below 65535.
#[derive(Clone, Copy)]
pub struct Sums {
    first: u32,
    second: u32,
}

impl Sums {
    /// "Both start at 65535 and are taken modulo 65535"
    pub fn start() -> Sums {
        Sums { first: 65535 % MODULUS, second: 65535 % MODULUS }
    }

    /// "The first sum adds the words. The second adds the first sum after each word."
    pub fn word(self, word: u32) -> Sums {
        let first = (self.first + word) % MODULUS;
        Sums { first, second: (self.second + first) % MODULUS }
    }

    /// "The field is second sum times 65536 plus first sum."
    pub fn value(self) -> u64 {
        u64::from(written(self.second)) * 65536 + u64::from(written(self.first))
    }
}

/// "with 65535 written for 0"
fn written(sum: u32) -> u32 {
    if sum == 0 {
        65535
    } else {
        sum
    }
}

/// The sum of a text "as 16-bit words, high byte first".
pub fn fletcher(edition: Edition, text: &[u8]) -> u64 {
    let words = text.chunks_exact(2);
    let odd = words.remainder().first().copied();
    let whole = words.map(|w| u32::from(w[0]) * 256 + u32::from(w[1]));
    whole
        .chain(odd.and_then(|byte| odd_word(edition, byte)))
        .fold(Sums::start(), Sums::word)
        .value()
}

/// The word of an odd last byte, where it has one.
fn odd_word(edition: Edition, byte: u8) -> Option<u32> {
    match edition {
        // "The documents' footer example settles an odd last byte: it is not counted."
        Edition::First => None,
        // 02, C-16: "counts an odd last byte as the high half of a word whose low half is 0"
        Edition::Second => Some(u32::from(byte) * 256),
    }
}
