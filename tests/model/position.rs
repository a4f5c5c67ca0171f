//! "A position is 64 bits, high to low: 26 bits chunk id, 32 bits offset in the chunk, 5 bits
//! length code, 1 bit type."

const TYPE_BITS: u32 = 1;
const CODE_BITS: u32 = 5;
const OFFSET_BITS: u32 = 32;
const CHUNK_BITS: u32 = 26;

const CODE_SHIFT: u32 = TYPE_BITS;
const OFFSET_SHIFT: u32 = CODE_SHIFT + CODE_BITS;
const CHUNK_SHIFT: u32 = OFFSET_SHIFT + OFFSET_BITS;

/// "Code 31 sets no bound".
pub const UNBOUNDED: u64 = 31;

/// "Position 0 as a root is the empty map."
pub const EMPTY: u64 = 0;

/// A position taken apart.
#[derive(Clone, Copy, Debug, PartialEq, Eq)]
pub struct Position {
    pub chunk: u64,
    pub offset: u64,
    pub code: u64,
    pub kind: u64,
}

impl Position {
    pub fn of(number: u64) -> Position {
        let bits = |shift: u32, width: u32| number >> shift & ((1 << width) - 1);
        Position {
            chunk: bits(CHUNK_SHIFT, CHUNK_BITS),
            offset: bits(OFFSET_SHIFT, OFFSET_BITS),
            code: bits(CODE_SHIFT, CODE_BITS),
            kind: bits(0, TYPE_BITS),
        }
    }

    /// The position as a number, if each field fits its width.
    pub fn number(&self) -> Option<u64> {
        let fits = |value: u64, width: u32| value >> width == 0;
        let fit = fits(self.chunk, CHUNK_BITS)
            && fits(self.offset, OFFSET_BITS)
            && fits(self.code, CODE_BITS)
            && fits(self.kind, TYPE_BITS);
        let high = || self.chunk << CHUNK_SHIFT | self.offset << OFFSET_SHIFT;
        fit.then(|| high() | self.code << CODE_SHIFT | self.kind)
    }
}

/// "Code c below 31 allows (2 + c mod 2) times 2^(4 + c/2 rounded down) bytes"
pub fn bound(code: u64) -> Option<u64> {
    (code < UNBOUNDED).then(|| (2 + code % 2) << (4 + code / 2))
}

/// "check value (2 bytes: [..] chunk id xor offset xor length)", each of them folded.
pub fn check_value(chunk: u64, offset: u64, length: u64) -> u64 {
    folded(chunk) ^ folded(offset) ^ folded(length)
}

/// 02, C-13: "folds each of the three numbers first: its upper 16 bits xor its lower 16 bits"
fn folded(number: u64) -> u64 {
    number >> 16 ^ number & 0xffff
}
