//! "Numbers given back": a refusal returns its number.

/// A number of 01's table.
#[derive(Clone, Copy, Debug, PartialEq, Eq, PartialOrd, Ord)]
pub struct Refusal(pub u8);

/// An answer, or the number with which it is refused.
pub type Outcome<T> = Result<T, Refusal>;

/// "kind not 0 or 1; map 0 with kind 0; map id above 2^31-1; key badly formed; map name"; 02, C-16:
/// "edition not 1 or 2"
pub const ARGUMENT: Refusal = Refusal(1);
/// "image outside its block range; program input over 65,536 bytes"
pub const IMAGE_SIZE: Refusal = Refusal(2);
/// "no good file header"
pub const NO_HEADER: Refusal = Refusal(3);
/// "neither start stands"
pub const NO_START: Refusal = Refusal(4);
/// "no entry, unusable entry, or chunk not standing there"
pub const NO_CHUNK: Refusal = Refusal(5);
/// "a ninth open question"
pub const NINTH_QUESTION: Refusal = Refusal(6);
/// "child position 0; offset or length out of place"
pub const OUT_OF_PLACE: Refusal = Refusal(7);
/// "check value"
pub const CHECK_VALUE: Refusal = Refusal(8);
/// "map id or type"
pub const NOT_DUE: Refusal = Refusal(9);
/// "contents"
pub const CONTENTS: Refusal = Refusal(10);
/// "a page at depth 17, the root being 1"
pub const TOO_DEEP: Refusal = Refusal(11);
/// "unsound (examination, walk)"
pub const UNSOUND: Refusal = Refusal(12);
/// "no such map name"
pub const NO_NAME: Refusal = Refusal(13);
/// "metadata id or root is not a number as above"
pub const NOT_A_NUMBER: Refusal = Refusal(14);
/// "index"
pub const INDEX: Refusal = Refusal(15);
/// "copy area smaller than the value"
pub const AREA: Refusal = Refusal(16);

/// The last number of the table.
pub const LAST: u8 = 16;
