//! A builder of images with a knob for every rule. A plan says what is written where; each part of
//! it can be changed before the image is made, and sums and check values follow unless a knob says
//! otherwise.
//!
//! | file | knobs |
//! |---|---|
//! | `line`  | fields and their text, the sum and its edition, trailing spaces, the newline's place |
//! | `page`  | every field of a page as it is written |
//! | `chunk` | id, block, len, next, version, root; header and footer lines; pages |
//! | `plan`  | the image's blocks, both file headers, the chunks |
//! | `tree`  | a map's pages from its entries: leaf sizes, fan-out, separators, where pages go |
//! | `resummed` | none: an image that is made, with its sums in the other edition |

pub mod chunk;
pub mod line;
pub mod page;
pub mod plan;
pub mod resummed;
pub mod tree;
