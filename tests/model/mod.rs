//! A plain reader of MVStore images, laid out in the order of document 01. Each file quotes the
//! sentences that it does; a review is the reading of two columns. Clarity before speed.
//!
//! | file | 01 |
//! |---|---|
//! | `refusal`  | "Numbers given back" |
//! | `image`    | "What is read" |
//! | `bytes`    | big-endian and variable-size numbers, hex digits |
//! | `fletcher`, `line` | "The text lines", and 02's C-16: two editions |
//! | `header`, `chunk`, `opening` | "Opening" |
//! | `position`, `locate`, `key`, `page` | "Positions and pages" |
//! | `map`, `lookup`, `index`, `walk`, `reached`, `sound`, `examine` | "Asking" |
//! | `ask`      | the public calls: arguments, then opening, then the map |
//! | `listing`  | "A listing, whole" |

pub mod ask;
pub mod bytes;
pub mod chunk;
pub mod examine;
pub mod fletcher;
pub mod header;
pub mod image;
pub mod index;
pub mod key;
pub mod line;
pub mod listing;
pub mod locate;
pub mod lookup;
pub mod map;
pub mod opening;
pub mod page;
pub mod position;
pub mod reached;
pub mod refusal;
pub mod sound;
pub mod walk;
