//! Random stores and random damage, all from a seed.
//!
//! | file | what |
//! |---|---|
//! | `source`  | the numbers |
//! | `entries` | keys and values of both kinds |
//! | `tree`    | pages of a map spread over chunks |
//! | `store`   | a whole store: chunks, chain, headers, maps, metadata |
//! | `raw`     | damage to bytes: flips, cuts, blocks moved; with or without sums repaired |
//! | `planned` | damage to a plan: sums and check values follow, so that deeper rules are reached |

pub mod entries;
pub mod planned;
pub mod raw;
pub mod source;
pub mod store;
pub mod tree;

pub use source::Random;
