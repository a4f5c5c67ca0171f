//! What a run checks, each through the `Judge`.

pub mod codes;
pub mod editions;
pub mod family;
pub mod hostile;
pub mod lengths;
pub mod many;
mod mapped;
pub mod properties;
pub mod seam;
pub mod sparse;
pub mod stores;
mod stray;
pub mod sweep;
