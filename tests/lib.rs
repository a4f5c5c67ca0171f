//! What stands against the proved library: a plain model written from document 01 alone, and what
//! it is held against.

#[cfg(archive)]
pub mod bench;
pub mod build;
pub mod check;
pub mod exchange;
pub mod family;
pub mod lookups;
pub mod model;
pub mod random;
pub mod subject;
pub mod vectors;
pub mod worst;
