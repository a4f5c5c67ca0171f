//! The family of damaged images: one fault an image, named for the fault, with its answers.
//!
//! A case starts from a base image and changes one thing. What 01 says of it is claimed by hand,
//! question by question; the model's answers to the base's other questions are stored with it
//! where they differ from the base's.

pub mod base;
pub mod case;
mod cases;
pub mod questions;
mod seeded;
pub mod standard;
pub mod stored;
pub mod tiny;

pub use case::{Base, Case};

/// All bases, and after each its cases.
pub fn all() -> Vec<(Base, Vec<Case>)> {
    cases::all()
}
