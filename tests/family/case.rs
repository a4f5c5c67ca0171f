//! A case of the family and the base it changes.

use super::standard::{standard, Standard};
use crate::subject::Question;

/// A good image, and the questions that are asked of it and of each of its cases.
pub struct Base {
    pub name: &'static str,
    pub why: &'static str,
    pub image: Vec<u8>,
    pub questions: Vec<Question>,
}

/// An image with one fault (or one thing a reader could stumble over), and what 01 says of it.
pub struct Case {
    pub name: String,
    pub why: String,
    pub image: Vec<u8>,
    pub claims: Vec<(Question, String)>,
}

/// Lists of cases one after the other.
pub fn join(lists: Vec<Vec<Case>>) -> Vec<Case> {
    lists.into_iter().flatten().collect()
}

impl Case {
    pub fn new(name: &str, why: &str, image: Vec<u8>) -> Case {
        Case { name: name.to_string(), why: why.to_string(), image, claims: Vec::new() }
    }

    /// The standard store after a change.
    pub fn standard(name: &str, why: &str, edit: &dyn Fn(&mut Standard)) -> Case {
        let mut store = standard();
        edit(&mut store);
        Case::new(name, why, store.plan.image())
    }

    /// Claims an answer.
    pub fn says(mut self, question: Question, answer: &str) -> Case {
        self.claims.push((question, answer.to_string()));
        self
    }

    /// Claims that each of the questions is refused with a number.
    pub fn refuses(mut self, questions: Vec<Question>, number: u8) -> Case {
        self.claims.extend(questions.into_iter().map(|q| (q, format!("refused {number}"))));
        self
    }
}
