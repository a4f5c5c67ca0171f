//! What a run counts.

/// How many disagreements are kept to be shown.
const SHOWN: usize = 20;

#[derive(Default)]
pub struct Tally {
    pub images: u64,
    pub questions: u64,
    pub disagreements: u64,
    /// The first disagreements in words.
    pub shown: Vec<String>,
}

impl Tally {
    pub fn disagree(&mut self, what: String) {
        self.disagreements += 1;
        if self.shown.len() < SHOWN {
            self.shown.push(what);
        }
    }
}
