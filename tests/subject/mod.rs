//! The seam between questions and whoever answers them. Every question of a run goes through a
//! `Judge`: the model answers, and so does each subject that is plugged in; the answers are
//! compared and the refusals tallied.

#[cfg(archive)]
pub mod exports;
mod judge;
mod listing;
mod question;
mod refusals;
mod reply;
mod tally;

pub use judge::Judge;
pub use listing::Listing;
pub use question::{Asks, Call, MapArgs, Question};
pub use refusals::{Refusals, CALLS};
pub use reply::{Answer, Reply};
pub use tally::Tally;

/// Something that answers questions about images: the proved library, through its C exports, or the
/// listing program.
pub trait Subject {
    fn name(&self) -> &str;

    fn offers(&self, call: Call) -> bool;

    /// None where the subject does not offer the call, or can't be asked this question.
    fn reply(&mut self, image: &[u8], question: &Question) -> Option<Reply>;
}

/// The byte that fills a copy's area before the call.
pub const AREA_FILL: u8 = 0xa5;

/// The C exports, or none where the crate was built without their archive.
pub fn exports() -> Option<Box<dyn Subject>> {
    #[cfg(archive)]
    return Some(Box::new(exports::Exports));
    #[cfg(not(archive))]
    None
}
