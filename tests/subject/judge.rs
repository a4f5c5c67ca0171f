//! Asks the model and each subject, and compares.

use super::{Asks, Call, Question, Refusals, Reply, Subject, Tally, CALLS};
use crate::model::ask::View;

#[derive(Default)]
pub struct Judge {
    pub tally: Tally,
    model: Refusals,
    subjects: Vec<Plugged>,
    /// The image that is asked about.
    image: String,
}

/// A subject and what it was asked so far.
struct Plugged {
    subject: Box<dyn Subject>,
    questions: u64,
    refusals: Refusals,
}

impl Judge {
    /// Plugs a subject in: from here on it answers every question too.
    pub fn plug(&mut self, subject: Box<dyn Subject>) {
        self.subjects.push(Plugged { subject, questions: 0, refusals: Refusals::default() });
    }

    /// From here on the questions are about another image; the first is what it opens to.
    pub fn image(&mut self, name: &str, image: &[u8], view: View) -> Reply {
        self.tally.images += 1;
        self.image = name.to_string();
        self.ask(image, &Asks::Open.under(view))
    }

    /// The model's reply, after each subject's was held against it.
    pub fn ask(&mut self, image: &[u8], question: &Question) -> Reply {
        let reply = Reply::of_model(image, question);
        self.tally.questions += 1;
        self.model.count(question, &reply);
        for plugged in &mut self.subjects {
            let Some(other) = plugged.subject.reply(image, question) else {
                continue;
            };
            plugged.questions += 1;
            plugged.refusals.count(question, &other);
            if other != reply {
                let (image, name) = (&self.image, plugged.subject.name());
                self.tally.disagree(format!("{image}: {question}: model {reply}; {name} {other}"));
            }
        }
        reply
    }

    /// A claim about the answers; where it fails, that is a disagreement with 01.
    pub fn claim(&mut self, holds: bool, what: impl FnOnce() -> String) {
        if !holds {
            self.tally.disagree(what());
        }
    }

    /// Prints what the model and each subject refused, in the calls that each offers; false if a
    /// table is not as it must be.
    pub fn print_tables(&self) -> bool {
        println!("refusals of the model, {} questions", self.tally.questions);
        let mut good = self.model.print(&CALLS);
        for Plugged { subject, questions, refusals } in &self.subjects {
            let (offered, lacking): (Vec<_>, Vec<_>) =
                CALLS.into_iter().partition(|&call| subject.offers(call));
            let (name, offers, lacks) = (subject.name(), names(&offered), names(&lacking));
            println!("asked of the {name}: {offers}; not {lacks}");
            println!("refusals of the {name}, {questions} questions");
            good &= refusals.print(&offered);
        }
        good
    }
}

fn names(calls: &[Call]) -> String {
    calls.iter().map(|call| call.name()).collect::<Vec<_>>().join(" ")
}
