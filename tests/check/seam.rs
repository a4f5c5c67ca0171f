//! The seam itself: a subject that answers as the model does but for one call must be noticed, and
//! one that offers only some calls must not be held to the others; and so must one that takes every
//! image to be of edition 1.

use crate::family::base::standard_base;
use crate::model::ask::View;
use crate::subject::{Answer, Call, Judge, Question, Reply, Subject};

/// Counts one too many, and offers four calls.
struct Miscounting;

impl Subject for Miscounting {
    fn name(&self) -> &str {
        "miscounting"
    }

    fn offers(&self, call: Call) -> bool {
        [Call::Lookup, Call::Index, Call::Count, Call::Copy].contains(&call)
    }

    fn reply(&mut self, image: &[u8], question: &Question) -> Option<Reply> {
        let mut reply = Reply::of_model(image, question);
        if let Answer::Count(count) = &mut reply.answer {
            *count += 1;
        }
        self.offers(question.call()).then_some(reply)
    }
}

/// Answers under edition 1, whatever the view.
struct FirstEdition;

impl Subject for FirstEdition {
    fn name(&self) -> &str {
        "first edition"
    }

    fn offers(&self, call: Call) -> bool {
        call != Call::List
    }

    fn reply(&mut self, image: &[u8], question: &Question) -> Option<Reply> {
        let reply = || Reply::of_model(image, &question.clone().under(View::FIRST));
        self.offers(question.call()).then(reply)
    }
}

pub fn check(judge: &mut Judge) {
    let base = standard_base();
    let counts = base.questions.iter().filter(|question| question.call() == Call::Count).count();
    claim(judge, Box::new(Miscounting), View::FIRST, counts);
    let calls = base.questions.iter().filter(|question| question.call() != Call::List).count();
    claim(judge, Box::new(FirstEdition), View::FIRST, 0);
    claim(judge, Box::new(FirstEdition), View::SECOND, calls);
}

/// Asked all questions of the standard store under a view, a subject is noticed so often.
fn claim(judge: &mut Judge, subject: Box<dyn Subject>, view: View, due: usize) {
    let base = standard_base();
    let name = subject.name().to_string();
    let mut other = Judge::default();
    other.plug(subject);
    for question in base.questions {
        other.ask(&base.image, &question.under(view));
    }
    let noticed = other.tally.disagreements;
    judge.claim(noticed == due as u64, || format!("the seam notices {name} {noticed} of {due}"));
}
