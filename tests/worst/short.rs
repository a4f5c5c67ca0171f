//! The small worst images in the short run: they take seconds in all.

use std::io;
use std::time::Duration;

use super::ask::ask;
use super::asked::{asked, Effort};
use super::table::bound;
use super::{Named, Worst, ALL, KILOBYTE};
use crate::subject::{Call, Question, Reply};

/// The processor time that a call may take, and the time after which it is ended, on a machine with
/// other work to do.
const MOST: f64 = 1.0;
const EFFORT: Effort = Effort { times: 1, limit: Duration::from_secs(10) };

#[derive(Default)]
struct Run {
    images: usize,
    calls: usize,
    faults: usize,
    slowest: f64,
    slowest_call: String,
}

/// False if a call answered wrongly or took too long.
pub fn run() -> io::Result<bool> {
    let mut run = Run::default();
    for named in &ALL {
        let worst = named.small();
        run.images += 1;
        for question in worst.questions() {
            if !run.question(named, &worst, &question)? {
                break;
            }
        }
    }
    println!(
        "worst images: {} images, {} calls, {} faults; the slowest took {:.0} ms: {}",
        run.images,
        run.calls,
        run.faults,
        run.slowest * 1e3,
        run.slowest_call
    );
    Ok(run.faults == 0)
}

impl Run {
    /// False where the call had to be ended, as would the others.
    fn question(&mut self, named: &Named, worst: &Worst, question: &Question) -> io::Result<bool> {
        let call = format!("{} {}", named.name, question.call().name());
        self.calls += 1;
        self.claim(worst.image.len() <= named.short * KILOBYTE, || format!("{call}: too long"));
        let (needed, work) = ask(&worst.image, question);
        let needed = needed.to_string();
        let most = bound(question.call(), &worst.image);
        self.claim(work.pages <= most, || format!("{call}: {} pages of {most}", work.pages));
        if question.call() == Call::Examine {
            self.claim(needed == worst.examined, || format!("{call}: {needed}, as read"));
        }
        let Some(asked) = asked(&worst.image, question, EFFORT)? else {
            self.claim(false, || format!("{call}: more than {} s", EFFORT.limit.as_secs()));
            return Ok(false);
        };
        self.claim(asked.answer == needed, || format!("{call}: {}, due {needed}", asked.answer));
        if named.plain {
            let reply = Reply::of_model(&worst.image, question).to_string();
            self.claim(asked.reply == reply, || format!("{call}: {}, due {reply}", asked.reply));
        }
        self.claim(asked.seconds <= MOST, || format!("{call}: {:.1} s", asked.seconds));
        if asked.seconds > self.slowest {
            (self.slowest, self.slowest_call) = (asked.seconds, call);
        }
        Ok(true)
    }

    fn claim(&mut self, holds: bool, what: impl FnOnce() -> String) {
        if !holds {
            self.faults += 1;
            eprintln!("worst images: {}", what());
        }
    }
}
