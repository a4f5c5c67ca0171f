//! 02, C-16, on an image of the family: all its questions under both editions and under numbers that
//! are none, and the same image with its sums in the other edition.

use crate::build::resummed::resummed;
use crate::family::stored::Stored;
use crate::model::ask::View;
use crate::model::refusal::ARGUMENT;
use crate::model::walk::is_final;
use crate::subject::{Asks, Judge, Question, Reply};

/// Both editions, the numbers beside them, and two whose lower 32 bits are an edition or none.
const EDITIONS: [u64; 6] = [0, 1, 2, 3, (1 << 32) + 1, u64::MAX];

pub fn check(judge: &mut Judge, image: &Stored) {
    let known: Vec<Question> = image.questions().collect();
    let mut asked: Vec<Asks> = Vec::new();
    for question in &known {
        if question.asks != Asks::List && !asked.contains(&question.asks) {
            asked.push(question.asks.clone());
        }
    }
    for asks in &asked {
        for view in EDITIONS.map(|edition| View { edition }) {
            let question = asks.clone().under(view);
            if !known.contains(&question) {
                ask(judge, image, &question);
            }
        }
    }
    check_resummed(judge, image, &asked);
}

/// "edition not 1 or 2 is 1", but for a walk's recorded answer, which is "given again at each later
/// step before anything is judged".
fn ask(judge: &mut Judge, image: &Stored, question: &Question) {
    let reply = judge.ask(&image.image, question);
    if question.view.judge().is_ok() {
        return;
    }
    let recorded = matches!(&question.asks, Asks::Walk { state, .. } if is_final(state.last));
    let holds = if recorded {
        reply == Reply::of_model(&image.image, &question.clone().under(View::FIRST))
    } else {
        reply.refusal() == Some(ARGUMENT.0)
    };
    judge.claim(holds, || format!("{}: {question}: {reply}", image.name));
}

/// What one edition answers of the image, the other answers of it resummed.
fn check_resummed(judge: &mut Judge, image: &Stored, asked: &[Asks]) {
    let name = format!("{}, resummed", image.name);
    let other = resummed(&image.image);
    judge.image(&name, &other, View::SECOND);
    for asks in asked {
        for (view, swapped) in [(View::FIRST, View::SECOND), (View::SECOND, View::FIRST)] {
            let due = Reply::of_model(&image.image, &asks.clone().under(view));
            let question = asks.clone().under(swapped);
            let reply = judge.ask(&other, &question);
            judge.claim(reply == due, || format!("{name}: {question}: {reply}, due {due}"));
        }
    }
}
