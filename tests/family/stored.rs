//! The family as text: what the gate runs.
//!
//! ```text
//! image NAME              an image begins
//! of BASE                 it starts as that base's bytes (a base has no such line)
//! why SENTENCE
//! size BYTES              where the base's size is not kept: cut, or zeros added
//! at PLACE HEX            bytes that differ from the base, or from zeros
//! claim QUESTION          what 01 says of a case, written by hand with the case
//! ask QUESTION            what else is asked; a case lists where it differs from its base
//! is REPLY                the reply to either
//! ```

use std::fmt::Write;

use crate::build::plan::write;
use crate::model::ask::View;
use crate::subject::{Asks, Judge, MapArgs, Question, Reply};
use crate::vectors::{bytes_word, word_bytes};

use super::{Base, Case};

/// Equal bytes that do not end a run of different ones.
const BRIDGED: usize = 6;

/// A question and its reply, as text.
type Asked = (String, String);

/// An image of the stored family with all its questions and replies.
pub struct Stored {
    pub name: String,
    pub image: Vec<u8>,
    pub asked: Vec<Asked>,
}

/// The text of the family, and the hand-written claims that the model does not share.
pub fn text_of(family: &[(Base, Vec<Case>)]) -> (String, Vec<String>) {
    let mut text = String::new();
    let mut unmet = Vec::new();
    for (base, cases) in family {
        let replies = replies(base, &base.image);
        text += &format!("image {}\nwhy {}\n", base.name, base.why);
        text += &image_lines(&[], &base.image);
        text += &ask_lines("ask", &replies);
        for case in cases {
            let claimed: Vec<_> = case.claims.iter().map(|(q, _)| asked(&case.image, q)).collect();
            unmet.extend(unmet_claims(case, &claimed));
            text += &case_text(base, &replies, case, &claimed);
        }
        text.push('\n');
    }
    (text, unmet)
}

/// A case: what is claimed of it, and what else it answers differently from its base.
fn case_text(base: &Base, of_base: &[Asked], case: &Case, claimed: &[Asked]) -> String {
    let mut others = replies(base, &case.image);
    others.retain(|pair| !of_base.contains(pair) && !claimed.contains(pair));
    let head = format!("\nimage {}\nof {}\nwhy {}\n", case.name, base.name, case.why);
    let image = image_lines(&base.image, &case.image);
    [head, image, ask_lines("claim", claimed), ask_lines("ask", &others)].concat()
}

fn replies(base: &Base, image: &[u8]) -> Vec<Asked> {
    base.questions.iter().map(|question| asked(image, question)).collect()
}

fn asked(image: &[u8], question: &Question) -> Asked {
    (question.to_string(), Reply::of_model(image, question).to_string())
}

/// A claim without `;` is about the answer alone, not about what the call wrote.
fn unmet_claims(case: &Case, replies: &[Asked]) -> Vec<String> {
    let meets = |claim: &str, reply: &str| claim == reply || Some(claim) == reply.split(';').next();
    let pairs = case.claims.iter().zip(replies);
    let unmet = pairs.filter(|((_, claim), (_, reply))| !meets(claim, reply));
    unmet
        .map(|((q, claim), (_, reply))| format!("{}: {q}: {claim}, but {reply}", case.name))
        .collect()
}

fn ask_lines(word: &str, pairs: &[Asked]) -> String {
    pairs.iter().map(|(question, reply)| format!("{word} {question}\nis {reply}\n")).collect()
}

/// The size and the runs of bytes that make `image` from `base`.
fn image_lines(base: &[u8], image: &[u8]) -> String {
    let mut text = String::new();
    if base.len() != image.len() {
        writeln!(text, "size {}", image.len()).expect("a string takes every line");
    }
    let differs = |i: usize| image[i] != base.get(i).copied().unwrap_or(0);
    let mut at = 0;
    while let Some(start) = (at..image.len()).find(|&i| differs(i)) {
        let mut end = start + 1;
        while let Some(more) = (end..image.len().min(end + BRIDGED)).find(|&i| differs(i)) {
            end = more + 1;
        }
        writeln!(text, "at {start} {}", bytes_word(&image[start..end])).expect("as above");
        at = end;
    }
    text
}

/// The images of a stored text, each with its base's questions.
pub fn parse(text: &str) -> Option<Vec<Stored>> {
    let mut images: Vec<Stored> = Vec::new();
    let mut base = 0;
    for line in text.lines() {
        let (word, rest) = line.split_once(' ').unwrap_or((line, ""));
        match word {
            "" | "why" => {}
            "image" => {
                images.push(Stored { name: rest.to_string(), image: vec![], asked: vec![] });
            }
            "of" => {
                base = images.iter().position(|image| image.name == rest)?;
                let bytes = images[base].image.clone();
                images.last_mut()?.image = bytes;
            }
            _ => images.last_mut()?.take(word, rest)?,
        }
        if word == "of" {
            let of_base = images[base].asked.clone();
            images.last_mut()?.asked = of_base;
        }
    }
    Some(images)
}

impl Stored {
    /// Takes one line about this image.
    fn take(&mut self, word: &str, rest: &str) -> Option<()> {
        match word {
            "size" => self.image.resize(rest.parse().ok()?, 0),
            "at" => {
                let (place, bytes) = rest.split_once(' ')?;
                write(&mut self.image, place.parse().ok()?, &word_bytes(bytes)?);
            }
            "ask" | "claim" => match self.asked.iter().position(|(question, _)| question == rest) {
                // The reply that follows takes the place of the base's.
                Some(known) => {
                    let pair = self.asked.remove(known);
                    self.asked.push(pair);
                }
                None => self.asked.push((rest.to_string(), String::new())),
            },
            "is" => self.asked.last_mut()?.1 = rest.to_string(),
            _ => return None,
        }
        Some(())
    }

    /// Its questions.
    pub fn questions(&self) -> impl Iterator<Item = Question> + '_ {
        self.asked.iter().filter_map(|(question, _)| Question::parse(question))
    }

    /// The maps that are examined among its questions, each with its view.
    pub fn examined(&self) -> Vec<(View, MapArgs)> {
        let map = |question: Question| match question.asks {
            Asks::Examine { map } => Some((question.view, map)),
            _ => None,
        };
        self.questions().filter_map(map).collect()
    }

    /// Asks all its questions and holds the replies against the stored ones.
    pub fn check(&self, judge: &mut Judge) {
        judge.image(&self.name, &self.image, View::FIRST);
        for (question, expected) in &self.asked {
            let Some(parsed) = Question::parse(question) else {
                judge.claim(false, || format!("{}: no question: {question}", self.name));
                continue;
            };
            let reply = judge.ask(&self.image, &parsed).to_string();
            judge.claim(reply == *expected, || {
                format!("{}: {question}: stored {expected}, now {reply}", self.name)
            });
        }
    }
}
