//! What a call gives back, and the model's own reply to each question.

use std::fmt;

use super::question::{state_words, Asks, MapArgs, Question};
use super::AREA_FILL;
use crate::model::ask::{self, View};
use crate::model::examine::Report;
use crate::model::image::Span;
use crate::model::index::{Entry, GivenKey};
use crate::model::listing::listing;
use crate::model::refusal::{Outcome, Refusal};
use crate::model::walk::{State, Step};
use crate::vectors::bytes_word;

/// `Odd` is what 01 gives in no case, as it came.
#[derive(Clone, Debug, PartialEq, Eq)]
pub enum Answer {
    Chunk { id: u64, block: u64, blocks: u64, version: u64 },
    Id(u64),
    Absent,
    Value(Span),
    Entry(Entry),
    Done,
    Count(u64),
    Report(Report),
    Text(String),
    Refused(Refusal),
    Odd(String),
}

/// The answer, and what the call wrote: a copy's whole area, a walk's state.
#[derive(Clone, Debug, PartialEq, Eq)]
pub struct Reply {
    pub answer: Answer,
    pub area: Option<Vec<u8>>,
    pub state: Option<State>,
}

impl Reply {
    /// The model's reply.
    pub fn of_model(image: &[u8], question: &Question) -> Reply {
        let view = question.view;
        let answer = match &question.asks {
            Asks::Open => given(ask::open(image, view), |chunk| Answer::Chunk {
                id: chunk.id,
                block: chunk.block,
                blocks: chunk.len,
                version: chunk.version,
            }),
            Asks::Find { name } => given(ask::find(image, view, name), Answer::Id),
            Asks::Lookup { map, key } => {
                given(ask::lookup(image, view, map.id, map.kind, key), value_or_absent)
            }
            Asks::Index { map, at } => {
                given(ask::index(image, view, map.id, map.kind, *at), Answer::Entry)
            }
            Asks::Count { map } => given(ask::count(image, view, map.id, map.kind), Answer::Count),
            Asks::Copy { map, key, area } => return copied(image, view, map, key, *area),
            Asks::Walk { map, state } => return walked(image, view, map, *state),
            Asks::Examine { map } => {
                given(ask::examine(image, view, map.id, map.kind), Answer::Report)
            }
            Asks::List => Answer::Text(listing(image)),
        };
        Reply { answer, area: None, state: None }
    }

    /// The number of a refusal.
    pub fn refusal(&self) -> Option<u8> {
        match self.answer {
            Answer::Refused(refusal) => Some(refusal.0),
            _ => None,
        }
    }
}

fn given<T>(outcome: Outcome<T>, answer: impl FnOnce(T) -> Answer) -> Answer {
    outcome.map_or_else(Answer::Refused, answer)
}

fn value_or_absent(value: Option<Span>) -> Answer {
    value.map_or(Answer::Absent, Answer::Value)
}

fn copied(image: &[u8], view: View, map: &MapArgs, key: &[u8], length: usize) -> Reply {
    let mut area = vec![AREA_FILL; length];
    let outcome = ask::copy(image, view, map.id, map.kind, key, &mut area);
    Reply { answer: given(outcome, value_or_absent), area: Some(area), state: None }
}

fn walked(image: &[u8], view: View, map: &MapArgs, mut state: State) -> Reply {
    let outcome = ask::walk(image, view, map.id, map.kind, &mut state);
    let answer = given(outcome, |step| match step {
        Step::Yield(entry) => Answer::Entry(entry),
        Step::Done => Answer::Done,
    });
    Reply { answer, area: None, state: Some(state) }
}

impl fmt::Display for Reply {
    fn fmt(&self, f: &mut fmt::Formatter) -> fmt::Result {
        write!(f, "{}", self.answer)?;
        if let Some(area) = &self.area {
            write!(f, "; area {}", bytes_word(area))?;
        }
        if let Some(state) = &self.state {
            write!(f, "; state {}", state_words(state))?;
        }
        Ok(())
    }
}

impl fmt::Display for Answer {
    fn fmt(&self, f: &mut fmt::Formatter) -> fmt::Result {
        match self {
            Answer::Chunk { id, block, blocks, version } => {
                write!(f, "chunk {id} block {block} blocks {blocks} version {version}")
            }
            Answer::Id(id) => write!(f, "id {id}"),
            Answer::Absent => write!(f, "absent"),
            Answer::Value(value) => write!(f, "value {} {}", value.at, value.length),
            Answer::Entry(entry) => entry_words(entry, f),
            Answer::Done => write!(f, "done"),
            Answer::Count(count) => write!(f, "count {count}"),
            Answer::Report(r) => write!(f, "report {} {} {}", r.entries, r.pages, r.depth),
            Answer::Text(text) => write!(f, "text {}", text.trim_end().replace('\n', " | ")),
            Answer::Refused(refusal) => write!(f, "refused {}", refusal.0),
            Answer::Odd(raw) => write!(f, "odd {raw}"),
        }
    }
}

/// `entry KEY AT LENGTH`; a text key is `AT+LENGTH`.
fn entry_words(entry: &Entry, f: &mut fmt::Formatter) -> fmt::Result {
    match entry.key {
        GivenKey::Number(number) => write!(f, "entry {number}")?,
        GivenKey::Text(place) => write!(f, "entry {}+{}", place.at, place.length)?,
    }
    write!(f, " {} {}", entry.value.at, entry.value.length)
}
