//! A question and the model's answer.

use std::fmt;

use crate::model::ask::{self, View};
use crate::model::chunk::Chunk;
use crate::model::key::Kind;
use crate::model::locate::{Store, QUESTIONS};
use crate::model::map::{map_of, Map};
use crate::model::page::{read, Body};
use crate::model::refusal::Outcome;
use crate::vectors::bytes_word;

#[derive(Clone, Debug, PartialEq, Eq, PartialOrd, Ord)]
pub enum Question {
    Open,
    Map { name: Vec<u8> },
    Root { id: u64 },
    Chunk { id: u64 },
    Page { position: u64, map: u64, kind: u64 },
}

impl Question {
    /// The model's answer.
    pub fn answer(&self, image: &[u8], view: View) -> String {
        self.outcome(image, view).unwrap_or_else(|refusal| format!("refused {}", refusal.0))
    }

    fn outcome(&self, image: &[u8], view: View) -> Outcome<String> {
        match self {
            Question::Open => {
                let Chunk { id, block, version, .. } = ask::open(image, view)?;
                Ok(format!("chunk {id} block {block} version {version}"))
            }
            Question::Map { name } => Ok(format!("id {}", ask::find(image, view, name)?)),
            Question::Root { id } => {
                let map = map_of(&opened(image, view)?, *id, Kind::Text)?;
                Ok(format!("root {}", map.root))
            }
            Question::Chunk { id } => {
                let chunk = opened(image, view)?.locate(*id, QUESTIONS)?;
                Ok(format!("block {}", chunk.block))
            }
            Question::Page { position, map, kind } => {
                page(&opened(image, view)?, *position, *map, *kind)
            }
        }
    }
}

fn opened(image: &[u8], view: View) -> Outcome<Store<'_>> {
    Store::open(image, view.judge()?)
}

/// A page as the root of a map, and how many keys it has.
fn page(store: &Store, position: u64, map: u64, kind: u64) -> Outcome<String> {
    let map = Map { id: map, kind: Kind::of(kind)?, root: position };
    let page = read(store, &map, position, 1, QUESTIONS)?;
    let name = match page.body {
        Body::Leaf(_) => "leaf",
        Body::Inner(_) => "inner",
    };
    Ok(format!("{name} {}", page.keys.len()))
}

impl fmt::Display for Question {
    fn fmt(&self, f: &mut fmt::Formatter) -> fmt::Result {
        match self {
            Question::Open => write!(f, "open"),
            Question::Map { name } => write!(f, "map {}", bytes_word(name)),
            Question::Root { id } => write!(f, "root {id}"),
            Question::Chunk { id } => write!(f, "chunk {id}"),
            Question::Page { position, map, kind } => write!(f, "page {position} {map} {kind}"),
        }
    }
}
