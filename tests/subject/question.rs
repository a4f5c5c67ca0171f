//! Questions about an image, and their text form.
//!
//! `open`, `find NAME`, `lookup ID KIND KEY`, `index ID KIND AT`, `count ID KIND`,
//! `copy ID KIND KEY AREA`, `walk ID KIND DEPTH LAST PLACES`, `examine ID KIND`, `list`: numbers in
//! decimal, names and keys in hex (`-` for none), places joined by commas, trailing zeros left off.
//! Under another edition than 1 the words `in EDITION` stand before it; a listing has no edition.

use std::fmt;

use crate::model::ask::View;
use crate::model::walk::{State, PLACES};
use crate::vectors::{bytes_word, word_bytes};

/// The calls, as the table of refusals names them; `List` is the program.
#[derive(Clone, Copy, Debug, PartialEq, Eq, PartialOrd, Ord)]
pub enum Call {
    Find,
    Lookup,
    Index,
    Count,
    Copy,
    Walk,
    Examine,
    Open,
    List,
}

impl Call {
    /// Its word in a question.
    pub fn name(self) -> String {
        format!("{self:?}").to_lowercase()
    }
}

#[derive(Clone, Copy, Debug, PartialEq, Eq)]
pub struct MapArgs {
    pub id: u64,
    pub kind: u64,
}

/// What is asked, and the view under which the image is opened for it.
#[derive(Clone, Debug, PartialEq, Eq)]
pub struct Question {
    pub view: View,
    pub asks: Asks,
}

#[derive(Clone, Debug, PartialEq, Eq)]
pub enum Asks {
    Open,
    Find { name: Vec<u8> },
    Lookup { map: MapArgs, key: Vec<u8> },
    Index { map: MapArgs, at: u64 },
    Count { map: MapArgs },
    Copy { map: MapArgs, key: Vec<u8>, area: usize },
    Walk { map: MapArgs, state: State },
    Examine { map: MapArgs },
    List,
}

/// The word before an edition.
const IN: &str = "in ";

impl Question {
    pub fn call(&self) -> Call {
        self.asks.call()
    }

    /// The same under another view.
    pub fn under(self, view: View) -> Question {
        Question { view, ..self }
    }

    /// The question of a text.
    pub fn parse(text: &str) -> Option<Question> {
        let Some(rest) = text.strip_prefix(IN) else {
            return Some(Asks::parse(text)?.under(View::FIRST));
        };
        let (edition, asks) = rest.split_once(' ')?;
        let view = View { edition: edition.parse().ok()? };
        Asks::parse(asks).filter(|asks| *asks != Asks::List).map(|asks| asks.under(view))
    }
}

impl fmt::Display for Question {
    fn fmt(&self, f: &mut fmt::Formatter) -> fmt::Result {
        if self.view != View::FIRST && self.asks != Asks::List {
            write!(f, "{IN}{} ", self.view.edition)?;
        }
        write!(f, "{}", self.asks)
    }
}

impl Asks {
    pub fn under(self, view: View) -> Question {
        Question { view, asks: self }
    }

    pub fn call(&self) -> Call {
        match self {
            Asks::Open => Call::Open,
            Asks::Find { .. } => Call::Find,
            Asks::Lookup { .. } => Call::Lookup,
            Asks::Index { .. } => Call::Index,
            Asks::Count { .. } => Call::Count,
            Asks::Copy { .. } => Call::Copy,
            Asks::Walk { .. } => Call::Walk,
            Asks::Examine { .. } => Call::Examine,
            Asks::List => Call::List,
        }
    }

    fn parse(text: &str) -> Option<Asks> {
        let words: Vec<&str> = text.split(' ').collect();
        let number = |i: usize| words.get(i)?.parse::<u64>().ok();
        let bytes = |i: usize| word_bytes(words.get(i)?);
        let map = || Some(MapArgs { id: number(1)?, kind: number(2)? });
        Some(match words[0] {
            "open" => Asks::Open,
            "list" => Asks::List,
            "find" => Asks::Find { name: bytes(1)? },
            "lookup" => Asks::Lookup { map: map()?, key: bytes(3)? },
            "index" => Asks::Index { map: map()?, at: number(3)? },
            "count" => Asks::Count { map: map()? },
            "copy" => Asks::Copy { map: map()?, key: bytes(3)?, area: number(4)? as usize },
            "walk" => Asks::Walk { map: map()?, state: state_of(&words[3..])? },
            "examine" => Asks::Examine { map: map()? },
            _ => return None,
        })
    }
}

impl fmt::Display for Asks {
    fn fmt(&self, f: &mut fmt::Formatter) -> fmt::Result {
        match self {
            Asks::Open => write!(f, "open"),
            Asks::List => write!(f, "list"),
            Asks::Find { name } => write!(f, "find {}", bytes_word(name)),
            Asks::Lookup { map, key } => write!(f, "lookup {map} {}", bytes_word(key)),
            Asks::Index { map, at } => write!(f, "index {map} {at}"),
            Asks::Count { map } => write!(f, "count {map}"),
            Asks::Copy { map, key, area } => {
                write!(f, "copy {map} {} {area}", bytes_word(key))
            }
            Asks::Walk { map, state } => write!(f, "walk {map} {}", state_words(state)),
            Asks::Examine { map } => write!(f, "examine {map}"),
        }
    }
}

impl fmt::Display for MapArgs {
    fn fmt(&self, f: &mut fmt::Formatter) -> fmt::Result {
        write!(f, "{} {}", self.id, self.kind)
    }
}

/// A state as `DEPTH LAST PLACES`.
pub fn state_words(state: &State) -> String {
    let used = PLACES - state.places.iter().rev().take_while(|&&place| place == 0).count();
    let places: Vec<String> = state.places[..used].iter().map(u64::to_string).collect();
    let places = if used == 0 { "-".to_string() } else { places.join(",") };
    format!("{} {} {places}", state.depth, state.last)
}

fn state_of(words: &[&str]) -> Option<State> {
    let [depth, last, listed] = words else {
        return None;
    };
    let mut places = [0; PLACES];
    if *listed != "-" {
        for (place, word) in places.iter_mut().zip(listed.split(',')) {
            *place = word.parse().ok()?;
        }
    }
    Some(State { places, depth: depth.parse().ok()?, last: last.parse().ok()? })
}
