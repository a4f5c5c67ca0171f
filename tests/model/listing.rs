//! "A listing, whole": "A program reads an image from standard input, examines map `forces`,
//! kind 0, and lists it in decimal: key, then value length, or only the line `refused N`."

use std::fmt::Write;

use super::ask::{examine, find, map, open, View};
use super::index::{Entry, GivenKey};
use super::reached::reached;
use super::refusal::{Outcome, IMAGE_SIZE};

/// "program input over 65,536 bytes" is refused with 2.
pub const LONGEST_INPUT: usize = 65_536;
const NAME: &[u8] = b"forces";
const KIND: u64 = 0;
/// 02, C-16: "The listing program stays with edition 1".
const VIEW: View = View::FIRST;

/// What the program prints.
pub fn listing(input: &[u8]) -> String {
    listed(input).unwrap_or_else(|refusal| format!("refused {}\n", refusal.0))
}

fn listed(input: &[u8]) -> Outcome<String> {
    if input.len() > LONGEST_INPUT {
        return Err(IMAGE_SIZE);
    }
    let chunk = open(input, VIEW)?;
    let id = find(input, VIEW, NAME)?;
    let report = examine(input, VIEW, id, KIND)?;
    let mut text = format!("chunk {} block {} version {}\n", chunk.id, chunk.block, chunk.version);
    text += &format!(
        "map {id} entries {} pages {} depth {}\n",
        report.entries, report.pages, report.depth
    );
    let (store, map) = map(input, VIEW, id, KIND)?;
    for entry in reached(&store, &map).entry_list() {
        entry_line(&mut text, &entry);
    }
    Ok(text)
}

fn entry_line(text: &mut String, entry: &Entry) {
    if let GivenKey::Number(number) = entry.key {
        writeln!(text, "{number} {}", entry.value.length).expect("a string takes every line");
    }
}
