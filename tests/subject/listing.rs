//! The listing program, started anew for each image: its standard output against the model's text.

use std::io::{self, Write};
use std::path::PathBuf;
use std::process::{Command, Output, Stdio};

use super::{Answer, Call, Question, Reply, Subject};

/// The program is not asked about longer images: it reads no further, one byte past the longest
/// that it lists.
const LONGEST_ASKED: usize = 65_537;

pub struct Listing {
    pub program: PathBuf,
}

impl Subject for Listing {
    fn name(&self) -> &str {
        "listing program"
    }

    fn offers(&self, call: Call) -> bool {
        call == Call::List
    }

    fn reply(&mut self, image: &[u8], question: &Question) -> Option<Reply> {
        if !self.offers(question.call()) || image.len() > LONGEST_ASKED {
            return None;
        }
        let answer = self.run(image).map_or_else(|error| Answer::Odd(error.to_string()), text_of);
        Some(Reply { answer, area: None, state: None })
    }
}

impl Listing {
    /// The program reads all of its input before it writes, so neither waits for the other.
    fn run(&self, image: &[u8]) -> io::Result<Output> {
        let mut command = Command::new(&self.program);
        command.stdin(Stdio::piped()).stdout(Stdio::piped()).stderr(Stdio::piped());
        let mut started = command.spawn()?;
        if let Some(mut input) = started.stdin.take() {
            input.write_all(image)?;
        }
        started.wait_with_output()
    }
}

/// A listing ends with status 0 and says nothing beside its output.
fn text_of(output: Output) -> Answer {
    match String::from_utf8(output.stdout) {
        Ok(text) if output.status.success() && output.stderr.is_empty() => Answer::Text(text),
        _ => Answer::Odd(output.status.to_string()),
    }
}
