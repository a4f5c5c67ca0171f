//! `lookups DIR` writes images and questions about them to DIR/stdin and what the model answers to
//! DIR/stdout; `lookups DIR --check` compares instead.

use std::collections::BTreeSet;
use std::process::ExitCode;
use std::{env, io};

use vihtumora_tests::exchange::Exchange;
use vihtumora_tests::lookups::{images, Asked};

/// What the program takes.
const MOST_BYTES: usize = 1_000_000;
/// The refusals that these questions can meet.
const REACHED: [u8; 13] = [1, 2, 3, 4, 5, 6, 7, 8, 9, 10, 11, 13, 14];

fn main() -> io::Result<ExitCode> {
    let arguments: Vec<String> = env::args().collect();
    let directory = arguments.get(1).expect("usage: lookups DIR [--check]");
    let images = images()?;
    assert!(images.iter().all(|image| !image.name.contains(' ')), "a name is not one word");
    let stdin: String = images.iter().map(Asked::question).collect();
    let stdout: String = images.iter().map(Asked::answer).collect();
    let questions: usize = images.iter().map(|image| image.asked.len()).sum();
    println!("lookups: {} images, {questions} questions, {} bytes", images.len(), stdin.len());
    assert!(stdin.len() <= MOST_BYTES, "the images take {} bytes", stdin.len());
    let answers: BTreeSet<&str> = stdout.lines().collect();
    for number in REACHED {
        let answer = format!("refused {number}");
        assert!(answers.contains(answer.as_str()), "no question is {answer}");
    }
    let good = Exchange { stdin, stdout }.keep(directory, arguments.get(2))?;
    Ok(if good { ExitCode::SUCCESS } else { ExitCode::FAILURE })
}
