//! `vectors DIR` writes the questions about the leaves to DIR/stdin and the model's answers to
//! DIR/stdout; `vectors DIR --check` compares instead.

use std::process::ExitCode;
use std::{env, io};

use vihtumora_tests::exchange::Exchange;
use vihtumora_tests::vectors::{answer, questions};

/// What the reading program takes.
const LONGEST_QUESTION: usize = 4_000;
const MOST_BYTES: usize = 60_000;

fn main() -> io::Result<ExitCode> {
    let arguments: Vec<String> = env::args().collect();
    let directory = arguments.get(1).expect("usage: vectors DIR [--check]");
    let questions = questions();
    let answers: Vec<String> = questions.iter().map(|q| checked_answer(q)).collect();
    let (stdin, stdout) = (lines(&questions), lines(&answers));
    assert!(stdin.len() <= MOST_BYTES, "the questions take {} bytes", stdin.len());
    println!("vectors: {} questions, {} bytes", questions.len(), stdin.len());
    let good = Exchange { stdin, stdout }.keep(directory, arguments.get(2))?;
    Ok(if good { ExitCode::SUCCESS } else { ExitCode::FAILURE })
}

fn checked_answer(question: &str) -> String {
    assert!(question.len() <= LONGEST_QUESTION, "too long: {question}");
    answer(question).unwrap_or_else(|| panic!("no question: {question}"))
}

fn lines(lines: &[String]) -> String {
    lines.iter().map(|line| format!("{line}\n")).collect()
}
