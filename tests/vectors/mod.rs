//! Outside vectors for the leaves: questions about sums, numbers, positions, lines and keys, one a
//! line, and the model's answer to each. Another program reads the questions and must print the
//! same answers.
//!
//! A byte string is lower-case hex, `-` for none; a number is plain hex.
//!
//! | question | answer |
//! |---|---|
//! | `sum EDITION BYTES`, `fill EDITION BYTE COUNT` | the fletcher value |
//! | `words BYTE COUNT` | the same as of `fill`, in either edition, to be found a word at a time |
//! | `hex BYTES`, `digits NUMBER` | the value or `bad`; the digits as a byte string |
//! | `be WIDTH AT BYTES` | the number, 0 where the bytes do not all stand there |
//! | `var LIMIT AT BYTES` | `VALUE NEXT` or `bad` |
//! | `position NUMBER`, `make CHUNK OFFSET CODE TYPE` | taken apart; the position or `bad` |
//! | `bound CODE`, `check CHUNK OFFSET LENGTH` | most bytes or `none`; the check value |
//! | `line AREA` | `LENGTH NEWLINE` or `none` |
//! | `fields TEXT`, `right EDITION TEXT` | values or `bad`; `yes` or `no` |
//! | `key KIND AT BYTES` | `AT LENGTH NEXT` or `bad` |
//! | `wellformed KIND KEY`, `compare KIND A B` | `yes` or `no`; `less`, `equal` or `greater` |

mod answer;
mod keys;
mod lines;
mod numbers;
mod seeded;
mod sums;

pub use answer::answer;

/// All questions: chosen ones in the order of 01, then some from a seed.
pub fn questions() -> Vec<String> {
    [
        sums::questions(),
        numbers::questions(),
        lines::questions(),
        keys::questions(),
        seeded::questions(),
    ]
    .concat()
}

/// A question in both editions.
fn both(word: &str, rest: &str) -> [String; 2] {
    [1, 2].map(|edition| format!("{word} {edition} {rest}"))
}

/// A byte string as an argument.
pub fn bytes_word(bytes: &[u8]) -> String {
    if bytes.is_empty() {
        return "-".to_string();
    }
    bytes.iter().map(|byte| format!("{byte:02x}")).collect()
}

/// The byte string of an argument.
pub fn word_bytes(word: &str) -> Option<Vec<u8>> {
    if word == "-" {
        return Some(Vec::new());
    }
    let digits: Option<Vec<u8>> = word.chars().map(|c| c.to_digit(16).map(|d| d as u8)).collect();
    Some(digits?.chunks(2).map(|pair| pair[0] << 4 | pair[1]).collect())
}
