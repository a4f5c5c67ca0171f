//! The table of `tests/run --worst`.

use std::io::{self, Write};
use std::time::Duration;

use super::ask::ask;
use super::asked::{asked, Effort};
use super::{Named, Worst, MEGABYTE};
use crate::model::image::BLOCK;
use crate::model::page::DEEPEST;
use crate::subject::{Call, Question};

/// The sizes of an image, in MB.
const SIZES: [usize; 3] = [1, 4, 16];
const EFFORT: Effort = Effort { times: 3, limit: Duration::from_secs(20) };

pub fn print(all: &[Named]) -> io::Result<()> {
    println!(
        "{:<13} {:>8} {:<7} {:>9} {:>7} {:>8} {:>9} {:>9}  answer",
        "image", "bytes", "call", "questions", "pages", "bound", "MB read", "ms"
    );
    for named in all {
        for megabytes in SIZES {
            let worst = (named.maker)(megabytes * MEGABYTE);
            for question in worst.questions() {
                row(named.name, &worst, &question)?;
            }
        }
    }
    Ok(())
}

fn row(name: &str, worst: &Worst, question: &Question) -> io::Result<()> {
    let (needed, work) = ask(&worst.image, question);
    let call = question.call();
    let asked = asked(&worst.image, question, EFFORT)?;
    let time = match &asked {
        Some(asked) => format!("{:.1}", asked.seconds * 1e3),
        None => format!("over {} s", EFFORT.limit.as_secs()),
    };
    let differs = asked.is_some_and(|asked| asked.answer != needed.to_string());
    let agrees = if differs { " (DIFFERS)" } else { "" };
    println!(
        "{name:<13} {:>8} {:<7} {:>9} {:>7} {:>8} {:>9.1} {time:>9}  {needed}{agrees}",
        worst.image.len(),
        call.name(),
        work.questions,
        work.pages,
        bound(call, &worst.image),
        work.bytes as f64 / 1e6,
    );
    io::stdout().flush()
}

/// How many pages a call may read at most: 16 for the map's name or root, 16 for each chunk, which is
/// located once, and the map's own.
pub fn bound(call: Call, image: &[u8]) -> u64 {
    let chunks = image.len() as u64 / BLOCK - 2;
    let metadata = DEEPEST * (chunks + 1);
    metadata
        + match call {
            Call::Find => 0,
            Call::Count => 1,
            Call::Walk => 2 * DEEPEST - 1,
            // Each page begins at a byte of its own, until a path is met again.
            Call::Examine => image.len() as u64 + DEEPEST,
            _ => DEEPEST,
        }
}
