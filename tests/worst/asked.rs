//! A question put to the exports in a process of its own, which is ended after a limit. The image
//! goes over its standard input; it answers with its time.

use std::env;
use std::io::{self, Read, Write};
use std::process::{Command, Stdio};
use std::thread::sleep;
use std::time::{Duration, Instant};

use crate::bench::processor_seconds;
use crate::subject::exports::Exports;
use crate::subject::{Question, Subject};

/// A call that takes longer, in seconds, is not asked again.
const LONG: f64 = 3.0;

/// The processor time of the best call; the answer, and the reply with all that was written.
pub struct Asked {
    pub seconds: f64,
    pub answer: String,
    pub reply: String,
}

/// How often a call is asked, for the best time, and how long that may take.
#[derive(Clone, Copy)]
pub struct Effort {
    pub times: usize,
    pub limit: Duration,
}

/// None where it takes longer than the limit.
pub fn asked(image: &[u8], question: &Question, effort: Effort) -> io::Result<Option<Asked>> {
    let mut command = Command::new(env::current_exe()?);
    command.args(["--ask", &effort.times.to_string(), &question.to_string()]);
    command.stdin(Stdio::piped()).stdout(Stdio::piped());
    let mut child = command.spawn()?;
    if let Some(mut input) = child.stdin.take() {
        input.write_all(image)?;
    }
    let start = Instant::now();
    while child.try_wait()?.is_none() {
        if start.elapsed() > effort.limit {
            child.kill()?;
            child.wait()?;
            return Ok(None);
        }
        sleep(Duration::from_millis(1));
    }
    let output = child.wait_with_output()?;
    let text = String::from_utf8_lossy(&output.stdout).into_owned();
    let odd = || Asked { seconds: 0.0, answer: output.status.to_string(), reply: String::new() };
    Ok(Some(said(text.trim_end()).unwrap_or_else(odd)))
}

fn said(text: &str) -> Option<Asked> {
    let (seconds, reply) = text.split_once(' ')?;
    let answer = reply.split("; ").next()?.to_string();
    Some(Asked { seconds: seconds.parse().ok()?, answer, reply: reply.to_string() })
}

/// What the process does.
pub fn answer(times: &str, question: &str) -> io::Result<()> {
    let times: usize = times.parse().expect("how often to ask");
    let question = Question::parse(question).expect("a question");
    let mut image = Vec::new();
    io::stdin().read_to_end(&mut image)?;
    let mut best = f64::MAX;
    let mut reply = None;
    for _ in 0..times {
        let start = processor_seconds();
        reply = Exports.reply(&image, &question);
        best = best.min(processor_seconds() - start);
        if best > LONG {
            break;
        }
    }
    println!("{best} {}", reply.expect("the exports offer every call"));
    Ok(())
}
