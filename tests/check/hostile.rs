//! Stores in which locating is hard: without a memory of what was located each answer would take
//! very many pages. Below the ninth question all is found, with it nothing is.

use crate::family::questions::*;
use crate::lookups::{hostile, Path};
use crate::model::ask::View;
use crate::subject::{Judge, Question};

pub fn check(judge: &mut Judge) {
    for chunks in [7, 8, 9] {
        for (name, path) in [("level", Path::Level), ("rising", Path::Rising)] {
            let image = hostile(chunks, path);
            judge.image(&format!("hostile, {chunks} chunks, {name}"), &image, View::FIRST);
            questions(chunks).iter().for_each(|question| {
                judge.ask(&image, question);
            });
            let due = if chunks < 9 { "count 2" } else { "refused 6" };
            let counted = judge.ask(&image, &count()).to_string();
            judge.claim(counted == due, || format!("hostile, {chunks} chunks: {counted}"));
        }
    }
}

fn questions(chunks: u64) -> Vec<Question> {
    let metadata_entries = chunks + 3;
    let mut all = every_call();
    all.extend([find(&"x".repeat(1000)), find("nothing"), lookup(3), lookup(4), copy(4, 24)]);
    all.extend((0..3).map(index));
    all.extend([walk(&[0]), walk(&[1]), count_of(METADATA), examine_of(METADATA)]);
    all.extend((1..=chunks + 1).map(|chunk| lookup_text(METADATA, &format!("chunk.{chunk:x}"))));
    all.extend((0..=metadata_entries).map(|at| index_in(METADATA, at)));
    all
}
