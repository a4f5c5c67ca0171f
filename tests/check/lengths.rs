//! The listing where its input ends: the standard store, cut, or with zeros behind it.

use crate::family::base::standard_base;
use crate::family::questions::list;
use crate::model::ask::View;
use crate::model::listing::{listing, LONGEST_INPUT};
use crate::subject::{Answer, Judge};

const SHORTEST: usize = 3 * 4096;

pub fn check(judge: &mut Judge) {
    let store = standard_base().image;
    let whole = listing(&store);
    judge.claim(whole.starts_with("chunk "), || format!("the standard store: {whole}"));
    let refused = [0, 1, SHORTEST - 1, LONGEST_INPUT + 1].map(|length| (length, "refused 2\n"));
    let listed = [store.len() + 1, LONGEST_INPUT - 1, LONGEST_INPUT].map(|l| (l, whole.as_str()));
    for (length, due) in refused.into_iter().chain(listed) {
        let mut image = store.clone();
        image.resize(length, 0);
        judge.image(&format!("the standard store, {length} bytes"), &image, View::FIRST);
        let reply = judge.ask(&image, &list());
        let same = reply.answer == Answer::Text(due.to_string());
        judge.claim(same, || format!("the standard store, {length} bytes: {reply}"));
    }
}
