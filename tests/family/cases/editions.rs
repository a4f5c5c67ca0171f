//! 02, C-16: lines of both editions in one image, and the edition as an argument.
//!
//! A text of even length sums the same in both editions, so a line that is made even is right in
//! both: what then differs between the editions comes from the lines that a case names.

use crate::build::line::{LinePlan, Sum};
use crate::family::base::{blank_line, forked, single};
use crate::family::case::{join, Case};
use crate::family::questions::*;
use crate::family::standard::{standard, Standard, MIDDLE, NEWEST, OLD};
use crate::model::ask::View;
use crate::model::fletcher::{fletcher, Edition};
use crate::model::walk::State;
use crate::subject::Question;

const CHUNK_1: &str = "chunk 1 block 2 blocks 1 version 1";
const CHUNK_2: &str = "chunk 2 block 3 blocks 2 version 2";
const CHUNK_3: &str = "chunk 3 block 5 blocks 1 version 3";
/// Numbers that are no edition.
const NONE: [u64; 3] = [0, 3, (1 << 32) + 1];

fn second(question: Question) -> Question {
    question.under(View::SECOND)
}

/// Makes every line that has a sum even.
fn even(mut store: Standard) -> Standard {
    store.plan.headers.iter_mut().for_each(|line| line.set_odd(false));
    store.plan.chunks.iter_mut().for_each(|chunk| chunk.footer.set_odd(false));
    store
}

/// A footer that is right in edition 2 alone; in an even store it has the odd text back.
fn second_footer(store: &mut Standard, chunk: usize) {
    let footer = &mut store.plan.chunks[chunk].footer;
    footer.remove("ee");
    footer.edition = Edition::Second;
}

fn case(name: &str, why: &str, store: &Standard) -> Case {
    Case::new(name, why, store.plan.image())
}

/// Cases of the base with one file header: its sum.
pub fn header_cases() -> Vec<Case> {
    let why = "an odd last byte is the high half of a word whose low half is 0";
    let summed = |name, last: &dyn Fn(u8) -> Vec<u8>| {
        let mut store = single();
        let line = &mut store.plan.headers[0];
        let text = LinePlan { sum: Sum::None, ..line.clone() }.text();
        let (odd, whole) = text.split_last().expect("a header has a text");
        let sum = fletcher(Edition::First, &[whole, &last(*odd)].concat());
        line.sum = Sum::Xor(fletcher(Edition::First, &text) ^ sum);
        case(name, why, &store)
    };
    vec![
        summed("header-odd-byte-high", &|odd| vec![odd, 0])
            .says(open(), "refused 3")
            .says(second(open()), "refused 4"),
        summed("header-odd-byte-low", &|odd| vec![0, odd]).refuses(vec![open(), second(open())], 3),
        summed("header-odd-byte-before-the-comma", &|odd| vec![odd, b','])
            .refuses(vec![open(), second(open())], 3),
        summed("header-odd-byte-before-the-newline", &|odd| vec![odd, b'\n'])
            .refuses(vec![open(), second(open())], 3),
        summed("header-odd-byte-twice", &|odd| vec![odd, odd])
            .refuses(vec![open(), second(open())], 3),
    ]
}

/// Cases of the base in which no chunk leads to another: opening.
pub fn opening_cases() -> Vec<Case> {
    join(vec![copies(), starts(), ends(), chain()])
}

/// One copy of each edition: each edition sees its own alone.
fn copies() -> Vec<Case> {
    let why = "every line in that image is judged by the edition";
    let of = |name, first: Edition| {
        let mut store = even(forked());
        for (copy, chunk, edition) in [(0, OLD, first), (1, MIDDLE, first.other())] {
            store.plan.name_chunk_in(copy, chunk);
            store.plan.headers[copy].remove("ee");
            store.plan.headers[copy].edition = edition;
        }
        case(name, why, &store)
    };
    let mut apart = forked();
    apart.plan.name_chunk_in(0, NEWEST);
    apart.plan.name_chunk_in(1, OLD);
    apart.plan.headers[1].edition = Edition::Second;
    second_footer(&mut apart, OLD);
    vec![
        of("copies-of-both-editions", Edition::First)
            .says(open(), CHUNK_1)
            .says(second(open()), CHUNK_2),
        of("copies-of-both-editions-swapped", Edition::Second)
            .says(open(), CHUNK_2)
            .says(second(open()), CHUNK_1),
        case("copies-and-chunks-of-both-editions", why, &apart)
            .says(open(), CHUNK_3)
            .says(second(open()), CHUNK_1),
    ]
}

/// The header's chunk.
fn starts() -> Vec<Case> {
    let why = "a chunk stands by its footer, which the edition judges too";
    let mut footer = even(forked());
    second_footer(&mut footer, NEWEST);
    let mut headers = forked();
    headers.plan.headers.iter_mut().for_each(|line| line.edition = Edition::Second);
    let mut footers = forked();
    (0..=NEWEST).for_each(|chunk| second_footer(&mut footers, chunk));
    let calls = || [every_call(), vec![open()]].concat();
    vec![
        case("start-of-the-other-edition", why, &footer)
            .refuses(calls(), 4)
            .says(second(open()), CHUNK_3),
        case("headers-of-the-other-edition", why, &headers)
            .refuses(calls(), 3)
            .refuses(under(2, calls()), 4),
        case("footers-of-the-other-edition", why, &footers)
            .refuses(calls(), 4)
            .refuses(under(2, calls()), 3),
    ]
}

/// The footer that ends the image.
fn ends() -> Vec<Case> {
    let why = "the image's last 128 bytes are a footer by the edition";
    let mut alone = even(forked());
    alone.plan.blocks -= 1;
    second_footer(&mut alone, NEWEST);
    let mut beside = even(forked());
    beside.plan.blocks -= 1;
    second_footer(&mut beside, NEWEST);
    beside.plan.name_chunk(OLD);
    for name in ["block", "chunk", "version"] {
        alone.plan.headers.iter_mut().for_each(|line| line.remove(name));
    }
    for line in &mut alone.plan.headers {
        line.remove("ee");
        line.set_odd(false);
    }
    vec![
        case("last-footer-of-the-other-edition", why, &alone)
            .refuses(vec![open()], 4)
            .says(second(open()), CHUNK_3),
        case("last-footer-of-the-other-edition-beside-a-header", why, &beside)
            .says(open(), CHUNK_1)
            .says(second(open()), CHUNK_3),
    ]
}

/// The chain ends before a chunk that stands in the other edition alone.
fn chain() -> Vec<Case> {
    let why = "while a chunk stands at next, by the edition";
    let linked = |name, chunk: usize| {
        let mut store = even(forked());
        store.plan.name_chunk(OLD);
        store.plan.chunks[OLD].header.set("next", 3);
        store.plan.chunks[MIDDLE].header.set("next", 5);
        second_footer(&mut store, chunk);
        case(name, why, &store).says(second(open()), CHUNK_3)
    };
    vec![
        linked("next-of-the-other-edition", MIDDLE).says(open(), CHUNK_1),
        linked("next-but-one-of-the-other-edition", NEWEST).says(open(), CHUNK_2),
    ]
}

/// Cases of the standard store: a chunk located later, whole stores, and the edition as an argument.
pub fn standard_cases() -> Vec<Case> {
    join(vec![located(), whole(), arguments()])
}

fn located() -> Vec<Case> {
    let why = "the footer of a chunk that is located is judged by the edition";
    let mut store = even(standard());
    second_footer(&mut store, OLD);
    vec![case("located-chunk-of-the-other-edition", why, &store)
        .refuses(page_calls(7, 3, &[1, 0]), 5)
        .says(count(), "count 6")
        .says(second(examine()), "report 6 4 2")
        .says(second(lookup(7)), "value 8470 0")]
}

fn whole() -> Vec<Case> {
    let calls = || [every_call(), vec![open()]].concat();
    let mut other = standard();
    other.plan.set_edition(Edition::Second);
    let mut unsummed = even(standard());
    for chunk in &mut unsummed.plan.chunks {
        chunk.header.set("fletcher", 1);
    }
    unsummed.set_metadata("chunk.1", "block:2,fletcher:1");
    let answers = |case: Case, view| {
        let answers = [(open(), CHUNK_3), (find("forces"), "id 1"), (count(), "count 6")];
        let more = [(examine(), "report 6 4 2"), (lookup(7), "value 8470 0")];
        let step = (walk(&[0, 0]), "entry -1 8403 24; state 2 0 0,1");
        let all = answers.into_iter().chain(more).chain([step]);
        all.fold(case, |case, (question, answer)| case.says(question.under(view), answer))
    };
    let both = |case| answers(answers(case, View::FIRST), View::SECOND);
    let even_why = "text of even length sums the same in both";
    let other = case("store-of-the-other-edition", "every line in that image", &other);
    vec![
        both(case("every-text-even", even_why, &even(standard()))),
        both(case("chunk-lines-have-no-sum", "file headers and footers end with it", &unsummed)),
        answers(other.refuses(calls(), 3), View::SECOND),
    ]
}

/// "edition not 1 or 2 is 1", and "arguments come first, then opening, then the map".
fn arguments() -> Vec<Case> {
    let why = "arguments come first, then opening, then the map";
    let refused = |name, number: u8, edit: &dyn Fn(&mut Standard)| {
        let calls = || [every_call(), vec![open()]].concat();
        let case = Case::standard(name, why, edit).refuses(every_call(), number);
        NONE.into_iter().fold(case, |case, edition| case.refuses(under(edition, calls()), 1))
    };
    let blank = |s: &mut Standard| s.plan.headers = vec![blank_line(), blank_line()];
    vec![
        refused("edition-before-size", 2, &|s| s.plan.blocks = 2),
        refused("edition-before-header", 3, &blank),
        refused("edition-before-start", 4, &|s| s.plan.chunks[NEWEST].header.remove("pages")),
        refused("edition-before-the-map", 8, &|s| s.plan.page(s.metadata).check_xor = 1),
        recorded(),
    ]
}

/// A walk's recorded answer comes before the edition; the edition's own refusal is recorded too.
fn recorded() -> Case {
    let why = "a refusal is recorded and given again before anything is judged";
    let state = |last| State { last, ..state(&[1, 5]) };
    let case = Case::standard("edition-after-a-recorded-answer", why, &|_| {});
    NONE.into_iter().chain([2]).fold(case, |case, edition| {
        let view = View { edition };
        let from = |last| walk_from(FORCES, state(last)).under(view);
        let fresh = walk(&[]).under(view);
        let number = if edition == 2 { 3 } else { 1 };
        case.says(from(8), "refused 8; state 2 8 1,5")
            .says(from(255), "done; state 2 255 1,5")
            .says(fresh, &format!("refused {number}; state 0 {number} -"))
    })
}
