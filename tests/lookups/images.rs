//! The images and their questions: the stored family, hostile stores, stores that H2 wrote, and
//! sizes. Under edition 2 the images that are about editions, the bases resummed, and H2's stores as
//! it wrote them.

use std::collections::BTreeSet;
use std::fmt::Write;
use std::{fs, io};

use super::choice::{questions, Names};
use super::hostile::{hostile, Path};
use super::sparse::sparse;
use super::Question;
use crate::build::resummed::resummed;
use crate::check::stores;
use crate::family::tiny::tiny_with;
use crate::family::{self, Base, Case};
use crate::model::ask::View;
use crate::model::image::BLOCK;
use crate::vectors::bytes_word;

/// The most blocks of an image.
const MOST_BLOCKS: u64 = 140;
/// Equal bytes that do not end a run of different ones.
const BRIDGED: usize = 8;
/// The most bytes that are put by one line.
const LONGEST_PUT: usize = 4096;

/// An image by the lines that make it, and its questions with the model's answers, each under its
/// view.
pub struct Asked {
    pub name: String,
    pub made: String,
    pub asked: Vec<(View, Question, String)>,
}

/// Numbers that are no edition.
const NONE: [u64; 3] = [0, 3, (1 << 32) + 1];

/// The stores of H2 that take few bytes; the others are only opened.
const SMALL: [&str; 2] = ["bridge", "mixed"];
/// The sizes that are only opened, in blocks.
const SIZES: [u64; 7] = [0, 1, 2, 3, 4, 139, 140];

/// All images that fit.
pub fn images() -> io::Result<Vec<Asked>> {
    let family = family::all().into_iter().flat_map(|(base, cases)| of_base(&base, &cases));
    let sizes = SIZES.into_iter().map(sized);
    Ok(family.chain(hostile_stores()).chain(real()?).chain(sizes).collect())
}

fn hostile_stores() -> Vec<Asked> {
    let of = |chunks| {
        let store =
            |name, path| whole(&format!("{name}-{chunks}"), &hostile(chunks, path), View::FIRST);
        [store("level", Path::Level), store("rising", Path::Rising)]
    };
    [7, 8, 9].into_iter().flat_map(of).collect()
}

/// The stores that H2 wrote, each with the sums of edition 1, and then as it is.
fn real() -> io::Result<Vec<Asked>> {
    let of = |name: &&str| {
        let asked = if SMALL.contains(name) { whole } else { opened };
        let (base, own) = (fs::read(stores::base(name))?, fs::read(stores::own(name))?);
        let mut first = asked(&format!("h2-{name}"), &base, View::FIRST);
        first.made += KEEP;
        let mut second = asked(&format!("h2-{name}-own"), &own, View::SECOND);
        let kept: fn(&[u8]) -> Vec<u8> = if SMALL.contains(name) { <[u8]>::to_vec } else { sparse };
        second.made = like(&second.name, &kept(&base), &kept(&own));
        second.ask(&own, View::FIRST, Question::Open);
        Ok([first, second])
    };
    let pairs: io::Result<Vec<[Asked; 2]>> = stores::NAMES.iter().map(of).collect();
    Ok(pairs?.into_iter().flatten().collect())
}

/// One chunk that fills the image after the file headers, where it has room for one.
fn sized(blocks: u64) -> Asked {
    let mut image = tiny_with(159, blocks.max(3) - 2).image();
    image.truncate((blocks * BLOCK) as usize);
    opened(&format!("size-{blocks}"), &image, View::FIRST)
}

fn fits(image: &[u8]) -> bool {
    image.len() as u64 <= MOST_BLOCKS * BLOCK
}

/// A base and its cases, and the base resummed.
fn of_base(base: &Base, cases: &[Case]) -> Vec<Asked> {
    if !fits(&base.image) {
        return Vec::new();
    }
    let names = Names::of(&base.image, View::FIRST);
    let cases = cases.iter().filter(|case| fits(&case.image));
    let mut all = vec![whole(base.name, &base.image, View::FIRST)];
    all[0].made += KEEP;
    all.extend(cases.map(|case| of_case(base, &names, case)));
    all.push(of_resummed(base));
    all
}

/// The base with its sums in the other edition.
fn of_resummed(base: &Base) -> Asked {
    let name = format!("{}-resummed", base.name);
    let image = resummed(&base.image);
    let made = like(&name, &base.image, &image);
    let mut asked = Asked::new(&name, made, &image, View::SECOND, &Names::of(&image, View::SECOND));
    for edition in [1].into_iter().chain(NONE) {
        asked.ask(&image, View { edition }, Question::Open);
    }
    asked
}

/// An image from zeros.
fn whole(name: &str, image: &[u8], view: View) -> Asked {
    Asked::new(name, from_zeros(name, image), image, view, &Names::of(image, view))
}

/// An image that is only opened, without what opening can't look at; it opens as the whole one does.
fn opened(name: &str, image: &[u8], view: View) -> Asked {
    assert!(fits(image), "too large: {name}");
    let cut_down = sparse(image);
    let mut asked =
        Asked { name: name.to_string(), made: from_zeros(name, &cut_down), asked: vec![] };
    asked.ask(&cut_down, view, Question::Open);
    let answer = Question::Open.answer(image, view);
    assert_eq!(asked.asked[0].2, answer, "{name} opens differently when cut down");
    asked
}

/// A case, asked also for what its base names; under another edition where it claims something of it.
fn of_case(base: &Base, names: &Names, case: &Case) -> Asked {
    let names = Names::of(&case.image, View::FIRST).join(names.clone());
    let made = if case.image.len() == base.image.len() {
        like(&case.name, &base.image, &case.image)
    } else {
        from_zeros(&case.name, &case.image)
    };
    let mut asked = Asked::new(&case.name, made, &case.image, View::FIRST, &names);
    let views: BTreeSet<View> = case.claims.iter().map(|(question, _)| question.view).collect();
    for view in views.into_iter().filter(|&view| view != View::FIRST) {
        if view == View::SECOND {
            asked.ask_all(&case.image, view, &names);
        } else {
            asked.ask(&case.image, view, Question::Open);
        }
    }
    asked
}

impl Asked {
    fn new(name: &str, made: String, image: &[u8], view: View, names: &Names) -> Asked {
        let mut asked = Asked { name: name.to_string(), made, asked: Vec::new() };
        asked.ask_all(image, view, names);
        asked
    }

    fn ask_all(&mut self, image: &[u8], view: View, names: &Names) {
        let all = questions(image, view, names);
        all.into_iter().for_each(|question| self.ask(image, view, question));
    }

    fn ask(&mut self, image: &[u8], view: View, question: Question) {
        let answer = question.answer(image, view);
        self.asked.push((view, question, answer));
    }

    /// The lines that make the image and ask.
    pub fn question(&self) -> String {
        let mut text = self.made.clone();
        let mut view = View::FIRST;
        for (under, question, _) in &self.asked {
            if *under != view {
                writeln!(text, "edition {}", under.edition).expect("a string takes every line");
                view = *under;
            }
            writeln!(text, "{question}").expect("as above");
        }
        text
    }

    /// The image's name and the answers.
    pub fn answer(&self) -> String {
        let answers = self.asked.iter().map(|(_, _, answer)| format!("{answer}\n"));
        format!("{}\n", self.name) + &answers.collect::<String>()
    }
}

/// The line after which an image is the base of the next ones.
const KEEP: &str = "keep\n";

fn like(name: &str, base: &[u8], image: &[u8]) -> String {
    format!("like {name}\n{}", puts(base, image))
}

fn from_zeros(name: &str, image: &[u8]) -> String {
    let size = image.len() as u64;
    let blocks = size.div_ceil(BLOCK);
    let mut text = format!("image {name} {blocks}\n");
    if size != blocks * BLOCK {
        writeln!(text, "cut {size}").expect("a string takes every line");
    }
    text + &puts(&vec![0; image.len()], image)
}

/// The lines that make one image of another of its size.
fn puts(from: &[u8], to: &[u8]) -> String {
    let differs = |i: &usize| from[*i] != to[*i];
    let mut text = String::new();
    let mut at = 0;
    while let Some(start) = (at..to.len()).find(differs) {
        let mut end = start + 1;
        while let Some(more) = (end..to.len().min(end + BRIDGED)).find(differs) {
            end = more + 1;
        }
        for place in (start..end).step_by(LONGEST_PUT) {
            let part = &to[place..end.min(place + LONGEST_PUT)];
            writeln!(text, "put {place} {}", bytes_word(part)).expect("as above");
        }
        at = end;
    }
    text
}
