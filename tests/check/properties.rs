//! Properties on random images, damaged or not:
//!
//! - the examination passes exactly when the declarative check says sound, and its report is the
//!   entries, pages and depth of the reached pages;
//! - demand 3 on every sound map;
//! - the walk yields the entry list and then Done wherever all reached pages meet the rules and no
//!   leaf but the root is empty;
//! - every question has an answer: nothing panics.

use super::stray;
use super::sweep::{sweep, Expected};
use crate::build::tree::Entries;
use crate::model::ask::View;
use crate::model::examine::Report;
use crate::model::image::Span;
use crate::model::index::{Entry, GivenKey};
use crate::model::page::Body;
use crate::model::reached::{reached, Reached};
use crate::model::walk::FRESH;
use crate::model::{ask, sound};
use crate::random::store::{store, RandomStore};
use crate::random::{planned, raw, Random};
use crate::subject::{Answer, Asks, Judge, MapArgs, Reply};

/// Longer lists are not walked: a damaged map can hold the same pages very often.
const LONGEST_WALK: usize = 400;

/// How many maps of the run were what.
#[derive(Default)]
pub struct Maps {
    pub sound: u64,
    pub unsound: u64,
    pub not_found: u64,
}

/// One random image of a seed, asked under the edition of its sums, and opened under the other too.
pub fn check(judge: &mut Judge, maps: &mut Maps, seed: u64, number: u64) {
    let mut random = Random::new(seed ^ number.wrapping_mul(0x2545_f491_4f6c_dd1d));
    let store = store(&mut random);
    let (bytes, damaged) = damaged_image(&mut random, &store);
    let image = Viewed { bytes: &bytes, view: View::of(store.edition) };
    let what = format!("seed {seed} image {number}");
    judge.image(&what, image.bytes, image.view);
    judge.ask(image.bytes, &Asks::Open.under(View::of(store.edition.other())));
    image.ask(judge, Asks::List);
    for known in &store.maps {
        image.ask(judge, Asks::Find { name: known.name.clone().into_bytes() });
        for asks in stray::questions(&mut random, known.map, &known.entries) {
            let view = stray::view(&mut random, image.view);
            judge.ask(image.bytes, &asks.under(view));
        }
        let found = check_map(judge, maps, &image, known.map, &what);
        if !damaged && store.plain {
            let same = found.as_ref() == Some(&known.entries);
            judge.claim(same, || format!("{what}: map {} is not as built", known.map.id));
        }
    }
    check_map(judge, maps, &image, MapArgs { id: 0, kind: 1 }, &what);
}

/// An image and the view under which it is asked.
pub struct Viewed<'a> {
    pub bytes: &'a [u8],
    pub view: View,
}

impl Viewed<'_> {
    fn ask(&self, judge: &mut Judge, asks: Asks) -> Reply {
        judge.ask(self.bytes, &asks.under(self.view))
    }
}

/// A quarter is undamaged; the others have damage of either sort or both.
fn damaged_image(random: &mut Random, store: &RandomStore) -> (Vec<u8>, bool) {
    let sort = random.below(4);
    let mut plan = store.plan.clone();
    if sort & 1 != 0 {
        (0..random.range(1, 2)).for_each(|_| planned::damage(random, &mut plan));
    }
    let mut image = plan.image();
    if sort & 2 != 0 {
        let times = random.range(1, 2);
        (0..times).for_each(|_| raw::damage(random, store.edition, &mut image));
    }
    (image, sort != 0)
}

/// The properties of one map; its entries if it is sound.
fn check_map(
    judge: &mut Judge,
    maps: &mut Maps,
    image: &Viewed,
    map: MapArgs,
    what: &str,
) -> Option<Entries> {
    let what = format!("{what}, map {}", map.id);
    let examined = image.ask(judge, Asks::Examine { map });
    let sound = examination_agrees(judge, image, map, &what);
    let Ok((opened, found)) = ask::map(image.bytes, image.view, map.id, map.kind) else {
        maps.not_found += 1;
        return None;
    };
    let reached = reached(&opened, &found);
    if walkable(&reached) {
        check_walk(judge, image, map, &reached, &what);
    }
    if !sound {
        maps.unsound += 1;
        return None;
    }
    maps.sound += 1;
    let report = Answer::Report(report(&reached));
    judge.claim(report == examined.answer, || format!("{what}: {report}, but {examined}"));
    let contents = |entry| contents(image.bytes, &entry);
    let entries: Entries = reached.entry_list().map(contents).collect();
    sweep(judge, image.bytes, &Expected { view: image.view, map, entries: &entries }, &what);
    Some(entries)
}

/// Whether a map is sound, after the examination was held against it. What is no map is not.
pub fn examination_agrees(judge: &mut Judge, image: &Viewed, map: MapArgs, what: &str) -> bool {
    let found = ask::map(image.bytes, image.view, map.id, map.kind);
    let sound = found.is_ok_and(|(opened, found)| sound::sound(&opened, &found));
    let passes = ask::examine(image.bytes, image.view, map.id, map.kind).is_ok();
    judge.claim(sound == passes, || format!("{what}: sound is {sound}, the examination {passes}"));
    sound
}

/// All reached pages meet the rules, and no leaf but the root is empty.
fn walkable(reached: &Reached) -> bool {
    let empty = |page: &_| matches!(page, Body::Leaf(values) if values.is_empty());
    let mut pages = reached.pages.iter();
    pages.all(|(spot, page)| {
        page.as_ref().is_ok_and(|p| Some(*spot) == reached.root || !empty(&p.body))
    })
}

/// Sound or not, such a map is walked through its entry list.
fn check_walk(judge: &mut Judge, image: &Viewed, map: MapArgs, reached: &Reached, what: &str) {
    let list: Vec<Entry> = reached.entry_list().take(LONGEST_WALK + 1).collect();
    if list.len() > LONGEST_WALK {
        return;
    }
    let due = list.iter().map(|&entry| Answer::Entry(entry)).chain([Answer::Done]);
    let mut state = FRESH;
    for answer in due {
        let reply = image.ask(judge, Asks::Walk { map, state });
        judge.claim(reply.answer == answer, || format!("{what}: walk {reply}, due {answer}"));
        state = reply.state.unwrap_or(state);
    }
}

/// What the examination reports of a sound map: no page of it is reached twice.
fn report(reached: &Reached) -> Report {
    Report {
        entries: reached.entry_list().count() as u64,
        pages: reached.pages.len() as u64,
        depth: reached.pages.keys().map(|&(depth, _)| depth).max().unwrap_or(0),
    }
}

fn contents(image: &[u8], entry: &Entry) -> (Vec<u8>, Vec<u8>) {
    let bytes = |span: Span| image[span.at as usize..(span.at + span.length) as usize].to_vec();
    let key = match entry.key {
        GivenKey::Number(number) => number.to_be_bytes().to_vec(),
        GivenKey::Text(place) => bytes(place),
    };
    (key, bytes(entry.value))
}
