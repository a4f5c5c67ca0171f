//! The exports' speed beside the plain model's: each call opens the image and asks for one entry,
//! by key or by index. Nothing depends on the figures.

mod pairs;
mod store;

pub use pairs::processor_seconds;
use pairs::{timed, Timed};
use store::Store;

use crate::family::questions::FORCES;
use crate::model::ask::{self, View};
use crate::random::Random;
use crate::subject::exports::{self, Lent};

/// Entries and chunks.
const STORES: [(u64, u64); 2] = [(1_000, 10), (100_000, 500)];
/// The same of the store for the plain C reader: as many entries a chunk as the one before.
const LARGE: (u64, u64) = (2_000_000, 10_000);
/// The calls that are timed together.
const CALLS: usize = 200;

/// The place of an entry's value, by its number in the map.
type Asks = fn(&Store, u64) -> u64;

/// The edition in which the stores are built.
const VIEW: View = View::FIRST;

pub fn print() {
    println!("entries  blocks    call  exports    model  exports/model  quartiles");
    for (entries, chunks) in STORES {
        let store = Store::new(entries, chunks);
        row(&store, "lookup", lookup_by_model, lookup_by_exports);
        row(&store, "index", index_by_model, index_by_exports);
    }
    println!("times are medians of a call in microseconds; compare the ratios only");
}

/// Writes the large store.
pub fn write(file: &str) -> std::io::Result<()> {
    std::fs::write(file, Store::new(LARGE.0, LARGE.1).image)
}

fn row(store: &Store, call: &str, model: Asks, exports: Asks) {
    let sum = |asks: Asks, task| numbers(store, task).map(|i| asks(store, i)).sum();
    let Timed { first, second, ratio } = timed(|i| sum(model, i), |i| sum(exports, i));
    let micros = |seconds: f64| seconds / CALLS as f64 * 1e6;
    let (entries, blocks) = (store.entries, store.image.len() / 4096);
    let [low, middle, high] = ratio;
    println!(
        "{entries:>7} {blocks:>7} {call:>7} {:>8.2} {:>8.2} {middle:>14.3}  {low:.3} to {high:.3}",
        micros(second[1]),
        micros(first[1]),
    );
}

/// The entries that a task asks for.
fn numbers(store: &Store, task: usize) -> impl Iterator<Item = u64> + '_ {
    let mut random = Random::new(task as u64);
    (0..CALLS).map(move |_| random.below(store.entries))
}

fn lent(store: &Store) -> Lent<'_> {
    Lent { image: &store.image, view: VIEW }
}

fn lookup_by_model(store: &Store, i: u64) -> u64 {
    let key = store.key(i).to_be_bytes();
    let found = ask::lookup(&store.image, VIEW, FORCES.id, FORCES.kind, &key);
    found.ok().flatten().expect("the store has the key").at
}

fn lookup_by_exports(store: &Store, i: u64) -> u64 {
    let value = exports::lookup(&lent(store), FORCES, &store.key(i).to_be_bytes());
    assert_eq!((value.refusal, value.found), (0, 1));
    value.at
}

fn index_by_model(store: &Store, i: u64) -> u64 {
    let entry = ask::index(&store.image, VIEW, FORCES.id, FORCES.kind, i);
    entry.expect("the store has the index").value.at
}

fn index_by_exports(store: &Store, i: u64) -> u64 {
    let entry = exports::index(&lent(store), FORCES, i);
    assert_eq!((entry.refusal, entry.number), (0, store.key(i)));
    entry.at
}
