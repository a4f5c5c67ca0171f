//! Demand 3 on a sound map whose entries are known: every key looked up and copied, absent keys
//! too, every index and one past, the count, the examination, and the walk to Done.

use crate::model::ask::View;
use crate::model::image::Span;
use crate::model::index::{Entry, GivenKey};
use crate::model::walk::FRESH;
use crate::subject::{Answer, Asks, Judge, MapArgs, Question, Reply, AREA_FILL};

/// A map under a view, and its entries in key order, keys as a caller gives them.
pub struct Expected<'a> {
    pub view: View,
    pub map: MapArgs,
    pub entries: &'a [(Vec<u8>, Vec<u8>)],
}

/// A sweep under way over one map of one image.
struct Sweep<'a> {
    judge: &'a mut Judge,
    image: &'a [u8],
    expected: &'a Expected<'a>,
    what: &'a str,
}

pub fn sweep(judge: &mut Judge, image: &[u8], expected: &Expected, what: &str) {
    let mut sweep = Sweep { judge, image, expected, what };
    sweep.totals();
    for (i, (key, value)) in expected.entries.iter().enumerate() {
        sweep.index(i, key, value);
        sweep.lookup(key, value);
        sweep.copy(key, value);
    }
    sweep.absent();
    sweep.walk();
}

impl Sweep<'_> {
    fn totals(&mut self) {
        let (map, n) = (self.expected.map, self.expected.entries.len() as u64);
        let count = self.ask(&self.question(Asks::Count { map }));
        self.claim(count.answer == Answer::Count(n), || format!("count: {count}"));
        let report = self.ask(&self.question(Asks::Examine { map }));
        let passes = matches!(&report.answer, Answer::Report(r) if r.entries == n);
        self.claim(passes, || format!("examine: {report}"));
        for at in [n, n + 1, u64::MAX] {
            let past = self.ask(&self.question(Asks::Index { map, at }));
            self.claim(past.refusal() == Some(15), || format!("index {at}: {past}"));
        }
    }

    fn index(&mut self, i: usize, key: &[u8], value: &[u8]) {
        let question = self.question(Asks::Index { map: self.expected.map, at: i as u64 });
        let reply = self.ask(&question);
        let good = matches!(reply.answer, Answer::Entry(e) if self.is_entry(&e, key, value));
        self.claim(good, || format!("{question}: {reply}"));
    }

    fn lookup(&mut self, key: &[u8], value: &[u8]) {
        let question = self.question(Asks::Lookup { map: self.expected.map, key: key.to_vec() });
        let reply = self.ask(&question);
        let good = matches!(reply.answer, Answer::Value(v) if self.bytes(v) == value);
        self.claim(good, || format!("{question}: {reply}"));
    }

    /// Into an area one byte longer than the value, and into one byte less where there is one.
    fn copy(&mut self, key: &[u8], value: &[u8]) {
        let (map, key) = (self.expected.map, key.to_vec());
        let longer = self.question(Asks::Copy { map, key: key.clone(), area: value.len() + 1 });
        let reply = self.ask(&longer);
        let whole = [value, &[AREA_FILL]].concat();
        let good = matches!(reply.answer, Answer::Value(_)) && reply.area == Some(whole);
        self.claim(good, || format!("{longer}: {reply}"));
        if let Some(area) = value.len().checked_sub(1) {
            let shorter = self.question(Asks::Copy { map, key, area });
            let reply = self.ask(&shorter);
            let kept = reply.area == Some(vec![AREA_FILL; area]);
            self.claim(reply.refusal() == Some(16) && kept, || format!("{shorter}: {reply}"));
        }
    }

    /// The keys just beside each key, where the map lacks them.
    fn absent(&mut self) {
        let known = |key: &Vec<u8>| self.expected.entries.iter().any(|(k, _)| k == key);
        let keys = self.expected.entries.iter().flat_map(|(k, _)| beside(self.expected.map, k));
        let extremes = beside(self.expected.map, &[0; 8]);
        let absent: Vec<_> = keys.chain(extremes).filter(|key| !known(key)).collect();
        for key in absent {
            let question = self.question(Asks::Lookup { map: self.expected.map, key });
            let reply = self.ask(&question);
            self.claim(reply.answer == Answer::Absent, || format!("{question}: {reply}"));
        }
    }

    /// From the fresh state through all entries to Done, and Done again.
    fn walk(&mut self) {
        let map = self.expected.map;
        let mut state = FRESH;
        for (key, value) in self.expected.entries {
            let reply = self.ask(&self.question(Asks::Walk { map, state }));
            let good = matches!(reply.answer, Answer::Entry(e) if self.is_entry(&e, key, value));
            self.claim(good, || format!("walk from {state:?}: {reply}"));
            state = reply.state.unwrap_or(state);
        }
        for _ in 0..2 {
            let reply = self.ask(&self.question(Asks::Walk { map, state }));
            self.claim(reply.answer == Answer::Done, || format!("walk's end: {reply}"));
            state = reply.state.unwrap_or(state);
        }
    }

    fn question(&self, asks: Asks) -> Question {
        asks.under(self.expected.view)
    }

    fn ask(&mut self, question: &Question) -> Reply {
        self.judge.ask(self.image, question)
    }

    fn is_entry(&self, entry: &Entry, key: &[u8], value: &[u8]) -> bool {
        let same_key = match entry.key {
            GivenKey::Number(number) => number.to_be_bytes() == key,
            GivenKey::Text(place) => self.bytes(place) == key,
        };
        same_key && self.bytes(entry.value) == value
    }

    fn bytes(&self, span: Span) -> &[u8] {
        &self.image[span.at as usize..(span.at + span.length) as usize]
    }

    fn claim(&mut self, holds: bool, what: impl FnOnce() -> String) {
        let context = self.what;
        self.judge.claim(holds, || format!("{context}: {}", what()));
    }
}

/// Well-formed keys just below and above a key.
fn beside(map: MapArgs, key: &[u8]) -> Vec<Vec<u8>> {
    if map.kind == 0 {
        let number = i64::from_be_bytes(key.try_into().unwrap_or_default());
        let numbers = [number.wrapping_sub(1), number.wrapping_add(1), !number];
        return numbers.map(|number| number.to_be_bytes().to_vec()).into();
    }
    let shorter = key[..key.len().saturating_sub(1)].to_vec();
    let longer = [key, b" "].concat();
    let plain = |key: &Vec<u8>| key.len() <= 1024 && key.iter().all(|b| (32..=126).contains(b));
    [shorter, longer].into_iter().filter(plain).collect()
}
