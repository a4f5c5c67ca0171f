//! Questions that need not make sense of an image: any key, any index, any area, any state, any
//! edition.

use crate::build::tree::Entries;
use crate::model::ask::View;
use crate::model::walk::{State, DONE, FRESH, PLACES};
use crate::random::{entries, Random};
use crate::subject::{Asks, MapArgs};

/// A dozen questions about a map that was built with these entries.
pub fn questions(random: &mut Random, map: MapArgs, built: &Entries) -> Vec<Asks> {
    let mut all = vec![Asks::Count { map }];
    for _ in 0..3 {
        let key = some_key(random, map.kind, built);
        all.push(Asks::Lookup { map, key: key.clone() });
        all.push(Asks::Copy { map, key, area: random.below(40) as usize });
        all.push(Asks::Index { map, at: some_index(random, built) });
        all.push(Asks::Walk { map, state: some_state(random) });
    }
    if random.once_in(4) {
        let map = strange_map(random, map);
        all.push(Asks::Count { map });
        all.push(Asks::Examine { map });
        all.push(Asks::Index { map, at: 0 });
        all.push(Asks::Walk { map, state: FRESH });
        all.push(Asks::Find { name: some_name(random) });
    }
    all
}

/// The view of an image, the other edition's, or one that is none.
pub fn view(random: &mut Random, due: View) -> View {
    match random.below(16) {
        0 => View { edition: *random.pick(&[0, 1, 2, 3, 1 << 32 | 1, 1 << 32 | 2, u64::MAX]) },
        1 => View { edition: random.draw() >> random.below(64) },
        _ => due,
    }
}

fn some_key(random: &mut Random, kind: u64, built: &Entries) -> Vec<u8> {
    match random.below(8) {
        0 => entries::key(random, 1 - kind),
        1..=3 => entries::key(random, kind),
        _ if built.is_empty() => entries::key(random, kind),
        _ => random.pick(built).0.clone(),
    }
}

fn some_index(random: &mut Random, built: &Entries) -> u64 {
    match random.below(8) {
        0 => random.draw(),
        _ => random.below(built.len() as u64 + 2),
    }
}

/// Small places and depths, and now and then anything at all.
fn some_state(random: &mut Random) -> State {
    let mut state = FRESH;
    state.depth = random.below(5);
    for place in 0..state.depth as usize {
        state.places[place] = random.below(3);
    }
    match random.below(8) {
        0 => state.depth = random.draw() >> random.below(64),
        1 => state.last = *random.pick(&[1, 12, 16, 17, 254, DONE, 256, 1 << 31, u64::MAX]),
        2 => {
            let place = random.below(PLACES as u64) as usize;
            state.places[place] = random.draw() >> random.below(64);
        }
        _ => {}
    }
    state
}

/// Short names, some of them with bytes that no name has.
fn some_name(random: &mut Random) -> Vec<u8> {
    (0..random.below(4)).map(|_| 30 + random.below(98) as u8).collect()
}

/// The other kind, another id, or neither.
fn strange_map(random: &mut Random, map: MapArgs) -> MapArgs {
    match random.below(3) {
        0 => MapArgs { kind: 1 - map.kind, ..map },
        1 => MapArgs { id: random.draw() >> random.below(64), ..map },
        _ => MapArgs { kind: random.below(4), ..map },
    }
}
