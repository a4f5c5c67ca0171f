//! A step of the walk through its export, whose state has places of 32 bits.

use super::calls::{mvstore_next, Step, Walk};
use super::{answers, Lent};
use crate::model::walk::State;
use crate::subject::{MapArgs, Reply};

/// None where a number of the state is wider than the interface's.
pub fn stepped(of: &Lent, map: MapArgs, state: &State) -> Option<Reply> {
    let raw = next(of, map, narrow(state)?);
    let answer = answers::of_step(map.kind, &raw);
    Some(Reply { answer, area: None, state: Some(wide(&raw.walk)) })
}

pub fn next(of: &Lent, map: MapArgs, walk: Walk) -> Step {
    let (image, length, view) = of.parts();
    // SAFETY: the pointer goes with its slice's length, or is null with length 0.
    unsafe { mvstore_next(image, length, view, map.id, map.kind, walk) }
}

fn narrow(state: &State) -> Option<Walk> {
    let mut places = [0; 16];
    for (place, &number) in places.iter_mut().zip(&state.places) {
        *place = u32::try_from(number).ok()?;
    }
    let number = |wide| u32::try_from(wide).ok();
    Some(Walk { places, depth: number(state.depth)?, last: number(state.last)? })
}

fn wide(walk: &Walk) -> State {
    State {
        places: walk.places.map(u64::from),
        depth: u64::from(walk.depth),
        last: u64::from(walk.last),
    }
}
