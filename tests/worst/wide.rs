//! One leaf of empty text keys and empty values, which take the fewest bytes, and at its end the
//! entry that is asked for.

use super::draft::{Body, Draft, EMPTY_ENTRY};
use super::Worst;
use crate::build::tree::MapPlan;
use crate::model::image::BLOCK;
use crate::subject::MapArgs;

/// What an image takes beside the leaf: headers, footer, metadata.
const BESIDE: usize = 5 * BLOCK as usize;
const NOTES_PLAN: MapPlan = MapPlan { id: 1, kind: 1 };
const KEY: &[u8] = b"k";

/// Equal keys do not rise, so the map is unsound.
pub fn leaf(size: usize) -> Worst {
    let empty = (size - BESIDE) / EMPTY_ENTRY;
    let mut draft = Draft::new();
    let newest = draft.add_chunk();
    let entry = (KEY.to_vec(), Vec::new());
    let forces = draft.put(newest, &Body::wide_leaf(NOTES_PLAN, empty, &[entry]));
    let root = draft.metadata(newest, &[], forces);
    Worst {
        image: draft.image(newest, root),
        map: MapArgs { id: NOTES_PLAN.id, kind: NOTES_PLAN.kind },
        key: KEY.to_vec(),
        at: empty as u64,
        places: vec![empty as u64 - 1],
        examined: "refused 12".to_string(),
    }
}
