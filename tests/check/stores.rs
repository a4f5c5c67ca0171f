//! Stores that a real H2 wrote, entry for entry against what H2 itself listed.

use std::path::{Path, PathBuf};
use std::{fs, io};

use super::sweep::{sweep, Expected};
use crate::family::questions::{every_call, list, open};
use crate::model::ask::{self, View};
use crate::model::reached::reached;
use crate::model::refusal::NO_HEADER;
use crate::model::sound;
use crate::subject::{Answer, Asks, Judge, MapArgs};
use crate::vectors::word_bytes;

const HERE: &str = env!("CARGO_MANIFEST_DIR");

/// The stores that the repository holds.
pub const NAMES: [&str; 4] = ["bridge", "mixed", "deep", "chain"];

/// A map of a dump: `map ID KIND NAME-IN-HEX`, then `e KEY VALUE-IN-HEX` in key order.
struct Dumped {
    map: MapArgs,
    name: Vec<u8>,
    entries: Vec<(Vec<u8>, Vec<u8>)>,
}

/// One store against its dump, under a view.
pub fn check(judge: &mut Judge, view: View, file: &Path, dump: &Path) -> io::Result<()> {
    let image = fs::read(file)?;
    let dump = fs::read_to_string(dump)?;
    let name = file.display().to_string();
    judge.image(&name, &image, view);
    let maps = dumped(&dump);
    judge.claim(!maps.is_empty(), || format!("{name}: the dump can't be read"));
    for map in &maps {
        check_map(judge, view, &image, map, &name);
    }
    judge.ask(&image, &list());
    Ok(())
}

/// The repository's stores: as H2 wrote them under edition 2, and with the sums of edition 1 under
/// that. What one edition opens the other refuses: each of H2's header lines has an odd length.
pub fn check_all(judge: &mut Judge) -> io::Result<()> {
    for name in NAMES {
        let dump = kept(&format!("{name}.dump"));
        for (view, file) in [(View::FIRST, base(name)), (View::SECOND, own(name))] {
            check(judge, view, &file, &dump)?;
            refused_in_the_other(judge, view, &file)?;
        }
    }
    Ok(())
}

fn refused_in_the_other(judge: &mut Judge, view: View, file: &Path) -> io::Result<()> {
    let image = fs::read(file)?;
    let other = View::of(view.judge().expect("an edition").other());
    for question in [every_call(), vec![open()]].concat() {
        let question = question.under(other);
        let reply = judge.ask(&image, &question);
        let due = Some(NO_HEADER.0);
        judge.claim(reply.refusal() == due, || format!("{}: {question}: {reply}", file.display()));
    }
    Ok(())
}

/// A store as H2 wrote it.
pub fn own(name: &str) -> PathBuf {
    kept(&format!("{name}.mv"))
}

/// The same with the sums of edition 1, as `stores/base` makes it for `tests/run`.
pub fn base(name: &str) -> PathBuf {
    Path::new(HERE).join(format!("../target/tests/stores/{name}.base.mv"))
}

fn kept(file: &str) -> PathBuf {
    Path::new(HERE).join("stores").join(file)
}

fn check_map(judge: &mut Judge, view: View, image: &[u8], dumped: &Dumped, store: &str) {
    let what = || format!("{store}, map {}", dumped.map.id);
    if dumped.map.id != 0 {
        let question = Asks::Find { name: dumped.name.clone() }.under(view);
        let found = judge.ask(image, &question);
        judge.claim(found.answer == Answer::Id(dumped.map.id), || format!("{}: {found}", what()));
    }
    let Ok((opened, map)) = ask::map(image, view, dumped.map.id, dumped.map.kind) else {
        return judge.claim(false, || format!("{}: is no map", what()));
    };
    judge.claim(sound::sound(&opened, &map), || format!("{}: not sound", what()));
    let list: Vec<_> = reached(&opened, &map).entry_list().collect();
    judge.claim(list.len() == dumped.entries.len(), || format!("{}: entry list", what()));
    let expected = Expected { view, map: dumped.map, entries: &dumped.entries };
    sweep(judge, image, &expected, &what());
}

fn dumped(text: &str) -> Vec<Dumped> {
    let mut maps: Vec<Dumped> = Vec::new();
    for line in text.lines() {
        let words: Vec<&str> = line.split(' ').collect();
        match words[..] {
            ["map", id, kind, name] => maps.extend(dumped_map(id, kind, name)),
            ["e", key, value] => {
                let map = maps.last_mut().expect("an entry follows its map");
                map.entries.extend(dumped_entry(map.map.kind, key, value));
            }
            _ => {}
        }
    }
    maps
}

fn dumped_map(id: &str, kind: &str, name: &str) -> Option<Dumped> {
    let map = MapArgs { id: id.parse().ok()?, kind: kind.parse().ok()? };
    Some(Dumped { map, name: word_bytes(name)?, entries: Vec::new() })
}

/// Number keys are dumped in decimal; a key is held as the bytes a caller gives.
fn dumped_entry(kind: u64, key: &str, value: &str) -> Option<(Vec<u8>, Vec<u8>)> {
    let key = match kind {
        0 => key.parse::<i64>().ok()?.to_be_bytes().to_vec(),
        _ => word_bytes(key)?,
    };
    Some((key, word_bytes(value)?))
}
