//! Links the archive of the C exports.
//!
//! `MVSTORE_ARCHIVE` is the archive's path. Where it is empty nothing is linked, and a program that
//! needs the exports says so when it is run.

use std::env;
use std::process::{exit, Command};

const ARCHIVE: &str = "../target/staticlib/libmvstore.a";

/// What include/mvstore.h declares; an archive without one of them is another library's.
const CALLS: [&str; 8] = [
    "mvstore_newest",
    "mvstore_map",
    "mvstore_lookup",
    "mvstore_index",
    "mvstore_count",
    "mvstore_copy",
    "mvstore_next",
    "mvstore_examine",
];

fn main() {
    println!("cargo:rerun-if-changed=link.rs");
    println!("cargo:rerun-if-env-changed=MVSTORE_ARCHIVE");
    println!("cargo:rustc-check-cfg=cfg(archive)");
    let archive = env::var("MVSTORE_ARCHIVE").unwrap_or_else(|_| ARCHIVE.to_string());
    if archive.is_empty() {
        return;
    }
    let symbols = symbols(&archive);
    let offered = |call: &str| symbols.iter().any(|symbol| symbol == call);
    if let Some(lacking) = CALLS.iter().find(|call| !offered(call)) {
        fail(&format!("the archive {archive} lacks {lacking}"));
    }
    println!("cargo:rustc-cfg=archive");
    println!("cargo:rerun-if-changed={archive}");
    println!("cargo:rustc-link-arg-bins={archive}");
}

/// The names of the functions that an archive defines.
fn symbols(archive: &str) -> Vec<String> {
    let listed = Command::new("nm").args(["-g", "--defined-only", archive]).output();
    let listed = listed.unwrap_or_else(|error| fail(&format!("nm can't be run: {error}")));
    if !listed.status.success() {
        fail(&format!("there is no archive {archive} that nm can read"));
    }
    let lines = String::from_utf8_lossy(&listed.stdout).into_owned();
    let functions = lines.lines().filter_map(|line| line.split_once(" T "));
    functions.map(|(_, name)| name.to_string()).collect()
}

fn fail(why: &str) -> ! {
    eprintln!("{why}");
    exit(1)
}
