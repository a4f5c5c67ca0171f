//! `check` is the short run; `check --long SEED IMAGES` the long one, on that many random images;
//! `check --store FILE DUMP [EDITION]` reads one more store that H2 wrote, under edition 1 where none
//! is given; `check --list` is the model's listing of the image on standard input.

use std::io::Read;
use std::panic::{catch_unwind, AssertUnwindSafe};
use std::path::Path;
use std::process::ExitCode;
use std::time::Instant;
use std::{env, io};

use vihtumora_tests::check::properties::{self, Maps};
use vihtumora_tests::check::{codes, family, hostile, lengths, many, seam, sparse, stores};
use vihtumora_tests::model::ask::View;
use vihtumora_tests::model::listing::listing;
use vihtumora_tests::subject::{self, Judge, Listing};

/// The random images of the short run.
const SEED: u64 = 1;
const IMAGES: u64 = 3000;
/// Progress is shown after so many images of a long run.
const STEP: u64 = 1000;

fn main() -> io::Result<ExitCode> {
    let words: Vec<String> = env::args().skip(1).collect();
    let words: Vec<&str> = words.iter().map(String::as_str).collect();
    if words == ["--list"] {
        return list();
    }
    let Some(exports) = subject::exports() else {
        eprintln!("check: built without the archive of the C exports, so nothing was compared");
        return Ok(ExitCode::FAILURE);
    };
    let Some(program) = env::var_os("MVSTORE_LISTING") else {
        eprintln!("check: MVSTORE_LISTING names no listing program, so nothing was compared");
        return Ok(ExitCode::FAILURE);
    };
    let mut judge = Judge::default();
    judge.plug(exports);
    judge.plug(Box::new(Listing { program: program.into() }));
    let good = match words[..] {
        [] => short_run(&mut judge)?,
        ["--long", seed, images] => long_run(&mut judge, number(seed), number(images)),
        ["--store", file, dump] => one_store(&mut judge, file, dump, View::FIRST)?,
        ["--store", file, dump, edition] => {
            one_store(&mut judge, file, dump, View { edition: number(edition) })?
        }
        _ => panic!("usage: check [--long SEED IMAGES | --store FILE DUMP [EDITION] | --list]"),
    };
    let tally = &judge.tally;
    tally.shown.iter().for_each(|what| eprintln!("disagreement: {what}"));
    println!(
        "tests: {} images, {} questions, {} disagreements",
        tally.images, tally.questions, tally.disagreements
    );
    let good = good && tally.disagreements == 0;
    Ok(if good { ExitCode::SUCCESS } else { ExitCode::FAILURE })
}

fn one_store(judge: &mut Judge, file: &str, dump: &str, view: View) -> io::Result<bool> {
    stores::check(judge, view, Path::new(file), Path::new(dump)).map(|()| true)
}

fn list() -> io::Result<ExitCode> {
    let mut input = Vec::new();
    io::stdin().read_to_end(&mut input)?;
    print!("{}", listing(&input));
    Ok(ExitCode::SUCCESS)
}

/// The real stores, the stored family and some random images; each refusal must be reached in each
/// call where it can occur.
fn short_run(judge: &mut Judge) -> io::Result<bool> {
    let here = Path::new(env!("CARGO_MANIFEST_DIR"));
    stores::check_all(judge)?;
    family::check(judge, &here.join("family/images.txt"))?;
    codes::check(judge);
    lengths::check(judge);
    hostile::check(judge);
    many::check(judge);
    sparse::check(judge)?;
    seam::check(judge);
    let mut maps = Maps::default();
    for number in 0..IMAGES {
        random_image(judge, &mut maps, SEED, number);
    }
    print_maps(&maps);
    Ok(judge.print_tables())
}

/// "no panic on any bytes": one that panics all the same is named.
fn random_image(judge: &mut Judge, maps: &mut Maps, seed: u64, number: u64) {
    let checked = catch_unwind(AssertUnwindSafe(|| properties::check(judge, maps, seed, number)));
    judge.claim(checked.is_ok(), || format!("seed {seed} image {number}: a panic"));
}

fn long_run(judge: &mut Judge, seed: u64, images: u64) -> bool {
    let mut maps = Maps::default();
    let start = Instant::now();
    for number in 0..images {
        random_image(judge, &mut maps, seed, number);
        if (number + 1).is_multiple_of(STEP) || number + 1 == images {
            let rate = (number + 1) as f64 / start.elapsed().as_secs_f64();
            println!("{} of {images} images, {rate:.0} images per second", number + 1);
        }
    }
    print_maps(&maps);
    judge.print_tables();
    true
}

fn number(word: &str) -> u64 {
    word.parse().expect("a number in decimal")
}

fn print_maps(maps: &Maps) {
    let Maps { sound, unsound, not_found } = maps;
    println!("maps of random images: {sound} sound, {unsound} not sound, {not_found} not found");
}
