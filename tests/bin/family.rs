//! `family FILE` writes the family of damaged images; `family FILE --check` compares instead.
//! Either way each hand-written claim is held against the model. `family FILE --images DIR` writes
//! each image of the stored family to a file of its name.

use std::path::Path;
use std::process::ExitCode;
use std::{env, fs, io};

use vihtumora_tests::family::all;
use vihtumora_tests::family::stored::{parse, text_of};

fn main() -> io::Result<ExitCode> {
    let arguments: Vec<String> = env::args().collect();
    let file = arguments.get(1).expect("usage: family FILE [--check | --images DIR]");
    if let [_, _, word, dir] = &arguments[..] {
        assert_eq!(word, "--images");
        return write_images(file, Path::new(dir));
    }
    let family = all();
    let (text, unmet) = text_of(&family);
    unmet.iter().for_each(|claim| eprintln!("claimed of {claim}"));
    let mut names: Vec<&String> = family.iter().flat_map(|f| &f.1).map(|case| &case.name).collect();
    names.sort();
    let once = names.windows(2).all(|pair| pair[0] != pair[1]);
    if !once {
        eprintln!("two cases have one name");
    }
    let cases: usize = family.iter().map(|(_, cases)| cases.len()).sum();
    println!("family: {} bases, {cases} cases, {} bytes", family.len(), text.len());
    let same = match arguments.get(2) {
        Some(_) => fs::read_to_string(file)? == text,
        None => fs::write(file, &text).map(|()| true)?,
    };
    if !same {
        eprintln!("{file} is not what the cases make: run `tests/run --family`");
    }
    let good = unmet.is_empty() && same && once;
    Ok(if good { ExitCode::SUCCESS } else { ExitCode::FAILURE })
}

fn write_images(file: &str, dir: &Path) -> io::Result<ExitCode> {
    let Some(images) = parse(&fs::read_to_string(file)?) else {
        eprintln!("{file} can't be read");
        return Ok(ExitCode::FAILURE);
    };
    fs::create_dir_all(dir)?;
    for image in images {
        fs::write(dir.join(image.name), image.image)?;
    }
    Ok(ExitCode::SUCCESS)
}
