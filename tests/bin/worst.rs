//! `worst` prints the table of the worst images; `worst NAME` the rows of one; `worst NAME MB FILE`
//! writes that one of so many MB; `worst --images DIR` writes the small ones; `worst --short` is
//! their part of the short run. `worst --ask TIMES QUESTION` is the process of one call.

#[cfg(archive)]
fn main() -> std::io::Result<std::process::ExitCode> {
    use std::path::Path;
    use std::process::ExitCode;
    use std::{env, fs, slice};
    use vihtumora_tests::worst::{asked, short, table, ALL, MEGABYTE};

    let words: Vec<String> = env::args().skip(1).collect();
    let words: Vec<&str> = words.iter().map(String::as_str).collect();
    let named = |name: &str| ALL.iter().find(|named| named.name == name).expect("an image's name");
    match words[..] {
        [] => table::print(&ALL)?,
        ["--short"] if !short::run()? => return Ok(ExitCode::FAILURE),
        ["--short"] => {}
        ["--ask", times, question] => asked::answer(times, question)?,
        ["--images", directory] => {
            fs::create_dir_all(directory)?;
            for named in &ALL {
                fs::write(Path::new(directory).join(named.name), named.small().image)?;
            }
        }
        [name] => table::print(slice::from_ref(named(name)))?,
        [name, size, file] => {
            let megabytes: usize = size.parse().expect("a size in MB");
            fs::write(file, (named(name).maker)(megabytes * MEGABYTE).image)?;
        }
        _ => {
            let more = "--images DIR | --short | --ask TIMES QUESTION";
            panic!("usage: worst [NAME | NAME MB FILE | {more}]")
        }
    }
    Ok(ExitCode::SUCCESS)
}

#[cfg(not(archive))]
fn main() -> std::process::ExitCode {
    eprintln!("worst: built without the archive of the C exports, so there is nothing to ask");
    std::process::ExitCode::FAILURE
}
