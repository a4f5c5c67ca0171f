//! What a program of `crates/` is run on and what it must write: its files `stdin` and `stdout`.

use std::path::Path;
use std::{fs, io};

/// The two files of a program, as the model writes them now.
pub struct Exchange {
    pub stdin: String,
    pub stdout: String,
}

impl Exchange {
    /// With the word `--check` compares the files of a directory, else writes them: whether they
    /// are as they should be.
    pub fn keep(&self, directory: &str, word: Option<&String>) -> io::Result<bool> {
        match word.map(String::as_str) {
            None => self.write(Path::new(directory)).map(|()| true),
            Some("--check") => self.is_stored(Path::new(directory)),
            Some(word) => panic!("no such word: {word}"),
        }
    }

    fn files(&self) -> [(&str, &String); 2] {
        [("stdin", &self.stdin), ("stdout", &self.stdout)]
    }

    fn write(&self, directory: &Path) -> io::Result<()> {
        fs::create_dir_all(directory)?;
        self.files().into_iter().try_for_each(|(name, text)| fs::write(directory.join(name), text))
    }

    fn is_stored(&self, directory: &Path) -> io::Result<bool> {
        let mut same = true;
        for (name, text) in self.files() {
            let file = directory.join(name);
            if fs::read_to_string(&file)? != *text {
                eprintln!("{} is not what the model writes", file.display());
                same = false;
            }
        }
        Ok(same)
    }
}
