//! The stored family of damaged images: each question's reply against the stored one, each
//! examination against the declarative check, the listing, and every question under every edition.

use std::path::Path;
use std::{fs, io};

use super::editions;
use super::properties::{examination_agrees, Viewed};
use crate::family::questions::list;
use crate::family::stored::parse;
use crate::subject::Judge;

pub fn check(judge: &mut Judge, file: &Path) -> io::Result<()> {
    let images = parse(&fs::read_to_string(file)?);
    judge.claim(images.is_some(), || "the stored family can't be read".to_string());
    for image in images.unwrap_or_default() {
        image.check(judge);
        judge.ask(&image.image, &list());
        for (view, map) in image.examined() {
            let viewed = Viewed { bytes: &image.image, view };
            examination_agrees(judge, &viewed, map, &image.name);
        }
        editions::check(judge, &image);
    }
    Ok(())
}
