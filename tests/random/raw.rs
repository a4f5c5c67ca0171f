//! Damage to the bytes of an image.

use super::Random;
use crate::build::plan::write;
use crate::model::fletcher::{fletcher, Edition};
use crate::model::image::BLOCK;

/// One piece of damage. Most of an image is zeros, so that most flips are aimed at other bytes. Sums
/// are repaired by an edition.
pub fn damage(random: &mut Random, edition: Edition, image: &mut Vec<u8>) {
    if image.is_empty() {
        return;
    }
    match random.below(12) {
        0 => cut(random, image),
        1 => move_block(random, image),
        2 => overwrite(random, image),
        3 | 4 => flip_line(random, edition, image),
        _ => (0..random.range(1, 3)).for_each(|_| flip(random, image)),
    }
}

/// Changes one byte that is not zero, or, where none is met soon, any.
fn flip(random: &mut Random, image: &mut [u8]) {
    let tries: Vec<usize> = (0..60).map(|_| random.below(image.len() as u64) as usize).collect();
    let at = tries.iter().copied().find(|&i| image[i] != 0).unwrap_or(tries[0]);
    image[at] = changed(random, image[at]);
}

/// One bit, one more, one less, or anything.
fn changed(random: &mut Random, byte: u8) -> u8 {
    match random.below(4) {
        0 => byte ^ 1 << random.below(8),
        1 => byte.wrapping_add(1),
        2 => byte.wrapping_sub(1),
        _ => random.draw() as u8,
    }
}

fn cut(random: &mut Random, image: &mut Vec<u8>) {
    let length = random.below(image.len() as u64 + 1);
    let whole = random.once_in(2);
    image.truncate((if whole { length / BLOCK * BLOCK } else { length }) as usize);
}

/// Puts one block over another.
fn move_block(random: &mut Random, image: &mut [u8]) {
    let blocks = image.len() as u64 / BLOCK;
    let from = (random.below(blocks) * BLOCK) as usize;
    let to = random.below(blocks) * BLOCK;
    if blocks > 0 {
        let block = image[from..from + BLOCK as usize].to_vec();
        write(image, to, &block);
    }
}

/// A run of zeros, or of anything.
fn overwrite(random: &mut Random, image: &mut [u8]) {
    let at = random.below(image.len() as u64);
    let mask = if random.once_in(2) { 0 } else { 0xff };
    let run: Vec<u8> = (0..random.range(1, 64)).map(|_| random.draw() as u8 & mask).collect();
    write(image, at, &run);
}

/// Changes a byte of a header's or a footer's line and writes the right sum behind it.
fn flip_line(random: &mut Random, edition: Edition, image: &mut [u8]) {
    let blocks = image.len() as u64 / BLOCK;
    if blocks < 3 {
        return;
    }
    let start = match random.below(3) {
        0 => random.below(2) * BLOCK,
        1 => random.range(2, blocks - 1) * BLOCK,
        _ => random.range(3, blocks) * BLOCK - 128,
    } as usize;
    let Some(length) = image[start..].iter().take(1024).position(|&byte| byte == b'\n') else {
        return;
    };
    if length > 0 {
        let at = start + random.below(length as u64) as usize;
        image[at] = changed(random, image[at]);
        repair_sum(edition, &mut image[start..start + length]);
    }
}

/// Rewrites the digits after `,fletcher:` in place, if the right ones take as much room.
fn repair_sum(edition: Edition, line: &mut [u8]) {
    const FIELD: &[u8] = b",fletcher:";
    let Some(comma) = line.windows(FIELD.len()).rposition(|window| window == FIELD) else {
        return;
    };
    let digits = format!("{:x}", fletcher(edition, &line[..comma])).into_bytes();
    let place = &mut line[comma + FIELD.len()..];
    if place.len() == digits.len() {
        place.copy_from_slice(&digits);
    }
}
