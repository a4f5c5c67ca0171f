//! An image whose sums change editions.

use crate::model::fletcher::{fletcher, Edition};
use crate::model::image::BLOCK;
use crate::model::line::{sum_is_right, text_of, FOOTER};

/// The image with each sum that is right by one edition alone made right by the other alone, so that
/// each edition sees here what the other sees of the image. Nothing else changes: where the sum has
/// fewer digits, spaces follow it, and where it has more, the newline moves.
pub fn resummed(image: &[u8]) -> Vec<u8> {
    let mut out = image.to_vec();
    for (number, block) in out.chunks_exact_mut(BLOCK as usize).enumerate() {
        // File headers are in the first two blocks, footers in none of them.
        let area = if number < 2 { 0 } else { BLOCK - FOOTER };
        resum(&mut block[area as usize..]);
    }
    out
}

fn resum(area: &mut [u8]) {
    let Some(line) = text_of(area).and_then(|line| other_line(line.text, line.newline)) else {
        return;
    };
    area[..line.len()].copy_from_slice(&line);
}

/// A line to its newline with the other edition's sum; none where the sum is right by both or by
/// neither.
fn other_line(text: &[u8], newline: u64) -> Option<Vec<u8>> {
    let edition = match [Edition::First, Edition::Second].map(|e| sum_is_right(e, text)) {
        [true, false] => Edition::First,
        [false, true] => Edition::Second,
        _ => return None,
    };
    let comma = text.iter().rposition(|&byte| byte == b',')?;
    let sum = fletcher(edition.other(), &text[..comma]);
    let mut line = [&text[..comma], format!(",fletcher:{sum:x}").as_bytes()].concat();
    while (line.len() as u64) < newline {
        line.push(b' ');
    }
    line.push(b'\n');
    Some(line)
}
