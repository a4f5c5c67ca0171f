//! Questions from a seed: what the chosen ones may have missed.

use super::{both, bytes_word};
use crate::random::Random;

const SEED: u64 = 8;

pub fn questions() -> Vec<String> {
    let mut random = Random::new(SEED);
    let mut out = Vec::new();
    for _ in 0..16 {
        let length = random.below(90);
        out.extend(both("sum", &bytes_word(&bytes(&mut random, length))));
        out.extend(both("fill", &format!("{:x} {:x}", random.below(256), random.below(0x4000))));
        out.push(format!("position {:x}", random.draw() >> random.below(64)));
        let [chunk, offset, length] = [26, 32, 32].map(|bits| random.draw() >> (64 - bits));
        out.push(format!("check {chunk:x} {offset:x} {length:x}"));
        out.push(variable(&mut random));
        out.push(format!("key 1 0 {}", bytes_word(&key(&mut random))));
    }
    // 360 words, which are added before the sums are reduced, and an odd last byte.
    out.extend(both("sum", &bytes_word(&bytes(&mut random, 721))));
    out
}

fn bytes(random: &mut Random, length: u64) -> Vec<u8> {
    (0..length).map(|_| random.draw() as u8).collect()
}

/// Mostly bytes that go on, and then one that ends.
fn variable(random: &mut Random) -> String {
    let length = random.below(7);
    let mut form: Vec<u8> = bytes(random, length).iter().map(|byte| byte | 0x80).collect();
    form.extend(bytes(random, 2));
    let limit = *random.pick(&[1u64 << 31, 1 << 48, 1025, 65536]);
    format!("var {limit:x} {:x} {}", random.below(3), bytes_word(&form))
}

/// A length that is about right, and bytes that mostly are.
fn key(random: &mut Random) -> Vec<u8> {
    let length = random.below(20) as u8;
    let mut key = vec![length];
    key.extend((0..length + random.below(3) as u8).map(|_| 30 + random.below(98) as u8));
    key.truncate(1 + random.range(u64::from(length) / 2, 40) as usize);
    key
}
