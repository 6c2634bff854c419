//! Damaged images: what a stopped write or a worn flash leaves, and worse.
//!
//! Assumes that an image has at least 128 bytes.

use super::Log;
use crate::random::Random;

/// One or two damages. They fall on the written part more often than not.
pub fn damage(random: &mut Random, log: &Log) -> Vec<u8> {
    let mut bytes = log.bytes.clone();
    for _ in 0..1 + random.below(2) {
        once(random, log, &mut bytes);
    }
    bytes
}

fn once(random: &mut Random, log: &Log, bytes: &mut [u8]) {
    let written = log.at().clamp(8, bytes.len());
    let at = match random.below(4) {
        0 => random.below(bytes.len()),
        _ => random.below(written),
    };
    match random.below(7) {
        0..2 => bytes[at] ^= 1 << random.below(8),
        2 => bytes[at..].fill(0xff),
        3 => cut(random, log, bytes),
        4 => bytes.swap(at, random.below(written)),
        5 => bytes[at..written.max(at)].fill([0x00, 0xff][random.below(2)]),
        _ => {
            let end = (at + 1 + random.below(8)).min(bytes.len());
            let noise = random.bytes(end - at);
            bytes[at..end].copy_from_slice(&noise);
        }
    }
}

/// The last commit up to some byte of it, as a write that was stopped.
fn cut(random: &mut Random, log: &Log, bytes: &mut [u8]) {
    let last = log.ends.last().map_or(4, |&end| end.min(bytes.len()));
    let before = log.ends.iter().rev().nth(1).copied().unwrap_or(4);
    let before = before.min(last);
    let place = before + random.below(last - before + 1);
    bytes[place..].fill(0xff);
}
