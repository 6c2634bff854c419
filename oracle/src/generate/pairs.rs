//! Two blocks with revisions in every relation, their numbers, and the rest of
//! what a fetch takes.
//!
//! Assumes nothing.

use super::entries::Writer;
use super::{damage, shapes, sizes, Case, Log, Sizes};
use crate::calls::Geometry;
use crate::random::Random;

pub fn case(random: &mut Random, sizes: Sizes) -> Case {
    let kind = match random.below(100) {
        0..58 => "logs",
        58..82 => "damaged",
        82..86 => "random bytes",
        _ => return shapes::case(random, sizes),
    };
    let geometry = sizes::geometry(random, sizes);
    let [rev0, rev1] = revisions(random);
    let first = match kind {
        "random bytes" => random_image(random, geometry, rev0),
        _ => {
            let log = log(random, geometry, rev0);
            let hurt = kind == "damaged" && random.below(4) > 0;
            if hurt {
                damage::damage(random, &log)
            } else {
                log.bytes
            }
        }
    };
    let second = other(random, geometry, rev1, &first, kind == "damaged");
    finish(random, kind, geometry, [first, second])
}

/// Numbers, block count and seed around two images, in either order.
pub fn finish(
    random: &mut Random,
    kind: &'static str,
    geometry: Geometry,
    images: [Vec<u8>; 2],
) -> Case {
    let mut images = images;
    if random.below(2) == 0 {
        images.swap(0, 1);
    }
    let numbers = numbers(random);
    Case {
        kind,
        geometry,
        images,
        numbers,
        block_count: block_count(random, numbers),
        seed: random.word(),
    }
}

/// A log of up to thirty commits, mostly of few, or of as many as the block
/// holds; tame, or with odd entries.
pub fn log(random: &mut Random, geometry: Geometry, revision: u32) -> Log {
    let odd = [0, 0, 8, 30, 90][random.below(5)];
    let most = [2, 2, 4, 4, 8, 8, 30, 30, 8192][random.below(9)];
    let commits = 1 + random.below(most);
    let log = Log::new(geometry.block_size as usize, revision);
    let mut writer = Writer::new(random, log, geometry.prog_size as usize, odd);
    writer.fill(commits);
    writer.log
}

fn random_image(random: &mut Random, geometry: Geometry, revision: u32) -> Vec<u8> {
    let size = geometry.block_size as usize;
    let mut image = match random.below(4) {
        0 => vec![0xff; size],
        1 => vec![0; size],
        _ => random.bytes(size),
    };
    if random.below(2) == 0 {
        image[..4].copy_from_slice(&revision.to_le_bytes());
    }
    image
}

fn other(
    random: &mut Random,
    geometry: Geometry,
    revision: u32,
    first: &[u8],
    damaged: bool,
) -> Vec<u8> {
    match random.below(20) {
        0..5 => vec![0xff; geometry.block_size as usize],
        5 => first.to_vec(),
        6 => random_image(random, geometry, revision),
        7..9 => {
            let log = log(random, geometry, revision);
            damage::damage(random, &log)
        }
        9 | 10 if damaged => {
            let log = log(random, geometry, revision);
            damage::damage(random, &log)
        }
        _ => log(random, geometry, revision).bytes,
    }
}

/// Equal, neighbours, across the wrap, 2^31 apart and beside it, any.
fn revisions(random: &mut Random) -> [u32; 2] {
    let base = match random.below(4) {
        0 => [0, 1, 0xffff_ffff, 0x7fff_ffff, 0x8000_0000][random.below(5)],
        1 => random.below(300) as u32,
        _ => random.word(),
    };
    let ahead = match random.below(12) {
        0 => 0,
        1 => 0x8000_0000,
        2 => 0x7fff_ffff,
        3 => 0x8000_0001,
        4..7 => 1,
        7..9 => u32::MAX,
        9 => random.below(1000) as u32,
        _ => random.word(),
    };
    [base, base.wrapping_add(ahead)]
}

/// Two numbers below 0xfffffffe, not equal.
fn numbers(random: &mut Random) -> [u32; 2] {
    let any = |random: &mut Random| match random.below(4) {
        0 => random.word().min(0xffff_fffd),
        1 => 0xffff_fffd - random.below(3) as u32,
        _ => random.below(8) as u32,
    };
    let first = any(random);
    let second = any(random);
    match first == second {
        true => [first, first ^ 1],
        false => [first, second],
    }
    .map(|number| number.min(0xffff_fffd))
}

/// Mostly 0, which asks for no test; else around the two numbers.
fn block_count(random: &mut Random, numbers: [u32; 2]) -> u32 {
    let [low, high] = [numbers[0].min(numbers[1]), numbers[0].max(numbers[1])];
    match random.below(24) {
        0 => low,
        1 => low + 1,
        2 => high,
        3..5 => high + 1,
        5 => random.word_of_any_width(),
        _ => 0,
    }
}
