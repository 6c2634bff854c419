//! The words that more than one comparison takes: corners, a stride, random.
//!
//! Assumes nothing.

use crate::random::Random;

/// How many words a stride, or a random list, has.
pub const MANY: usize = 1 << 20;

/// Values at which a field of a tag changes its meaning or its bits.
const TYPES: [u32; 18] = [
    0x000, 0x001, 0x07f, 0x080, 0x0ff, 0x100, 0x1ff, 0x200, 0x3ff, 0x400, 0x401, 0x4ff, 0x500,
    0x57f, 0x5ff, 0x600, 0x601, 0x7ff,
];
const IDS: [u32; 6] = [0, 1, 511, 512, 1022, 1023];
const SIZES: [u32; 9] = [0, 1, 3, 4, 8, 511, 512, 1022, 1023];

/// 0, all ones, each power of two with its two neighbours, and all ones but a
/// power of two: 0xfffffffe is a block number with a meaning of its own.
pub fn corners() -> Vec<u32> {
    let mut words = vec![0, u32::MAX];
    for k in 0..32 {
        let power = 1u32 << k;
        words.extend([power - 1, power, power + 1, !power]);
    }
    words.sort_unstable();
    words.dedup();
    words
}

/// Every combination of the fields' corner values, with the valid bit 0 and 1.
pub fn tag_corners() -> Vec<u32> {
    let mut tags = Vec::new();
    for type_ in TYPES {
        for id in IDS {
            for size in SIZES {
                let tag = type_ << 20 | id << 10 | size;
                tags.extend([tag, tag | 0x8000_0000]);
            }
        }
    }
    tags
}

/// A pass through all 2^32 words. The step is odd: with 4,096 the low twelve
/// bits would never vary.
pub fn stride() -> impl Iterator<Item = u32> {
    (0..MANY as u32).map(|i| i.wrapping_mul(4097))
}

/// Corners, a stride and random words, plain and of any width.
pub fn words(random: &mut Random) -> Vec<u32> {
    let mut words = corners();
    words.extend(tag_corners());
    words.extend(stride());
    words.extend((0..MANY).map(|_| random.word()));
    words.extend((0..MANY / 4).map(|_| random.word_of_any_width()));
    words
}

/// Two words: corners with corners, random ones, and close ones, whose
/// difference is a corner (so that orders are tried at 0 and at 2^31).
pub fn two_words(random: &mut Random) -> Vec<(u32, u32)> {
    let corners = corners();
    let mut twos = Vec::new();
    for &a in &corners {
        twos.extend(corners.iter().map(|&b| (a, b)));
    }
    twos.extend((0..MANY).map(|_| (random.word(), random.word())));
    for _ in 0..MANY / 4 {
        twos.push((random.word_of_any_width(), random.word_of_any_width()));
    }
    for _ in 0..MANY / 4 {
        let a = random.word();
        twos.push((a, a.wrapping_add(corners[random.below(corners.len())])));
    }
    twos
}

/// Two pairs of blocks that share none, one or both in every position: each
/// block of the second is the first's first, its second, or another one. The
/// other one is random, or differs in a single bit.
pub fn two_pairs(random: &mut Random, p: [u32; 2]) -> Vec<([u32; 2], [u32; 2])> {
    let near = p[random.below(2)] ^ (1 << random.below(32));
    let mut pairs = Vec::new();
    for other in [random.word(), near] {
        for q0 in [p[0], p[1], other] {
            for q1 in [p[0], p[1], other] {
                pairs.push((p, [q0, q1]));
            }
        }
    }
    pairs
}
