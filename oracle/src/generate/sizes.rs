//! Block sizes and program sizes.
//!
//! Assumes nothing.

use super::Sizes;
use crate::calls::Geometry;
use crate::random::Random;

/// Common ones; ones that are no power of two; the largest program size; a
/// block that is one program unit.
const USUAL: [(u32, u32); 14] = [
    (128, 4),
    (128, 16),
    (128, 128),
    (130, 5),
    (132, 12),
    (160, 16),
    (200, 8),
    (256, 4),
    (256, 16),
    (256, 256),
    (510, 255),
    (512, 16),
    (512, 64),
    (512, 512),
];

/// The first so many of them have at most 256 bytes.
const SMALLEST: usize = 10;

const LARGER: [(u32, u32); 8] = [
    (765, 255),
    (1024, 16),
    (1024, 512),
    (1500, 100),
    (2048, 256),
    (2475, 5),
    (4096, 16),
    (4096, 512),
];

const LARGEST: [(u32, u32); 4] = [(8192, 16), (16_384, 128), (32_768, 16), (32_704, 511)];

pub fn geometry(random: &mut Random, sizes: Sizes) -> Geometry {
    let (block_size, prog_size) = match (sizes, random.below(1000)) {
        (Sizes::Small, 0..700) => USUAL[random.below(SMALLEST)],
        (_, 0..550) => USUAL[random.below(USUAL.len())],
        (_, 550..800) => up_to(random, 512),
        (Sizes::Small, _) => USUAL[random.below(USUAL.len())],
        (_, 800..920) => up_to(random, 1500),
        (_, 920..990) => LARGER[random.below(LARGER.len())],
        (_, 990..996) => up_to(random, 8192),
        _ => LARGEST[random.below(LARGEST.len())],
    };
    Geometry {
        block_size,
        prog_size,
    }
}

/// Any program size, and any multiple of it that is a block size.
fn up_to(random: &mut Random, largest: u32) -> (u32, u32) {
    let prog = match random.below(2) {
        0 => 4 + random.below(60) as u32,
        _ => 4 + random.below(509) as u32,
    };
    let (least, most) = (128u32.div_ceil(prog), (largest / prog).max(1));
    let most = most.max(least);
    (
        prog * (least + random.below((most - least + 1) as usize) as u32),
        prog,
    )
}
