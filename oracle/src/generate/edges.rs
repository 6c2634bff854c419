//! Inputs at the edges of the domain and outside it: each number just inside
//! and just outside, one at a time.
//!
//! Assumes nothing.

use super::Case;
use crate::calls::{Mdir, Query};
use crate::random::Random;

/// What is broken beside the images: the lookups' own numbers.
#[derive(Clone, Copy, Debug)]
pub struct Edge {
    pub dir: Mdir,
    pub query: Query,
    pub buffer: usize,
    pub name_max: u32,
    pub id: u32,
}

/// Sizes at every bound, on either side of it. The images are as long as the
/// block size says, so that nothing else is broken.
const SIZES: [(u32, u32); 26] = [
    (128, 4),
    (127, 127),
    (126, 6),
    (64, 4),
    (129, 3),
    (128, 1),
    (128, 2),
    (128, 0),
    (0, 4),
    (0, 0),
    (1, 4),
    (128, 5),
    (129, 4),
    (130, 5),
    (130, 4),
    (512, 512),
    (1024, 512),
    (1026, 513),
    (1024, 1024),
    (32_768, 512),
    (32_769, 331),
    (32_772, 4),
    (33_280, 512),
    (65_536, 512),
    (765, 255),
    (766, 255),
];

/// Breaks one thing, or puts it just inside its bound. The case's kind says
/// which.
pub fn broken(random: &mut Random, case: &Case, edge: &Edge) -> (Case, Edge) {
    let (mut case, mut edge) = (case.clone(), *edge);
    let kinds = [
        "edge: block or program size",
        "edge: length of an image",
        "edge: block numbers",
        "edge: pair of the record",
        "edge: end of the record",
        "edge: length of the buffer",
        "edge: longest name",
        "edge: id",
        "edge: offset",
    ];
    let which = random.below(kinds.len());
    case.kind = kinds[which];
    match which {
        0 => sizes(random, &mut case),
        1 => lengths(random, &mut case),
        2 => numbers(random, &mut case, &mut edge),
        3 => pair(random, &mut edge),
        4 => edge.dir.off = near(random, case.geometry.block_size),
        5 => edge.buffer = [65_535, 65_536, 65_537, 131_072][random.below(4)],
        6 => edge.name_max = [0, 1, 2, 254, 255, 256, 1022, u32::MAX][random.below(8)],
        7 => edge.id = [1022, 1023, 1024, 1025, 65_535, 65_536, 66_559, u32::MAX][random.below(8)],
        _ => offset(random, &case, &mut edge),
    }
    // At times the root too: its answer needs no lookup, and comes last all the
    // same.
    if random.below(4) == 0 {
        edge.id = 1023;
    }
    (case, edge)
}

/// Breaks sizes, lengths or numbers of the blocks alone, or puts them just
/// inside their bounds.
pub fn broken_blocks(random: &mut Random, case: &Case) -> Case {
    let mut case = case.clone();
    let mut edge = Edge {
        dir: Mdir::default(),
        query: Query {
            mask: 0,
            key: 0,
            offset: 0,
        },
        buffer: 0,
        name_max: 1,
        id: 0,
    };
    match random.below(3) {
        0 => sizes(random, &mut case),
        1 => lengths(random, &mut case),
        _ => numbers(random, &mut case, &mut edge),
    }
    case
}

fn sizes(random: &mut Random, case: &mut Case) {
    let (block_size, prog_size) = SIZES[random.below(SIZES.len())];
    case.geometry.block_size = block_size;
    case.geometry.prog_size = prog_size;
    for image in &mut case.images {
        image.resize(block_size as usize, 0xff);
    }
}

/// One image, or both, of another length: a byte less or more, none, double.
fn lengths(random: &mut Random, case: &mut Case) {
    let block = case.geometry.block_size as usize;
    let length = [block - 1, block + 1, 0, 2 * block, 3][random.below(5)];
    let which = random.below(3);
    for (i, image) in case.images.iter_mut().enumerate() {
        if which == 2 || which == i {
            image.resize(length, 0xff);
        }
    }
}

/// Equal numbers, and the two highest ones, which are numbers like others.
fn numbers(random: &mut Random, case: &mut Case, edge: &mut Edge) {
    let [n0, n1] = case.numbers;
    case.numbers = match random.below(6) {
        0 => [n0, n0],
        1 => [n1, n1],
        2 => [u32::MAX, n1],
        3 => [n0, 0xffff_fffe],
        4 => [0xffff_fffe, u32::MAX],
        _ => [u32::MAX, u32::MAX],
    };
    edge.dir.pair = match random.below(2) {
        0 => case.numbers,
        _ => [case.numbers[1], case.numbers[0]],
    };
}

/// A pair that is not the two numbers: one of them twice, or another one.
fn pair(random: &mut Random, edge: &mut Edge) {
    let [n0, n1] = edge.dir.pair;
    edge.dir.pair = match random.below(6) {
        0 => [n0, n0],
        1 => [n1, n1],
        2 => [n0 ^ 0x8000_0000, n1],
        3 => [n0, n1 ^ 0x8000_0000],
        4 => [n1, n0],
        _ => [random.word(), random.word()],
    };
}

fn near(random: &mut Random, block: u32) -> u32 {
    let places = [
        block,
        block - 1,
        block + 1,
        block + 4,
        0,
        3,
        4,
        65_536,
        u32::MAX,
        1 << 31,
    ];
    places[random.below(places.len())]
}

/// Offsets that would wrap a sum of 32 bits back into the block.
fn offset(random: &mut Random, case: &Case, edge: &mut Edge) {
    let back = random.below(case.geometry.block_size as usize + 8) as u32;
    edge.query.offset = match random.below(6) {
        0 => u32::MAX,
        1 => 0u32.wrapping_sub(back),
        2 => 65_537,
        3 => 1 << 31,
        4 => random.word(),
        _ => 0u32.wrapping_sub(random.below(16) as u32),
    };
}
