//! Tables: of every length that a log has use for or hasn't, and such as no build made.
//!
//! Assumes nothing.

use crate::model::*;
use crate::random::Random;

/// Every length.
pub(super) const ROOMS: [&str; 7] = [
    "as many places as the peak needs",
    "as many, and a word more",
    "one place less",
    "enough for the end, not for the peak",
    "of no words",
    "of one word",
    "more places",
];

/// Every table that no build made.
pub(super) const FOREIGN: [&str; 10] = [
    "any words",
    "any slots' places",
    "places in no order",
    "a zero place among them",
    "a zero tag with an offset",
    "a place twice",
    "ids from 1,020 to 1,023, or 0",
    "tags that no place has",
    "offsets about the block's end",
    "zeros alone, as -221 leaves them",
];

/// A length in words, and which one that is.
pub(super) struct Room {
    pub kind: &'static str,
    pub words: usize,
}

pub(super) fn room(random: &mut Random, needed: Needed) -> Room {
    let (most, end) = (2 * needed.most, 2 * needed.end);
    let (which, words) = match random.below(16) {
        0..4 => (0, most),
        4 => (1, most + 1),
        5..8 if most > 0 => (2, most - 2 + random.below(2)),
        5..10 if end < most => (3, end + random.below(most - end)),
        8 => (4, 0),
        9 => (5, 1),
        // More words than sixteen bits count.
        10 if random.below(64) == 0 => (6, most + 65_536),
        _ => (6, most + 2 + random.below(12)),
    };
    Room {
        kind: ROOMS[which],
        words,
    }
}

pub(super) fn any_words(random: &mut Random, words: usize) -> Vec<u32> {
    (0..words).map(|_| random.word()).collect()
}

/// Words behind the first place that is zero: an extension takes no place there.
pub(super) fn noise_behind(random: &mut Random, table: &mut [u32]) {
    let zero = table.chunks_exact(2).position(|place| place[0] == 0);
    let from = match zero {
        Some(zero) => 2 * zero + 1,
        None => table.len() / 2 * 2,
    };
    table[from..].fill_with(|| random.word());
}

/// Another table of at least as many words, from one that a build may have left.
pub(super) fn foreign(
    random: &mut Random,
    block_size: u32,
    mut table: Vec<u32>,
) -> (&'static str, Vec<u32>) {
    let which = random.below(FOREIGN.len());
    let used = table.chunks_exact(2).take_while(|place| place[0] != 0);
    let used = used.count();
    if which != 0 && used < 3 {
        table.resize(table.len().max(8), 0);
        fill(random, &mut table, block_size);
    }
    let places = table.len() / 2;
    let any = 2 * random.below(places.max(1));
    match which {
        0 => table.fill_with(|| random.word()),
        1 => fill(random, &mut table, block_size),
        2 => shuffle(random, &mut table[..2 * places]),
        3 => table[any..any + 2].fill(0),
        4 => table[any] = 0,
        5 => {
            let from = 2 * random.below(places);
            table.copy_within(from..from + 2, any);
        }
        6 => each_tag(random, &mut table, |random, tag| {
            let id = [1020, 1021, 1022, 1023, 0][random.below(5)];
            tag & !ID_BITS | id << 10
        }),
        7 => each_tag(random, &mut table, odd_tag),
        8 => {
            for off in table.iter_mut().skip(1).step_by(2) {
                *off = odd_offset(random, block_size);
            }
        }
        _ => table.fill(0),
    }
    (FOREIGN[which], table)
}

/// Places of a few slots, in any order, with offsets in the block.
fn fill(random: &mut Random, table: &mut [u32], block_size: u32) {
    for place in table.chunks_exact_mut(2) {
        let types = [FILE, DIRECTORY, INLINE, CTZ, 0x300, 0x374, 0x3ff];
        let (type_, id) = (types[random.below(7)], random.below(6) as u32);
        place[0] = tag_of(type_, id, random.below(40) as u32);
        place[1] = random.below(block_size as usize + 1) as u32;
    }
    if random.below(2) == 0 {
        let mut places: Vec<[u32; 2]> = table.chunks_exact(2).map(|at| [at[0], at[1]]).collect();
        places.sort_by_key(|place| (id_of(place[0]), type1_of(place[0]), type_of(place[0])));
        for (to, from) in table.chunks_exact_mut(2).zip(places) {
            to.copy_from_slice(&from);
        }
    }
}

fn shuffle(random: &mut Random, table: &mut [u32]) {
    for last in (1..table.len() / 2).rev() {
        let other = random.below(last + 1);
        table.swap(2 * last, 2 * other);
        table.swap(2 * last + 1, 2 * other + 1);
    }
}

/// Alters one tag in three.
fn each_tag(random: &mut Random, table: &mut [u32], alter: impl Fn(&mut Random, u32) -> u32) {
    for place in table.chunks_exact_mut(2) {
        if random.below(3) == 0 {
            place[0] = alter(random, place[0]);
        }
    }
}

/// With bit 31, of a removal, of a type that takes no place, or one that an id more or
/// less takes past its word.
fn odd_tag(random: &mut Random, tag: u32) -> u32 {
    match random.below(6) {
        0 => tag | INVALID,
        1 => tag | REMOVAL,
        2 => tag_of(
            [0x100, CREATE, DELETE, CHECK, SOFT_TAIL, MOVE_STATE][random.below(6)],
            id_of(tag),
            0,
        ),
        3 => 0u32.wrapping_sub(ONE_ID),
        4 => ONE_ID,
        _ => random.word(),
    }
}

/// Near the block's end, and such as would wrap with a size added.
fn odd_offset(random: &mut Random, block_size: u32) -> u32 {
    let some = random.below(48) as u32;
    let all = [
        block_size,
        block_size + 1,
        block_size.saturating_sub(some),
        block_size.saturating_sub(some),
        u32::MAX,
        0u32.wrapping_sub(some),
        1 << 31,
        0,
    ];
    all[random.below(all.len())]
}
