//! What is asked of a table: of every slot its name, its struct and the attributes that
//! occur, and some that don't; ids and types that no table has; and what stands in a
//! table that no build made.
//!
//! Assumes nothing.

use crate::calls::index::Look;
use crate::calls::Mdir;
use crate::generate::tags_in;
use crate::model::*;
use crate::random::Random;

/// Every slot is looked up.
pub(super) const ALL: usize = usize::MAX;
/// With more slots than these, some of them.
const MOST_SLOTS: u32 = 12;
/// With more attribute types than these, some of them.
const MOST_TYPES: usize = 6;

/// One lookup, with so many bytes of buffer.
#[derive(Clone, Copy, Debug)]
pub struct Asking {
    pub look: Look,
    pub length: usize,
}

/// One that finds nothing there, and the lookups of a directory's slots, or so many of
/// them.
pub(super) fn of_slots(
    random: &mut Random,
    block: &[u8],
    dir: &Mdir,
    lookups: usize,
) -> Vec<Asking> {
    let (types, count) = (types_in(random, block), u32::from(dir.count).min(NO_SLOT));
    let ids: Vec<u32> = match count {
        0..=MOST_SLOTS => (0..count).collect(),
        _ => (0..MOST_SLOTS).map(|i| some_id(random, i, count)).collect(),
    };
    let mut looks = Vec::new();
    for &id in &ids {
        looks.push((
            one_of(random, &[NAME, FILE, DIRECTORY, SUPERBLOCK, 0x07f]),
            id,
        ));
        looks.push((one_of(random, &[DIR_STRUCT, INLINE, CTZ, 0x2ff]), id));
        looks.extend(types.iter().map(|&type_| (type_, id)));
    }
    while looks.len() > lookups {
        looks.swap_remove(random.below(looks.len()));
    }
    let type_ = one_of(random, &types);
    looks.insert(0, odd(random, type_, count));
    let asking = |(type_, id)| Asking {
        look: Look { type_, id },
        length: length(random),
    };
    looks.into_iter().map(asking).collect()
}

/// The first four, the last four, and any.
fn some_id(random: &mut Random, i: u32, count: u32) -> u32 {
    match i {
        0..4 => i,
        4..8 => count - 8 + i,
        _ => random.below(count as usize) as u32,
    }
}

fn one_of(random: &mut Random, types: &[u32]) -> u32 {
    types[random.below(types.len())]
}

/// The types of attributes that stand in a block, or some of them, and two more.
fn types_in(random: &mut Random, block: &[u8]) -> Vec<u32> {
    let attributes = tags_in(block).into_iter().map(type_of);
    let mut types: Vec<u32> = attributes
        .filter(|type_| type_ & 0x700 == ATTRIBUTE)
        .collect();
    types.sort_unstable();
    types.dedup();
    while types.len() > MOST_TYPES {
        types.swap_remove(random.below(types.len()));
    }
    types.extend([0x374, ATTRIBUTE + random.below(256) as u32]);
    types.dedup();
    types
}

/// An id that no slot has, or a type that takes no place; both also with higher bits
/// that, cut off, would leave one that is there.
fn odd(random: &mut Random, type_: u32, count: u32) -> (u32, u32) {
    let id = random.below(count.max(1) as usize) as u32;
    let ids = [
        count,
        NO_SLOT,
        1024 + id,
        65_536 + id,
        id << 22 | 1 << 31,
        u32::MAX,
    ];
    let types = [
        0x100 | type_ & 0xff,
        0x400 | type_ & 0xff,
        CREATE,
        CHECK,
        MOVE_STATE,
        0x800 | type_,
        1 << 16 | type_,
        type_ << 20,
        u32::MAX,
    ];
    match random.below(2) {
        0 => (type_, ids[random.below(ids.len())]),
        _ => (types[random.below(types.len())], id),
    }
}

/// Mostly small; at times none, as long as entries get, and on either side of the longest
/// that is taken.
fn length(random: &mut Random) -> usize {
    match random.below(400) {
        0 => [65_535, 65_536, 65_537][random.below(3)],
        1..10 => [1022, 1023, 4096][random.below(3)],
        10..80 => [0, 1, 4, 8][random.below(4)],
        _ => random.below(48),
    }
}

/// What a table's places would answer, and their neighbours.
pub(super) fn of_table(random: &mut Random, table: &[u32]) -> Vec<Asking> {
    let places = table.len() / 2;
    let mut askings = Vec::new();
    for _ in 0..4 {
        let tag = match places {
            0 => random.word(),
            _ => table[2 * random.below(places)],
        };
        let id = match random.below(8) {
            0 => id_of(tag) ^ 1,
            1 => 1024 + id_of(tag),
            _ => id_of(tag),
        };
        let type_ = match random.below(8) {
            0 => type_of(tag) ^ 1,
            1 => 0x800 | type_of(tag),
            _ => type_of(tag),
        };
        askings.push(Asking {
            look: Look { type_, id },
            length: length(random),
        });
    }
    askings
}
