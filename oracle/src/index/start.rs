//! The pairs that histories start from.
//!
//! Assumes nothing.

use super::busy;
use crate::calls::Geometry;
use crate::find::crowd;
use crate::generate::{self, Case, Log, Sizes};
use crate::histories::lists::{Habits, List};
use crate::histories::{history, start};
use crate::model::*;
use crate::random::Random;

/// Attributes on either side of where a type's lowest byte is a signed one.
const TYPES: [u32; 8] = [0x300, 0x301, 0x374, 0x37f, 0x380, 0x3a0, 0x3fe, 0x3ff];
const NAMES: [&[u8]; 4] = [b"a", b"ab", b"q212", b"done"];

pub(super) fn case(random: &mut Random) -> (Case, Habits) {
    let geometry = start::geometry(random);
    let mut habits = Habits {
        commits: 8,
        ..history::habits(random, geometry.block_size)
    };
    if random.below(2) == 0 {
        habits.types = TYPES.to_vec();
    }
    // With names of its own, a history creates, deletes and renames more.
    if random.below(2) == 0 {
        habits.names = NAMES.map(<[u8]>::to_vec).to_vec();
    }
    let mut case = match random.below(64) {
        0..24 => start::filled(random, geometry, &habits),
        24..36 => busy::case(random, &habits),
        36..46 => start::wider(random, geometry, &habits),
        46 => crowd::case(random, &habits),
        47 => full(random, &habits),
        48..54 => start::case(random, geometry, &habits),
        _ => generate::case(random.word().into(), Sizes::Small).0,
    };
    if random.below(8) > 0 {
        case.block_count = 0;
    }
    (case, habits)
}

/// Many slots with all that a slot has, made at any place among the others: as many as
/// the block holds, of the largest one up to a pair's most.
fn full(random: &mut Random, habits: &Habits) -> Case {
    let geometry = Geometry {
        block_size: [4096, 32_768][random.below(16) / 15],
        prog_size: 16,
    };
    let revision = random.word();
    let mut log = Log::on(habits.board(random), geometry.block_size as usize, revision);
    for count in 0..1023 {
        let (mut list, id) = (List::default(), random.below(count + 1) as u32);
        list.push(CREATE, id, &[]);
        list.push(FILE, id, b"q");
        list.push(INLINE, id, &[]);
        list.push(habits.types[0], id, &random.bytes(2));
        if list.length() + 64 > log.room() {
            break;
        }
        start::put(&mut log, &list);
        if random.below(16) == 0 {
            start::check(random, &mut log, geometry, true, false);
        }
    }
    start::check(random, &mut log, geometry, true, false);
    start::finished(random, "full", geometry, habits, (log, revision))
}
