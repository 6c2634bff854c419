//! Commits that make, move, overwrite and take out much in a few slots: so a slot has
//! several attributes, and a log has fewer live entries at its end than before.
//!
//! Assumes that the count given is the record's.

use crate::calls::Geometry;
use crate::generate::{Case, Log};
use crate::histories::lists::{Habits, List};
use crate::histories::start;
use crate::model::*;
use crate::random::Random;

/// On either side of where a type's lowest byte is a negative one.
const TYPES: [u32; 4] = [0x3ff, 0x301, 0x380, 0x37f];
const SIZES: [(u32, u32); 3] = [(512, 16), (1024, 16), (765, 255)];

/// A list, and the count behind it.
pub(super) fn list(random: &mut Random, count: u32) -> (List, u32) {
    let (mut list, mut count) = (List::default(), count);
    for _ in 0..1 + random.below(8) {
        let id = random.below(count.clamp(1, 4) as usize) as u32;
        let type_ = TYPES[random.below(4)];
        let length = random.below(5);
        match random.below(12) {
            _ if count == 0 => count += create(random, &mut list, count),
            0 | 1 => count += create(random, &mut list, count),
            2 => {
                list.push(DELETE, id, &[]);
                count -= 1;
            }
            3 => list.push(
                [FILE, DIRECTORY][random.below(2)],
                id,
                &random.bytes(1 + length),
            ),
            4 => list.push(INLINE, id, &random.bytes(length)),
            5..9 => list.push(type_, id, &random.bytes(length)),
            _ => list.remove(type_, id, 0),
        }
    }
    (list, count)
}

/// A slot, mostly one with a name; how many more there are then.
fn create(random: &mut Random, list: &mut List, count: u32) -> u32 {
    if count > 1022 {
        return 0;
    }
    let id = random.below(count.min(4) as usize + 1) as u32;
    list.push(CREATE, id, &[]);
    if random.below(4) > 0 {
        list.push(FILE, id, b"q");
    }
    1
}

/// A log of such commits.
pub(super) fn case(random: &mut Random, habits: &Habits) -> Case {
    let (block_size, prog_size) = SIZES[random.below(3)];
    let geometry = Geometry {
        block_size,
        prog_size,
    };
    let (revision, mut count) = (random.word(), 0);
    let mut log = Log::on(habits.board(random), block_size as usize, revision);
    for _ in 0..1 + random.below(10) {
        let (list, behind) = list(random, count);
        let full = list.length() + 2 * prog_size as usize > log.room();
        if full && !log.ends.is_empty() {
            break;
        }
        count = behind;
        start::put(&mut log, &list);
        start::check(random, &mut log, geometry, true, false);
    }
    start::finished(random, "busy", geometry, habits, (log, revision))
}
