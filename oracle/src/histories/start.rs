//! The pairs that histories start from.
//!
//! Assumes nothing.

use super::ask;
use super::lists::{self, Habits, List};
use super::solve::{solve, Goal};
use super::wide;
use crate::calls::write::{Work, DOCUMENT, ERASED};
use crate::calls::Geometry;
use crate::generate::{self, Case, Log, Sizes};
use crate::model::*;
use crate::random::Random;
use std::ops::Range;

/// Small blocks, with each program size that a rule could trip over.
const SMALL: [(u32, u32); 16] = [
    (128, 4),
    (128, 4),
    (128, 16),
    (130, 5),
    (132, 12),
    (200, 8),
    (256, 4),
    (256, 16),
    (256, 64),
    (384, 128),
    (510, 255),
    (512, 16),
    (765, 255),
    (765, 255),
    (1024, 16),
    (1536, 512),
];

pub fn geometry(random: &mut Random) -> Geometry {
    if random.below(12) == 0 {
        return generate::geometry(random, Sizes::Any);
    }
    let (block_size, prog_size) = SMALL[random.below(SMALL.len())];
    Geometry {
        block_size,
        prog_size,
    }
}

/// A pair whose log is mostly regular, by document 01's rule or by littlefs's.
pub fn case(random: &mut Random, geometry: Geometry, habits: &Habits) -> Case {
    of_kinds(random, geometry, habits, 0..24)
}

/// The same, but for a fresh pair.
pub fn filled(random: &mut Random, geometry: Geometry, habits: &Habits) -> Case {
    of_kinds(random, geometry, habits, 9..24)
}

fn of_kinds(random: &mut Random, geometry: Geometry, habits: &Habits, kinds: Range<usize>) -> Case {
    let revision = match random.below(4) {
        0 => [0, 1, u32::MAX, u32::MAX - 1, 0x7fff_ffff][random.below(5)],
        _ => random.word(),
    };
    let (kind, log) = match kinds.start + random.below(kinds.len()) {
        0..9 => ("fresh", fresh(geometry, habits.board(random), revision)),
        9..16 => (
            "regular",
            regular(random, geometry, habits, revision, false),
        ),
        16..18 => (
            "irregular",
            regular(random, geometry, habits, revision, true),
        ),
        18..23 => (
            "wider",
            wide::log(random, geometry, habits, revision, false),
        ),
        _ => (
            "irregular",
            wide::log(random, geometry, habits, revision, true),
        ),
    };
    finished(random, kind, geometry, habits, (log, revision))
}

/// A pair whose log is of the wider kind, or just not.
pub fn wider(random: &mut Random, geometry: Geometry, habits: &Habits) -> Case {
    let revision = random.word();
    let spoil = random.below(3) == 0;
    let log = wide::log(random, geometry, habits, revision, spoil);
    finished(random, "wider", geometry, habits, (log, revision))
}

/// The log with another block beside it. What is behind it mostly is erased, as on the
/// board that wrote last.
pub fn finished(
    random: &mut Random,
    kind: &'static str,
    geometry: Geometry,
    habits: &Habits,
    (mut log, revision): (Log, u32),
) -> Case {
    if random.below(8) > 0 {
        log.erase_rest();
    }
    let other = other(random, geometry, habits, revision);
    let mut case = generate::finish(random, kind, geometry, [log.bytes, other]);
    let high = case.numbers[0].max(case.numbers[1]);
    case.block_count = [0, 0, high + 1][random.below(3)];
    case
}

/// A fresh pair with room for all slots.
pub fn large(random: &mut Random, erased: u8) -> Case {
    let geometry = Geometry {
        block_size: 8192,
        prog_size: 16,
    };
    let images = [fresh(geometry, erased, 1).bytes, vec![0xff; 8192]];
    let mut case = generate::finish(random, "fresh", geometry, images);
    case.block_count = 0;
    case
}

/// An empty directory whose end may be no multiple, whose end tag has either validity
/// bit, and behind which all is of either erased byte, but for up to two that may have
/// a bit of the other, or be it.
pub fn no_room(random: &mut Random, geometry: Geometry) -> Case {
    let mut log = empty(random, geometry);
    let size = log.check_size(0, geometry.prog_size as usize) + random.below(2) as u32;
    log.check(tag_of(CHECK + random.below(2) as u32, NO_SLOT, size));
    let (end, room) = (log.at(), log.room());
    for _ in 0..random.below(3) {
        if room > 0 {
            let bits = [0xff, 1 << random.below(8)][random.below(2)];
            log.bytes[end + random.below(room)] ^= bits;
        }
    }
    let images = [log.bytes, vec![0xff; geometry.block_size as usize]];
    let mut case = generate::finish(random, "no room", geometry, images);
    case.block_count = 0;
    case
}

/// A slot whose attributes leave so many bytes of the block behind the check of their
/// compaction, if that carries no forward check. The log may have one of others.
pub fn fitting(random: &mut Random, geometry: Geometry, left: isize) -> Case {
    let mut log = empty(random, geometry);
    log.put(tag_of(CREATE, 0, 0), &[]);
    let mut length = (log.room() as isize - 8 - left).max(0) as usize;
    for type_ in ATTRIBUTE..=ATTRIBUTE + 0xff {
        // What is left has room for a tag, or is nothing.
        let taken = if length > 1026 { 1022 } else { length };
        if taken < 4 {
            break;
        }
        let data = random.bytes(taken - 4);
        log.put(tag_of(type_, 0, data.len() as u32), &data);
        length -= taken;
    }
    if random.below(2) == 0 && holds_forward(&log, geometry) {
        forward(random, &mut log, geometry);
    }
    check(random, &mut log, geometry, true, false);
    let images = [log.bytes, vec![0xff; geometry.block_size as usize]];
    let mut case = generate::finish(random, "fitting", geometry, images);
    case.block_count = 0;
    case
}

/// A log of nothing yet, on flash of either kind.
fn empty(random: &mut Random, geometry: Geometry) -> Log {
    let erased = ERASED[random.below(2)];
    Log::on(erased, geometry.block_size as usize, random.word())
}

/// A compacted empty directory.
fn fresh(geometry: Geometry, erased: u8, revision: u32) -> Log {
    let mut log = Log::on(erased, geometry.block_size as usize, revision);
    let size = log.check_size(0, geometry.prog_size as usize);
    log.check(tag_of(log.check_type(), NO_SLOT, size));
    log
}

/// The block that does not answer: erased, any bytes, or an older log.
fn other(random: &mut Random, geometry: Geometry, habits: &Habits, revision: u32) -> Vec<u8> {
    let older = revision.wrapping_sub(1 + random.below(3) as u32);
    match random.below(4) {
        0 => vec![habits.board(random); geometry.block_size as usize],
        1 => random.bytes(geometry.block_size as usize),
        2 => fresh(geometry, habits.board(random), older).bytes,
        _ => regular(random, geometry, habits, older, false).bytes,
    }
}

/// Some commits, each on one of the boards: with superblock names, forward checks and
/// checks of any type and size; if asked for, with an entry that is not regular.
fn regular(
    random: &mut Random,
    geometry: Geometry,
    habits: &Habits,
    revision: u32,
    spoil: bool,
) -> Log {
    let mut log = Log::on(habits.board(random), geometry.block_size as usize, revision);
    let (mut count, commits) = (0, 1 + random.below(habits.commits));
    let spoiled = random.below(commits);
    let plain = random.below(2) == 0;
    for commit in 0..commits {
        let (list, behind) = lists::good(random, habits, count);
        if list.length() + 64 > log.room() {
            break;
        }
        count = behind;
        log.erased = habits.board(random);
        put(&mut log, &list);
        if count > 0 && random.below(3) == 0 {
            log.put(tag_of(SUPERBLOCK, 0, 8), b"littlefs");
        }
        if random.below(3) == 0 {
            forward(random, &mut log, geometry);
        }
        if spoil && spoiled == commit {
            spoilt(random, &mut log, count);
        }
        check(random, &mut log, geometry, plain, spoil);
    }
    if log.ends.is_empty() {
        check(random, &mut log, geometry, true, false);
    }
    log
}

pub fn put(log: &mut Log, list: &List) {
    for entry in &list.entries {
        let data = bytes_of(entry, &list.data).unwrap_or_default();
        log.put(tag_of(entry.type_.into(), entry.id.into(), entry.len), data);
    }
}

/// A pair whose log isn't regular, and whose compaction would coincide.
pub fn irregular_and_coincident(random: &mut Random, erased: u8) -> Option<Case> {
    let geometry = Geometry {
        block_size: 128,
        prog_size: 4,
    };
    let images = |four: [u8; 4]| {
        let mut log = Log::new(128, 1);
        log.put(tag_of(FORWARD, NO_SLOT, 12), &[0; 12]);
        log.put(
            tag_of(MOVE_STATE, NO_SLOT, 12),
            &[[0; 4], [0; 4], four].concat(),
        );
        log.check(tag_of(CHECK, NO_SLOT, 4));
        [log.bytes, vec![0xff; 128]]
    };
    let mut case = generate::finish(random, "irregular", geometry, images([0; 4]));
    case.block_count = 0;
    let compact = ask::task(&case, DOCUMENT, erased, Work::Compact, None);
    let laid = FAULTLESS_WRITER.laid(&compact, [&case.images[0], &case.images[1]])?;
    let goal = Goal::Coincide {
        put: 1 + random.below(3),
        fill: erased,
        against: erased,
    };
    let four = solve(&laid, goal)?;
    let second = case.images[1].first() != Some(&0xff);
    case.images = images(four);
    if second {
        case.images.swap(0, 1);
    }
    Some(case)
}

/// Whether a forward check and a check have room.
pub fn holds_forward(log: &Log, geometry: Geometry) -> bool {
    let check = 4 + log.check_size(12, geometry.prog_size as usize) as usize;
    12 + check <= log.room()
}

/// A forward check as others may have written it: over bytes that will be erased,
/// one program unit or more or less, over none, past the block, or of another sum.
pub fn forward(random: &mut Random, log: &mut Log, geometry: Geometry) {
    let prog = geometry.prog_size as usize;
    let end = log.at() + 16 + log.check_size(12, prog) as usize;
    let left = log.bytes.len().saturating_sub(end);
    let length = [prog.min(left), left, random.below(left + 1), 0][random.below(4)];
    let (length, sum) = match random.below(8) {
        0 => (random.word(), random.word()),
        1 => (length as u32, random.word()),
        _ => (length as u32, crc(ONES, &vec![log.erased; length])),
    };
    let data = [length.to_le_bytes(), sum.to_le_bytes()].concat();
    log.put(tag_of(FORWARD, NO_SLOT, 8), &data);
}

/// One entry that breaks a rule, or a type that a log may not have.
fn spoilt(random: &mut Random, log: &mut Log, count: u32) {
    let tag = match random.below(8) {
        0 => tag_of(FILE, count, 3),
        1 => tag_of(SUPERBLOCK, count, 8),
        2 => tag_of(CREATE, count + 1, 0),
        3 => tag_of(DELETE, count, 0),
        4 => tag_of(FORWARD, NO_SLOT, 12),
        5 => tag_of(FORWARD, 0, 8),
        6 => tag_of(0x580, NO_SLOT, 0),
        _ => tag_of(SOFT_TAIL, 0, 8),
    };
    log.put(tag, &random.bytes(12)[..(length_of(tag) - 4).min(12)]);
}

pub fn check(random: &mut Random, log: &mut Log, geometry: Geometry, plain: bool, spoil: bool) {
    let size = log.check_size(0, geometry.prog_size as usize);
    let type_ = log.check_type();
    let tag = match random.below(12) {
        _ if plain => tag_of(type_, NO_SLOT, size),
        0 => tag_of(type_ ^ 1, NO_SLOT, size),
        1 => tag_of(CHECK + random.below(128) as u32, NO_SLOT, size),
        2 => tag_of(type_, random.below(1024) as u32, size),
        3 => tag_of(type_, NO_SLOT, 4 + random.below(9) as u32),
        4 if spoil => tag_of(type_, NO_SLOT, REMOVAL),
        _ => tag_of(type_, NO_SLOT, size),
    };
    if length_of(tag) <= log.room() {
        log.check(tag);
    }
}
