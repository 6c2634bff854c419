//! The pairs that are fetched first.
//!
//! Assumes nothing.

use crate::calls::{Geometry, Mdir, Voice};
use crate::generate::{self, erased_behind, tags_in, Case, Log, Sizes};
use crate::histories::lists::{self, Habits};
use crate::histories::{history, start};
use crate::model::*;
use crate::random::Random;

pub fn case(random: &mut Random) -> (Case, Habits) {
    let geometry = start::geometry(random);
    let habits = history::habits(random, geometry.block_size);
    let mut case = match random.below(16) {
        0..4 => start::filled(random, geometry, &habits),
        4..6 => start::case(random, geometry, &habits),
        6 => start::wider(random, geometry, &habits),
        7..9 => short_check(random, geometry, &habits),
        9 => crowded(random, geometry, &habits),
        _ => generate::case(random.word().into(), Sizes::Any).0,
    };
    if random.below(2) == 0 {
        cut_back(random, &mut case);
    }
    if random.below(24) == 0 {
        let [n0, n1] = case.numbers;
        let highest = [[u32::MAX, n1], [n0, u32::MAX - 1], [u32::MAX - 1, u32::MAX]];
        case.numbers = highest[random.below(3)];
    }
    // A number that is too high leaves nothing to go on from.
    if random.below(16) > 0 {
        case.block_count = 0;
    }
    (case, habits)
}

/// An earlier state of the log, so that there is room behind it, which mostly is erased
/// as the last check says.
pub fn cut_back(random: &mut Random, case: &mut Case) {
    let dir = FAULTLESS.fetch(&case.fetch()).dir;
    let block = &mut case.images[usize::from(dir.pair[0] == case.numbers[1])];
    let ends = ends_in(block);
    let Some(&(off, etag)) = ends.get(random.below(ends.len().max(1))) else {
        return;
    };
    let known = known_to(&Mdir { off, etag, ..dir });
    let erased = match random.below(8) {
        0 => !erased_behind(etag),
        _ => erased_behind(etag),
    };
    block.get_mut(known..).unwrap_or_default().fill(erased);
}

/// Where the checks of an image end, and with which end tags.
pub fn ends_in(image: &[u8]) -> Vec<(u32, u32)> {
    let (mut ends, mut at) = (Vec::new(), 4);
    for tag in tags_in(image) {
        at += length_of(tag) as u32;
        if type2_of(tag) == CHECK {
            ends.push((at, tag ^ (chunk_of(tag) & 1) << 31));
        }
    }
    ends
}

/// A log whose last check has a checksum that reaches past its end. Without an entry
/// before it, the end is 8 to 11.
fn short_check(random: &mut Random, geometry: Geometry, habits: &Habits) -> Case {
    let revision = random.word();
    let board = habits.board(random);
    let mut log = Log::on(board, geometry.block_size as usize, revision);
    if random.below(3) > 0 {
        start::put(&mut log, &lists::good(random, habits, 0).0);
    }
    if random.below(3) == 0 {
        start::forward(random, &mut log, geometry);
        start::check(random, &mut log, geometry, true, false);
    }
    let size = [0, 1, 2, 3, REMOVAL][random.below(5)];
    log.check(tag_of(CHECK + random.below(2) as u32, NO_SLOT, size));
    start::finished(
        random,
        "short last check",
        geometry,
        habits,
        (log, revision),
    )
}

/// 1,020 to 1,024 slots, by one name: the last are more than a pair may have.
fn crowded(random: &mut Random, geometry: Geometry, habits: &Habits) -> Case {
    let revision = random.word();
    let board = habits.board(random);
    let mut log = Log::on(board, geometry.block_size as usize, revision);
    log.put(tag_of(FILE, 1019 + random.below(5) as u32, 1), b"a");
    if random.below(2) == 0 && start::holds_forward(&log, geometry) {
        start::forward(random, &mut log, geometry);
    }
    start::check(random, &mut log, geometry, true, false);
    start::finished(
        random,
        "about 1,023 slots",
        geometry,
        habits,
        (log, revision),
    )
}
