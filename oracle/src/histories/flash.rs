//! What is met of the erased byte: accepted calls for flash of either kind, on logs laid
//! for one kind and for both, coincidences, every way in which the room isn't clean, and
//! bytes that no flash erases to.
//!
//! Assumes nothing.

use super::ask::{fetched, Step};
use crate::calls::write::*;
use crate::generate::erased_behind;
use crate::tally::Check;

/// Accepted calls. A log is of both kinds if it has checks for both, or for the other
/// one alone, so that it is only compacted.
const ACCEPTED: [&str; 4] = [
    "commits",
    "commits on logs of both kinds",
    "compactions",
    "compactions of logs for the other",
];
const COINCIDE: [&str; 2] = ["coincidences of commits", "coincidences of compactions"];
const ROOMS: [&str; 9] = [
    "misaligned alone",
    "misaligned, one more reason",
    "all three reasons",
    "wrong bit, right bytes",
    "wrong bit, other bytes",
    "wrong bit, all bytes of the other",
    "right bit, other bytes",
    "right bit, one byte of the other",
    "right bit, all bytes of the other",
];
const NO_ERASED_BYTE: [&str; 2] = ["on pairs that fetch takes", "on pairs that fetch refuses"];

pub struct Flash {
    met: Check,
}

impl Default for Flash {
    fn default() -> Flash {
        Flash {
            met: Check::ours("every kind of flash is met"),
        }
    }
}

/// A byte by its name, for the counts.
pub fn named(erased: u8) -> &'static str {
    match erased {
        0xff => "0xff",
        0x00 => "0x00",
        _ => "another byte",
    }
}

impl Flash {
    pub fn accepted(&mut self, task: &Task, for_both: bool) {
        let which = match task.work {
            Work::Commit { .. } => 0,
            Work::Compact => 2,
        };
        let kind = ACCEPTED[which + usize::from(for_both)];
        self.met.outcome_of(named(task.erased), kind);
    }

    pub fn refused(&mut self, step: &Step) {
        let Task { erased, work, .. } = step.task;
        let kind = match (work, step.truth.answer.result()) {
            _ if !ERASED.contains(&erased) => {
                let refused = fetched(step.case, &step.case.images).result != 0;
                NO_ERASED_BYTE[usize::from(refused)]
            }
            (Work::Commit { .. }, COINCIDENCE) => COINCIDE[0],
            (Work::Compact, COINCIDENCE) => COINCIDE[1],
            (_, MISALIGNED | WRONG_VALIDITY | NOT_ERASED) => room(step),
            _ => return,
        };
        self.met.outcome_of(named(erased), kind);
    }

    /// That every kind was met, of accepted calls or of refused ones too. One that
    /// isn't would leave its place untried.
    pub fn demand(mut self, refused: bool) -> Check {
        let mut kinds = Vec::new();
        for erased in ERASED {
            kinds.extend(ACCEPTED.map(|kind| (named(erased), kind)));
            if refused {
                kinds.extend(COINCIDE.map(|kind| (named(erased), kind)));
                kinds.extend(ROOMS.map(|kind| (named(erased), kind)));
            }
        }
        if refused {
            kinds.extend(NO_ERASED_BYTE.map(|kind| (named(0x01), kind)));
        }
        for (group, kind) in kinds {
            let met = self.met.met(group, kind);
            self.met.same(true, met, || format!("{group}, {kind}"));
        }
        self.met
    }
}

/// Why a commit has no room, by the bytes: of all reasons, not of the first.
fn room(step: &Step) -> &'static str {
    let (case, erased) = (step.case, step.task.erased);
    let dir = fetched(case, &case.images).dir;
    let image = &case.images[usize::from(dir.pair[0] == case.numbers[1])];
    let room = image.get(dir.off as usize..).unwrap_or_default();
    let dirty = room.iter().filter(|&&byte| byte != erased).count();
    let other = room.iter().filter(|&&byte| byte == !erased).count();
    let misaligned = !dir.off.is_multiple_of(case.geometry.prog_size);
    let wrong = erased_behind(dir.etag) != erased;
    let which = match (misaligned, wrong) {
        (true, false) if dirty == 0 => 0,
        (true, true) if dirty > 0 => 2,
        (true, _) => 1,
        (false, true) if dirty == 0 => 3,
        (false, true) if other == room.len() => 5,
        (false, true) => 4,
        (false, false) if other == room.len() => 8,
        (false, false) if (dirty, other) == (1, 1) => 7,
        (false, false) => 6,
    };
    ROOMS[which]
}
