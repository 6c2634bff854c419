//! Writing: random histories of commits, compactions and cuts, under both rules, on
//! flash that erases to 0xff, to 0x00 and on boards of both kinds in turn, from made
//! pairs and from pairs that a real littlefs wrote. There is no Rust that
//! writes; the port is held against the second implementation, answers and both
//! images byte for byte, and what stands there afterwards is read by the unchanged
//! Rust and held against a simple directory machine.
//!
//! Assumes what `device` assumes of the Rust.

pub mod ask;
pub mod carried;
mod cuts;
pub mod flash;
pub mod history;
pub mod lists;
mod long;
pub mod reads;
pub mod real;
mod room;
mod solve;
mod solved;
pub mod start;
mod wide;

use crate::calls::write::*;
use crate::calls::{CORRUPT, INVAL, NOENT};
use crate::model::FAULTLESS_WRITER;
use crate::tally::{Check, Subject};
use ask::{text, After, Outcome, Step};
use reads::Reads;

/// How many histories from a made pair, and how many from pairs that a real
/// littlefs wrote, in turn; and how many steps each has.
const HISTORIES: u64 = 10_800;
const REAL: u64 = 1_200;
pub const STEPS: usize = 30;
/// How many logs of the wider kind are written to once, under both rules.
const WIDER: u64 = 8_000;

/// The four calls, each with its counts.
struct Histories {
    commit: Check,
    commit_stores: Check,
    compact: Check,
    compact_stores: Check,
    both: Check,
    reads: Reads,
}

/// One pass over the first of so many parts of the histories. What the voice lacks
/// is not asked of it.
pub fn compare(voice: &impl Writes, parts: u64) -> Vec<Subject> {
    let mut all = Histories {
        commit: Check::ours("lanolin_commit"),
        commit_stores: Check::ours("lanolin_commit_stores"),
        compact: Check::ours("lanolin_compact"),
        compact_stores: Check::ours("lanolin_compact_stores"),
        both: Check::ours("both rules on one log"),
        reads: Reads::default(),
    };
    for number in 0..HISTORIES.div_ceil(parts) {
        history::run(number, STEPS, &mut |step| {
            all.judge(voice, step);
            if number.is_multiple_of(8) {
                all.both(voice, step);
            }
        });
    }
    let real = real::cases();
    for number in 0..REAL.div_ceil(parts) {
        let pair = &real[number as usize % real.len()];
        history::run_from(pair, number, STEPS, &mut |step| all.judge(voice, step));
    }
    for number in 0..WIDER.div_ceil(parts) {
        history::wider(number, &mut |step| {
            all.judge(voice, step);
            all.both(voice, step);
        });
    }
    all.subjects(voice)
}

impl Histories {
    fn subjects(self, voice: &impl Writes) -> Vec<Subject> {
        let mut calls = Subject::new("writing: the calls, by the second implementation");
        for check in [
            self.commit,
            self.commit_stores,
            self.compact,
            self.compact_stores,
            self.both,
        ] {
            calls.add(check);
        }
        let (entries, data) = (&[][..], &[][..]);
        if voice.can(&Work::Commit { entries, data }) && voice.can(&Work::Compact) {
            calls.add(self.reads.flash.demand(true));
        }
        let mut read = Subject::new("writing: what the Rust reads afterwards");
        for check in [
            self.reads.fetches,
            self.reads.forwards,
            self.reads.lookups,
            self.reads.cuts,
        ] {
            read.add(check);
        }
        vec![calls, read]
    }

    fn judge(&mut self, voice: &impl Writes, step: &Step) {
        if !voice.can(&step.task.work) {
            return;
        }
        let answer = Outcome::of(voice, &step.task, &step.case.images);
        let check = self.check(&step.task);
        let weight = || step.case.images[0].len();
        check.same_by_weight(step.truth, &answer, weight, || text(step));
        check.outcome_of("result", number(step.truth.answer.result()));
        check.outcome_of("why", step.kind);
        if let Answer::Stored(stored) = step.truth.answer {
            check.outcome_of("stores", stores_kind(stored.stores, &step.after));
        }
        self.reads.read(step, &|| text(step));
    }

    /// A call under document 01's rule, asked once more under littlefs's: the same,
    /// if the log is regular by the first; else as the second implementation says.
    fn both(&mut self, voice: &impl Writes, step: &Step) {
        let Task { rules, work, .. } = step.task;
        if rules != DOCUMENT || step.task.stores.is_some() || !voice.can(&work) {
            return;
        }
        let task = Task {
            rules: LITTLEFS,
            ..step.task
        };
        let images = &step.case.images;
        let irregular = step.truth.answer.result() == IRREGULAR;
        let expected = match irregular {
            true => Outcome::of(&FAULTLESS_WRITER, &task, images),
            false => step.truth.clone(),
        };
        let weight = || images[0].len();
        let answer = Outcome::of(voice, &task, images);
        self.both
            .same_by_weight(&expected, &answer, weight, || text(step));
        if matches!(work, Work::Compact) {
            let verdict = match expected.answer.result() {
                IRREGULAR => "regular by neither",
                INVAL | CORRUPT | NOENT => "not read",
                _ if irregular => "by littlefs's alone",
                _ => "by both",
            };
            self.both.outcome_of(step.kind, verdict);
        }
    }

    fn check(&mut self, task: &Task) -> &mut Check {
        match (task.work, task.stores) {
            (Work::Commit { .. }, None) => &mut self.commit,
            (Work::Commit { .. }, Some(_)) => &mut self.commit_stores,
            (Work::Compact, None) => &mut self.compact,
            (Work::Compact, Some(_)) => &mut self.compact_stores,
        }
    }
}

fn stores_kind(stores: u32, after: &After) -> &'static str {
    match (stores, after) {
        (_, After::Refused) => "refused",
        (0, _) => "none",
        (_, After::Cut { finished: true, .. }) => "finished",
        _ => "cut short",
    }
}

/// A result by its number, for the counts.
fn number(result: i32) -> &'static str {
    match result {
        0 => "0",
        -22 => "-22",
        -84 => "-84",
        -2 => "-2",
        -202 => "-202",
        -201 => "-201",
        -28 => "-28",
        -211 => "-211",
        -212 => "-212",
        -213 => "-213",
        -204 => "-204",
        _ => "another",
    }
}
