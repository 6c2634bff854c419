//! Fetching again from a known end: the port's refetch against fetches of the same
//! images, the unchanged Rust's and the port's own, where it must be one, and against
//! the second implementation everywhere.
//!
//! Assumes what `device` assumes of the Rust, and `truth` of the second
//! implementation.

mod behind;
mod changed;
pub mod inputs;
mod records;
mod start;
pub mod truth;

use crate::calls::refetch::Refetches;
use crate::calls::write::Writes;
use crate::calls::{Fetched, Voice, NOENT};
use crate::device::Rust;
use crate::dirs::truth::{number, Truth};
use crate::dirs::{text, Comparison};
use crate::histories::real;
use crate::model::*;
use crate::port::Port;
use crate::tally::{Check, Subject};
use changed::COMPACTION;
use inputs::Asked;
use truth::{refuses, RefetchTruth};

/// How many histories from a made pair, and how many from pairs that a real littlefs
/// wrote, in turn; what is asked of each is in `inputs`.
const HISTORIES: u64 = 60_000;
const REAL: u64 = 600;

/// Who is asked to refetch, who writes in between, and who fetches.
pub struct Voices<'a, F, W, R> {
    pub refetcher: &'a F,
    pub writer: &'a W,
    pub reader: &'a R,
}

pub const PORT: Voices<Port, Port, Port> = Voices {
    refetcher: &Port,
    writer: &Port,
    reader: &Port,
};

/// The second implementation in its place.
pub const STAND_IN: Voices<Refetcher, Writer, Model> = Voices {
    refetcher: &FAULTLESS_REFETCHER,
    writer: &FAULTLESS_WRITER,
    reader: &FAULTLESS,
};

struct Refetching {
    rust: Rust,
    refetch: Comparison,
    own: Check,
    /// A refetch behind a compaction was another answer than the fetch.
    compaction_seen: bool,
}

/// One pass over the first of so many parts of the inputs.
pub fn compare<F: Refetches, W: Writes, R: Voice>(
    voices: &Voices<F, W, R>,
    parts: u64,
) -> Vec<Subject> {
    let mut all = Refetching {
        rust: Rust::default(),
        refetch: Comparison::new("refetch: lanolin_refetch, as a fetch", "fetch of the Rust"),
        own: Check::ours("fetch of the port"),
        compaction_seen: false,
    };
    for number in 0..HISTORIES.div_ceil(parts) {
        inputs::ask(voices, number, &mut |asked| all.judge(voices, asked));
    }
    let real = real::cases();
    for number in 0..REAL.div_ceil(parts) {
        let case = &real[number as usize % real.len()].case;
        inputs::ask_of(voices, case, number, &mut |asked| all.judge(voices, asked));
    }
    // Where it is never seen, what is unchanged would not have to be told apart.
    let mut seen = Check::ours("a compaction makes a difference");
    seen.same(true, all.compaction_seen, || "all histories".into());
    let mut subject = all.refetch.subject();
    subject.add(all.own);
    subject.add(seen);
    vec![subject]
}

impl Refetching {
    fn judge<F: Refetches, W: Writes, R: Voice>(
        &mut self,
        voices: &Voices<F, W, R>,
        asked: &Asked,
    ) {
        let truth = RefetchTruth::of(&mut self.rust, asked);
        let input = asked.input();
        let answer = voices.refetcher.refetch(&input);
        let weight = || text::weight_of(&input.fetch.blocks);
        let say = || text::refetch(&input, asked.case.seed);
        self.refetch.judge(&truth, &answer, asked.kind, weight, say);
        let fetched = voices.reader.fetch(&asked.fetch(refuses(&answer)));
        if asked.unchanged {
            self.own.same_by_weight(&fetched, &answer, weight, say);
            if truth.rust().is_some() {
                count(&mut self.refetch.rust, asked, truth.model());
            }
            return;
        }
        let ours = &mut self.refetch.ours;
        ours.outcome_of("changed, result", number(answer.result));
        let group = match answer == fetched {
            true => "changed, and a fetch all the same",
            false => "changed, and no fetch",
        };
        ours.outcome_of(group, asked.kind);
        self.compaction_seen |= asked.kind == COMPACTION && answer != fetched;
    }
}

/// What was met where the refetch must be a fetch.
fn count(check: &mut Check, asked: &Asked, answer: &Fetched) {
    check.outcome_of("result", number(answer.result));
    check.outcome_of("since then", asked.kind);
    check.outcome_of("record of", asked.by);
    check.outcome_of("record came with", came_kind(asked, answer));
    check.outcome_of("last check", check_kind(asked.dir.etag));
    if answer.result == 0 || answer.result == NOENT {
        check.outcome_of("behind it", behind_kind(asked, answer));
        check.outcome_of("forward check", forward_kind(asked, answer));
        let marks = match (asked.dir.erased, answer.dir.erased) {
            (0, 0) => "no",
            (0, _) => "now yes",
            (_, 0) => "now no",
            _ => "yes",
        };
        check.outcome_of("erased", marks);
    }
    let shape = asked.case.kind.starts_with("shape: ");
    check.outcome_of("pairs", if shape { "shapes" } else { asked.case.kind });
}

fn came_kind(asked: &Asked, answer: &Fetched) -> &'static str {
    match (asked.dir.count > 1023, answer.result) {
        (false, NOENT) => "0 and now -2",
        (false, _) => "0",
        (true, 0) => "-2 and now 0",
        (true, _) => "-2",
    }
}

fn check_kind(end_tag: u32) -> &'static str {
    match size_of(end_tag) {
        0..4 => "of 0 to 3",
        REMOVAL => "of 1,023",
        _ => "of 4 to 1,022",
    }
}

fn behind_kind(asked: &Asked, answer: &Fetched) -> &'static str {
    match answer.dir.off == asked.dir.off {
        true => "nothing committed",
        false => "commits",
    }
}

fn forward_kind(asked: &Asked, answer: &Fetched) -> &'static str {
    let words = |fetched: &Fetched| (fetched.dir.forward_size, fetched.dir.forward_sum);
    match (asked.dir.forward, answer.dir.forward) {
        (_, 0) => "none",
        (0, _) => "the first one",
        _ if words(answer) == (asked.dir.forward_size, asked.dir.forward_sum) => "the record's",
        _ => "a later one",
    }
}
