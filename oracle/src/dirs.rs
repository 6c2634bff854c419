//! Fetch and lookups: the port against the unchanged Rust, and against the
//! second implementation where document 01 leaves the Rust.
//!
//! Assumes what `device` assumes of the Rust, and `truth` of the second
//! implementation.

mod counts;
pub mod inputs;
pub mod text;
pub mod truth;

use crate::calls::Voice;
use crate::device::Rust;
use crate::generate::{Case, Sizes};
use crate::port::Port;
use crate::tally::{Check, Subject};
use inputs::Question;
use truth::{stated, FetchTruth, GstateTruth, InfoTruth, SliceTruth, Truth, REFUSED};

/// How many pairs of blocks; what is asked of each is in `inputs`.
const CASES: u64 = 1_000_000;

/// One call: with the Rust, with what is Ours, and, where nothing is, with the
/// second implementation as a third voice.
pub struct Comparison {
    subject: &'static str,
    pub rust: Check,
    pub ours: Check,
    model: Check,
}

impl Comparison {
    pub fn new(subject: &'static str, call: &'static str) -> Comparison {
        Comparison {
            subject,
            rust: Check::rust(call),
            ours: Check::ours("what has no Rust behind it"),
            model: Check::model("the rest, by a third voice"),
        }
    }

    /// One answer. `kind` is how its case was made.
    pub fn judge<T: Truth>(
        &mut self,
        truth: &T,
        answer: &T::Answer,
        kind: &'static str,
        weight: impl Fn() -> usize + Copy,
        text: impl Fn() -> String + Copy,
    ) {
        if let Some(rust) = truth.rust() {
            let (rust, port) = (truth.compared(rust), truth.compared(answer));
            self.rust.same_by_weight(&rust, &port, weight, text);
        }
        let check = match truth.ours() {
            Some(reason) => {
                self.ours.outcome(reason);
                if reason == REFUSED {
                    self.ours.outcome_of(REFUSED, kind);
                }
                &mut self.ours
            }
            None => &mut self.model,
        };
        check.same_by_weight(truth.model(), answer, weight, text);
    }

    pub fn subject(self) -> Subject {
        let mut subject = Subject::new(self.subject);
        for check in [self.rust, self.ours, self.model] {
            subject.add(check);
        }
        subject
    }
}

struct Comparisons {
    rust: Rust,
    fetch: Comparison,
    slice: Comparison,
    info: Comparison,
    gstate: Comparison,
}

/// One pass over the first of so many parts of the inputs, and a subject for each
/// function of the Rust.
pub fn compare(parts: u64) -> Vec<Subject> {
    let mut all = Comparisons {
        rust: Rust::default(),
        fetch: Comparison::new("dir/fetch: lfs_dir_fetch", "lfs_dir_fetch"),
        slice: Comparison::new(
            "dir/traverse: lfs_dir_getslice, lfs_dir_get",
            "lfs_dir_getslice, lfs_dir_get",
        ),
        info: Comparison::new("dir/fetch: lfs_dir_getinfo", "lfs_dir_getinfo"),
        gstate: Comparison::new("dir/fetch: lfs_dir_getgstate", "lfs_dir_getgstate"),
    };
    for case in 0..CASES.div_ceil(parts) {
        inputs::ask(case, Sizes::Any, &mut |case, question| {
            all.answer(case, &question);
        });
    }
    [all.fetch, all.slice, all.info, all.gstate]
        .map(Comparison::subject)
        .into()
}

impl Comparisons {
    fn answer(&mut self, case: &Case, question: &Question) {
        let (rust, kind) = (&mut self.rust, case.kind);
        let (weight, text) = (|| text::weight(question), || text::text(question));
        match *question {
            Question::Fetch(ref input) => {
                let truth = FetchTruth::of(rust, input);
                let answer = Port.fetch(input);
                self.fetch.judge(&truth, &answer, kind, weight, text);
                counts::fetch(&mut self.fetch.rust, case, &truth);
            }
            Question::Slice {
                slicer,
                ref input,
                query,
                length,
                made_up,
            } => {
                let truth = SliceTruth::of(rust, slicer, input, query, length);
                let answer = slicer.ask(&Port, input, query, length);
                self.slice.judge(&truth, &answer, kind, weight, text);
                counts::slice(&mut self.slice.rust, &truth, input, query, made_up);
            }
            Question::Info {
                ref input,
                name_max,
                id,
            } => {
                let truth = InfoTruth::of(rust, input, name_max, id);
                let answer = Port.getinfo(input, name_max, id);
                self.info.judge(&truth, &answer, kind, weight, text);
                counts::info(&mut self.info.rust, &truth, name_max, id);
            }
            Question::Gstate { ref input, state } => {
                let truth = GstateTruth::of(rust, input, state);
                let answer = stated(&Port, input, state);
                self.gstate.judge(&truth, &answer, kind, weight, text);
                counts::gstate(&mut self.gstate.rust, &truth, state);
            }
        }
    }
}
