//! Finding a name: the port's find against lookups slot by slot, the unchanged
//! Rust's and the port's own, and against the second implementation.
//!
//! Assumes what `device` assumes of the Rust, and `slots` of the second
//! implementation.

pub mod crowd;
pub mod inputs;
mod past;
pub mod slots;

use crate::calls::find::{Finds, Named};
use crate::calls::write::DOCUMENT;
use crate::calls::Voice;
use crate::device::Rust;
use crate::dirs::truth::{number, Truth};
use crate::dirs::{text, Comparison};
use crate::histories::real;
use crate::tally::{Check, Subject};
use inputs::{Asked, Question};
use slots::{FindTruth, Slots, IRREGULAR_LOG};

/// How many made pairs, and how often those that a real littlefs wrote, in turn; what
/// is asked of each is in `inputs`.
const CASES: u64 = 60_000;
const REAL: u64 = 600;

/// Who is asked to find, and who looks slots up. Of the port, both.
pub struct Voices<'a, F, R> {
    pub finder: &'a F,
    pub reader: &'a R,
}

struct Finding {
    rust: Rust,
    find: Comparison,
    own: Check,
}

/// One pass over the first of so many parts of the inputs.
pub fn compare<F: Finds, R: Voice>(voices: &Voices<F, R>, parts: u64) -> Vec<Subject> {
    let mut all = Finding {
        rust: Rust::default(),
        find: Comparison::new("find: lanolin_find, slot by slot", "lookups of the Rust"),
        own: Check::ours("lookups of the port"),
    };
    for number in 0..CASES.div_ceil(parts) {
        inputs::ask(number, &mut |asked| all.judge(voices, asked));
    }
    let real = real::cases();
    for number in 0..REAL.div_ceil(parts) {
        let case = &real[number as usize % real.len()].case;
        inputs::ask_of(case, number, &mut |asked| all.judge(voices, asked));
    }
    let mut subject = all.find.subject();
    subject.add(all.own);
    vec![subject]
}

impl Finding {
    fn judge<F: Finds, R: Voice>(&mut self, voices: &Voices<F, R>, asked: &Asked) {
        let rust = Slots::of_rust(&mut self.rust, asked);
        let own = Slots::of(voices.reader, asked);
        for question in &asked.questions {
            let input = question.input(asked.case);
            let truth = FindTruth::of(rust.as_ref(), input);
            let answer = voices.finder.find(&input);
            let weight = || text::weight_of(&input.fetch.blocks) + input.name.len();
            let say = || text::find(&input);
            self.find
                .judge(&truth, &answer, asked.case.kind, weight, say);
            if let Some(own) = truth.by(&own) {
                self.own.same_by_weight(&own, &answer, weight, say);
            }
            match (truth.rust(), truth.ours()) {
                (Some(rust), _) => count(&mut self.find.rust, asked, question, rust),
                (None, Some(IRREGULAR_LOG)) => {
                    let rules = rules_kind(question.rules);
                    self.find.ours.outcome_of(IRREGULAR_LOG, rules);
                }
                _ => {}
            }
        }
    }
}

/// What was met, by the Rust's answers and by the log.
fn count(check: &mut Check, asked: &Asked, question: &Question, rust: &Named) {
    let result = match (rust.result, rust.found) {
        (0, 0) => "none",
        (0, _) => "found",
        (refusal, _) => number(refusal),
    };
    check.outcome_of("result", result);
    check.outcome_of("asked for", question.kind);
    if rust.result == 0 {
        check.outcome_of("the name", asked.past.says(question));
    }
    check.outcome_of("rules", rules_kind(question.rules));
    check.outcome_of("pairs", asked.case.kind);
}

fn rules_kind(rules: u32) -> &'static str {
    match rules {
        DOCUMENT => "document 01's",
        _ => "littlefs's",
    }
}
