//! The find's faults, through its questions: each one is asked until its answer is
//! another one than the Rust's slots give or, where it is Ours, than the second
//! implementation without a fault.
//!
//! Assumes nothing.

use super::{hold, run};
use crate::calls::find::Finds;
use crate::device::Rust;
use crate::find::inputs;
use crate::find::slots::{FindTruth, Slots};
use crate::model::{Finder, FIND_FAULTS};

/// So many pairs of blocks are tried before a fault counts as not seen.
const CASES: u64 = 20_000;

/// Tries every fault of the find; says each one. How many were seen, and of how
/// many.
pub fn bite() -> (usize, usize) {
    let mut rust = Rust::default();
    let mut number = 0;
    run(FIND_FAULTS, CASES, |case, tried| {
        inputs::ask(case, &mut |asked| {
            let slots = Slots::of_rust(&mut rust, asked);
            for question in &asked.questions {
                number += 1;
                let input = question.input(asked.case);
                let truth = FindTruth::of(slots.as_ref(), input);
                hold(&truth, question.kind, number, tried, |fault| {
                    Finder { fault }.find(&input)
                });
            }
        });
    })
}
