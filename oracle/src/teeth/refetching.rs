//! The refetch's faults, through its questions: each one is asked until its answer is
//! another one than the Rust's fetch gives or, where it is Ours, than the second
//! implementation without a fault.
//!
//! Assumes nothing.

use super::{hold, run};
use crate::calls::refetch::Refetches;
use crate::device::Rust;
use crate::model::{Refetcher, REFETCH_FAULTS};
use crate::refetch::truth::RefetchTruth;
use crate::refetch::{inputs, STAND_IN};

/// So many histories are tried before a fault counts as not seen.
const HISTORIES: u64 = 20_000;

/// Tries every fault of the refetch; says each one. How many were seen, and of how
/// many.
pub fn bite() -> (usize, usize) {
    let mut rust = Rust::default();
    let mut number = 0;
    run(REFETCH_FAULTS, HISTORIES, |history, tried| {
        inputs::ask(&STAND_IN, history, &mut |asked| {
            number += 1;
            let truth = RefetchTruth::of(&mut rust, asked);
            hold(&truth, asked.kind, number, tried, |fault| {
                Refetcher { fault }.refetch(&asked.input())
            });
        });
    })
}
