//! The index's faults, through its questions: each one makes the tables and answers from
//! them until an answer is another one than the Rust looks up or, where it is Ours, until
//! a table, an answer or a compaction is another one than the second implementation's
//! without a fault.
//!
//! Assumes nothing.

use super::{run, Tried};
use crate::device::Rust;
use crate::dirs::truth::Truth;
use crate::index::compactions::{self, Compacted};
use crate::index::inputs::{self, Asked, Making};
use crate::index::truth::{askings, looked, LookTruth, Made};
use crate::model::{IndexFault, Indexer, Seen, FAULTLESS_INDEXER, INDEX_FAULTS};

/// So many histories are tried before a fault counts as not seen.
const HISTORIES: u64 = 4_000;
/// One history in so many is compacted too, with a table.
const COMPACTED: u64 = 8;

/// Tries every fault of the index; says each one. How many were seen, and of how many.
pub fn bite() -> (usize, usize) {
    let mut rust = Rust::default();
    let mut number = 0;
    run(INDEX_FAULTS, HISTORIES, |history, tried| {
        inputs::ask(history, &mut |asked| {
            number += 1;
            ask_all(&mut rust, asked, number, tried);
        });
        if history.is_multiple_of(COMPACTED) {
            compactions::ask(history / COMPACTED, &mut |asked| {
                number += 1;
                compact_all(asked, number, tried);
            });
        }
    })
}

/// One table to every fault that is not caught yet.
fn ask_all(rust: &mut Rust, asked: &Asked, number: u64, tried: &mut [Tried<IndexFault>]) {
    let truth = Made::of(&FAULTLESS_INDEXER, asked);
    let looks = askings(asked, &truth);
    let mut answers = |asking| LookTruth::of(rust, asked, &truth, asking);
    let truths: Vec<LookTruth> = looks.iter().map(&mut answers).collect();
    let call = match asked.making {
        Making::Build => "build",
        Making::Extend { .. } => "extend",
        Making::Given => "get",
    };
    for tried in tried.iter_mut().filter(|tried| tried.caught.is_none()) {
        let voice = Indexer { fault: tried.fault };
        let made = Made::of(&voice, asked);
        if made != truth && tried.must == Seen::Ours {
            tried.caught = Some((number, call));
            continue;
        }
        let seen = |(truth, asking): (&LookTruth, _)| {
            let answer = looked(&voice, asked, &made, asking);
            truth.wrong(&answer) == Some(tried.must)
        };
        if truths.iter().zip(looks).any(seen) {
            tried.caught = Some((number, "get"));
        }
    }
}

/// One compaction likewise.
fn compact_all(asked: &compactions::Asked, number: u64, tried: &mut [Tried<IndexFault>]) {
    let truth = Compacted::of(&FAULTLESS_INDEXER, asked);
    let open = |tried: &&mut Tried<IndexFault>| tried.caught.is_none() && tried.must == Seen::Ours;
    for tried in tried.iter_mut().filter(open) {
        let voice = Indexer { fault: tried.fault };
        if Compacted::of(&voice, asked) != truth {
            tried.caught = Some((number, "compact with"));
        }
    }
}
