//! The subjects of the calls that the archive has. What it lacks is said, and nothing
//! counts for it: an older archive has fewer calls.
//!
//! Assumes nothing beyond what `build.rs` found.

use oracle::port::Port;
use oracle::tally::Subject;

/// The refetches, if the archive has the call.
pub fn refetching(parts: u64) -> Vec<Subject> {
    match some_there(&[("lanolin_refetch", oracle::port::CAN_REFETCH)]) {
        true => oracle::refetch::compare(&oracle::refetch::PORT, parts),
        false => Vec::new(),
    }
}

/// The finds, if the archive has the call.
pub fn finding(parts: u64) -> Vec<Subject> {
    use oracle::find::{compare, Voices};

    let (finder, reader) = (&Port, &Port);
    match some_there(&[("lanolin_find", oracle::port::CAN_FIND)]) {
        true => compare(&Voices { finder, reader }, parts),
        false => Vec::new(),
    }
}

/// The tables in memory and the compaction with one, of the calls that the archive has.
pub fn indexing(parts: u64) -> Vec<Subject> {
    use oracle::index::{compare, compare_compactions, PORT};
    use oracle::port::{CAN_COMPACT_WITH, CAN_INDEX};

    let mut subjects = Vec::new();
    if some_there(&[("lanolin_index", CAN_INDEX)]) {
        subjects.extend(compare(&PORT, parts));
    }
    if some_there(&[("lanolin_compact_with", CAN_COMPACT_WITH)]) {
        subjects.extend(compare_compactions(&PORT, parts));
    }
    subjects
}

/// The histories, of the calls that the archive has.
pub fn writing(parts: u64) -> Vec<Subject> {
    match some_write() {
        true => oracle::histories::compare(&Port, parts),
        false => Vec::new(),
    }
}

pub fn some_write() -> bool {
    some_there(&[
        ("lanolin_commit", cfg!(lanolin_commit)),
        ("lanolin_compact", cfg!(lanolin_compact)),
    ])
}

/// Whether the archive has one of the calls. What it lacks is said, and nothing
/// counts for it.
fn some_there(calls: &[(&str, bool)]) -> bool {
    for (call, _) in calls.iter().filter(|(_, there)| !there) {
        println!("SKIPPED: the archive has no {call}, and nothing was compared with it.");
    }
    calls.iter().any(|(_, there)| *there)
}
