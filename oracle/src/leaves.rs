//! The leaves: tags, the checksum, numbers, words in bytes, pairs, and the
//! global state. One module for each subject.
//!
//! Assumes that overflow checks are off: `lfs_ctz` and `lfs_npw2` are compared
//! on every input, 0 included.

mod crc;
mod gstate;
mod numbers;
mod pairs;
mod tag;
mod words;

use crate::tally::{Check, Subject};
use std::fmt::Debug;

/// Each subject draws its own inputs, so that one can be added or changed
/// without changing what the others are asked.
pub const SUBJECTS: [fn() -> Subject; 6] = [
    tag::compare,
    crc::compare,
    numbers::compare,
    words::compare,
    pairs::compare,
    gstate::compare,
];

/// Document 01's numbers for the refusals of the leaves.
const INVAL: i32 = -22;
const CORRUPT: i32 = -84;

/// Names the kind of an answer, to count how often each was met.
type Kind<T> = fn(&T) -> &'static str;

/// Compares a function of one word.
fn one_word<T: PartialEq + Debug>(
    name: &'static str,
    words: &[u32],
    kind: Option<Kind<T>>,
    rust: impl Fn(u32) -> T,
    port: impl Fn(u32) -> T,
) -> Check {
    let mut check = Check::rust(name);
    for &a in words {
        let expected = rust(a);
        if let Some(kind) = kind {
            check.outcome(kind(&expected));
        }
        check.same(expected, port(a), || hex(&[a]));
    }
    check
}

/// Compares a function of two words.
fn two_words<T: PartialEq + Debug>(
    name: &'static str,
    twos: &[(u32, u32)],
    kind: Option<Kind<T>>,
    rust: impl Fn(u32, u32) -> T,
    port: impl Fn(u32, u32) -> T,
) -> Check {
    let mut check = Check::rust(name);
    for &(a, b) in twos {
        let expected = rust(a, b);
        if let Some(kind) = kind {
            check.outcome(kind(&expected));
        }
        check.same(expected, port(a, b), || hex(&[a, b]));
    }
    check
}

fn yes_or_no(answer: &u32) -> &'static str {
    match answer {
        0 => "no",
        _ => "yes",
    }
}

fn sign(answer: &i32) -> &'static str {
    match answer {
        0 => "zero",
        1.. => "positive",
        _ => "negative",
    }
}

fn hex(words: &[u32]) -> String {
    let words: Vec<String> = words.iter().map(|word| format!("{word:#010x}")).collect();
    words.join(", ")
}
