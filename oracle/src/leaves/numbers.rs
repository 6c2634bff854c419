//! `util.rs`, the functions of numbers: counts of bits, orders, alignment.
//!
//! The Rust divides by the alignment, and panics at 0. There only the port's
//! refusal is checked, which is ours.
//!
//! Assumes that overflow checks are off.

use super::{hex, one_word, sign, two_words, INVAL};
use crate::port::Word;
use crate::tally::{Check, Subject};
use crate::{inputs, port, random::Random, rust::util as rust};

pub fn compare() -> Subject {
    let mut random = Random::new(3);
    let mut subject = Subject::new("util, numbers");
    let words = inputs::words(&mut random);
    subject.add(one_word(
        "lfs_npw2",
        &words,
        None,
        rust::lfs_npw2,
        port::npw2,
    ));
    subject.add(one_word("lfs_ctz", &words, None, rust::lfs_ctz, port::ctz));
    subject.add(one_word(
        "lfs_popc",
        &words,
        None,
        rust::lfs_popc,
        port::popc,
    ));
    let twos = inputs::two_words(&mut random);
    orders(&mut subject, &twos);
    alignments(&mut subject, &twos);
    subject.add(by_zero("lanolin_aligndown by 0", &words, port::aligndown));
    subject.add(by_zero("lanolin_alignup by 0", &words, port::alignup));
    subject
}

fn orders(subject: &mut Subject, twos: &[(u32, u32)]) {
    subject.add(two_words(
        "lfs_scmp",
        twos,
        Some(sign),
        rust::lfs_scmp,
        port::scmp,
    ));
    subject.add(two_words("lfs_min", twos, None, rust::lfs_min, port::min));
    subject.add(two_words("lfs_max", twos, None, rust::lfs_max, port::max));
}

/// Any alignment but 0: also one that is no power of two, and sums that wrap.
fn alignments(subject: &mut Subject, twos: &[(u32, u32)]) {
    let mut some: Vec<(u32, u32)> = twos.to_vec();
    some.extend(twos.iter().map(|&(a, b)| (a, 1 << (b % 32))));
    some.retain(|&(_, alignment)| alignment != 0);
    subject.add(two_words(
        "lfs_aligndown",
        &some,
        Some(|_| "aligned"),
        |a, alignment| aligned(rust::lfs_aligndown(a, alignment)),
        port::aligndown,
    ));
    subject.add(two_words(
        "lfs_alignup",
        &some,
        Some(|_| "aligned"),
        |a, alignment| aligned(rust::lfs_alignup(a, alignment)),
        port::alignup,
    ));
}

fn aligned(value: u32) -> Word {
    Word { result: 0, value }
}

/// The refusal of alignment 0, which the Rust has not.
fn by_zero(name: &'static str, words: &[u32], port: impl Fn(u32, u32) -> Word) -> Check {
    let refused = Word {
        result: INVAL,
        value: 0,
    };
    let mut check = Check::ours(name);
    for &a in words {
        check.outcome("refused");
        check.same(refused, port(a, 0), || hex(&[a, 0]));
    }
    check
}
