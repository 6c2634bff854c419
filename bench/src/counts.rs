//! `lfs_npw2`, `lfs_ctz` and `lfs_popc`, the mean over words of any length.
//!
//! The functions are so short that a processor would overlap their calls. So each
//! call waits for the one before: the lowest bit of its word depends on the answer.

use crate::measure::{side_by_side, Times};
use oracle::{port, random::Random, rust::util as rust};

const WORDS: usize = 1024;

pub fn lines() -> [(&'static str, Times); 3] {
    [
        ("lfs_npw2", of_each_word(port::npw2, rust_npw2)),
        ("lfs_ctz", of_each_word(port::ctz, rust_ctz)),
        ("lfs_popc", of_each_word(port::popc, rust_popc)),
    ]
}

fn of_each_word(port: impl Fn(u32) -> u32, rust: impl Fn(u32) -> u32) -> Times {
    let mut random = Random::new(WORDS as u64);
    let words: Vec<u32> = (0..WORDS).map(|_| random.word_of_any_width()).collect();
    side_by_side(
        |sum| chain(&words, sum, &port),
        |sum| chain(&words, sum, &rust),
    )
    .of_each(WORDS)
}

fn chain(words: &[u32], sum: u32, call: impl Fn(u32) -> u32) -> u32 {
    let next = |sum: u32, word: &u32| sum.wrapping_add(call(word ^ (sum & 1)));
    words.iter().fold(sum, next)
}

// The Rust's functions are `inline(always)`: each is called through one that is
// not, so that it pays for a call as the port does.

#[inline(never)]
fn rust_npw2(a: u32) -> u32 {
    rust::lfs_npw2(a)
}

#[inline(never)]
fn rust_ctz(a: u32) -> u32 {
    rust::lfs_ctz(a)
}

#[inline(never)]
fn rust_popc(a: u32) -> u32 {
    rust::lfs_popc(a)
}
