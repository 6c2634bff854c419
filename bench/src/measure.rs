//! Two functions timed side by side, or two calls in turn.
//!
//! Many short slices of both, in turn, and the least time of each: a pause of
//! the machine or a change of its clock then falls on both sides, or on a slice
//! that the least one leaves out.
//!
//! Assumes that the port and the Rust answer the same, and checks it: each slice is
//! the same chain of calls on either side, so its last answers must be equal.

use std::hint::black_box;
use std::time::{Duration, Instant};

/// The most rounds, and the most time that they may take together: a call that
/// is long gets fewer of them.
const ROUNDS: u128 = 400;
const LONGEST: Duration = Duration::from_millis(1500);
const FEWEST: u128 = 10;
/// Of slices fewer: a call that is so long is far longer than the other side's.
const FEWEST_SLICES: u128 = 4;
/// The most rounds of calls that are timed alone.
const ALONE: u128 = 2_000;
const SLICE: Duration = Duration::from_micros(200);

/// The least time of one call, in nanoseconds, on each side.
pub struct Times {
    pub port: f64,
    pub rust: f64,
}

impl Times {
    pub fn ratio(&self) -> f64 {
        self.port / self.rust
    }

    /// The times of one part, where a call is so many of them.
    pub fn of_each(self, parts: usize) -> Times {
        Times {
            port: self.port / parts as f64,
            rust: self.rust / parts as f64,
        }
    }
}

/// The least time of a call, and of a fetch of the same pair, in nanoseconds.
pub struct Beside {
    pub call: f64,
    pub fetch: f64,
}

impl Beside {
    pub fn fetches(&self) -> f64 {
        self.call / self.fetch
    }
}

/// A fetch and a call that writes, in turn, on the same copy of the images. Each
/// call is timed alone; the copy is made outside the clock, into the same memory
/// each time.
pub fn in_turn<F, W>(images: &[Vec<u8>; 2], mut fetch: F, mut write: W) -> Beside
where
    F: FnMut(&[Vec<u8>; 2]) -> u32,
    W: FnMut(&mut [Vec<u8>; 2]) -> u32,
{
    let mut lent = images.clone();
    let mut least = [Duration::MAX; 2];
    let begin = Instant::now();
    for round in 0..ALONE {
        if round >= FEWEST && begin.elapsed() > LONGEST {
            break;
        }
        for (to, from) in lent.iter_mut().zip(images) {
            to.copy_from_slice(from);
        }
        let start = Instant::now();
        black_box(fetch(&lent));
        let fetched = start.elapsed();
        let start = Instant::now();
        let seed = black_box(write(&mut lent));
        let written = start.elapsed();
        assert_eq!(seed, fetch(&lent), "fetch gives the seed that was answered");
        least = [least[0].min(fetched), least[1].min(written)];
    }
    let [fetch, call] = least.map(|time| time.as_nanos() as f64);
    Beside { call, fetch }
}

/// Measures the port's function and the Rust's, from a register to a register.
pub fn side_by_side<P, R>(port: P, rust: R) -> Times
where
    P: FnMut(u32) -> u32,
    R: FnMut(u32) -> u32,
{
    let same = |port, rust| assert_eq!(port, rust, "the port and the Rust answer the same");
    let [port, rust] = in_slices(port, rust, same);
    Times { port, rust }
}

/// Measures a call that alters nothing, and a fetch.
pub fn beside_fetch<C, F>(call: C, fetch: F) -> Beside
where
    C: FnMut(u32) -> u32,
    F: FnMut(u32) -> u32,
{
    let [call, fetch] = in_slices(call, fetch, |_, _| {});
    Beside { call, fetch }
}

/// The least times of two functions. Each round hands on what the two slices end
/// with.
fn in_slices<A, B>(mut one: A, mut other: B, mut ends: impl FnMut(u32, u32)) -> [f64; 2]
where
    A: FnMut(u32) -> u32,
    B: FnMut(u32) -> u32,
{
    let calls = calls_in_a_slice(&mut other);
    let both = slice(calls, &mut one).0 + slice(calls, &mut other).0;
    let rounds = LONGEST.as_nanos() / both.as_nanos().max(1);
    let mut least = [Duration::MAX; 2];
    for _ in 0..rounds.clamp(FEWEST_SLICES, ROUNDS) {
        let (one_time, one_end) = slice(calls, &mut one);
        let (other_time, other_end) = slice(calls, &mut other);
        ends(one_end, other_end);
        least = [least[0].min(one_time), least[1].min(other_time)];
    }
    least.map(|time| time.as_nanos() as f64 / f64::from(calls))
}

/// How many calls of the second function fill a slice. The first gets as many.
fn calls_in_a_slice(other: &mut impl FnMut(u32) -> u32) -> u32 {
    let mut calls = 1;
    while slice(calls, other).0 < SLICE {
        calls *= 2;
    }
    calls
}

/// A chain of calls, each on the answer of the one before: its time and its
/// last answer. The register is hidden from the compiler, so that no call is
/// left out or computed beforehand.
fn slice(calls: u32, call: &mut impl FnMut(u32) -> u32) -> (Duration, u32) {
    let start = Instant::now();
    let mut register = u32::MAX;
    for _ in 0..calls {
        register = call(black_box(register));
    }
    let end = black_box(register);
    (start.elapsed(), end)
}
