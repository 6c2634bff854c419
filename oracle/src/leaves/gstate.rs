//! `lfs_gstate.rs`: the global state.
//!
//! Assumes nothing: any three words are a state.

use super::yes_or_no;
use crate::port::Gstate;
use crate::rust::lfs_gstate as rust;
use crate::rust::lfs_gstate::LfsGstate;
use crate::tally::{Check, Subject};
use crate::{inputs, port, random::Random};

const RANDOM_STATES: usize = 1 << 18;

pub fn compare() -> Subject {
    let mut random = Random::new(6);
    let mut subject = Subject::new("lfs_gstate");
    let states = states(&mut random);
    subject.add(test(
        "lfs_gstate_iszero",
        &states,
        rust::lfs_gstate_iszero,
        port::gstate_iszero,
    ));
    subject.add(test(
        "lfs_gstate_hasorphans",
        &states,
        rust::lfs_gstate_hasorphans,
        port::gstate_hasorphans,
    ));
    subject.add(test(
        "lfs_gstate_hasmove",
        &states,
        rust::lfs_gstate_hasmove,
        port::gstate_hasmove,
    ));
    subject.add(test(
        "lfs_gstate_needssuperblock",
        &states,
        rust::lfs_gstate_needssuperblock,
        port::gstate_needssuperblock,
    ));
    subject.add(orphans(&states));
    subject.add(moves_here(&mut random, &states));
    subject.add(sums(&states));
    subject
}

/// Corner tags with the pairs of 0 and others, so that each word alone is what
/// makes a state differ from zero; every size; and random states.
fn states(random: &mut Random) -> Vec<Gstate> {
    let mut tags = inputs::corners();
    tags.extend(inputs::tag_corners());
    tags.extend(0..1024);
    let mut states = Vec::new();
    for tag in tags {
        for pair in [[0, 0], [0, 1], [1, 0], [0x8000_0000, 0], [0, 0x8000_0000]] {
            states.push(Gstate { tag, pair });
        }
    }
    for tag in [0, 1] {
        for block in inputs::corners() {
            let pairs = [[block, 0], [0, block], [block, block]];
            states.extend(pairs.map(|pair| Gstate { tag, pair }));
        }
    }
    for _ in 0..RANDOM_STATES {
        let pair = [random.word(), random.word()];
        let tag = random.word();
        states.push(Gstate { tag, pair });
    }
    states
}

/// The port's state as the Rust's.
fn as_rust(state: &Gstate) -> LfsGstate {
    LfsGstate {
        tag: state.tag,
        pair: state.pair,
    }
}

fn text(state: &Gstate) -> String {
    format!("{state:x?}")
}

/// A test of one state.
fn test(
    name: &'static str,
    states: &[Gstate],
    rust: impl Fn(&LfsGstate) -> bool,
    port: impl Fn(&Gstate) -> u32,
) -> Check {
    let mut check = Check::rust(name);
    for state in states {
        let expected = u32::from(rust(&as_rust(state)));
        check.outcome(yes_or_no(&expected));
        check.same(expected, port(state), || text(state));
    }
    check
}

fn orphans(states: &[Gstate]) -> Check {
    let mut check = Check::rust("lfs_gstate_getorphans");
    for state in states {
        let expected = u32::from(rust::lfs_gstate_getorphans(&as_rust(state)));
        check.outcome(if expected == 0 { "none" } else { "some" });
        check.same(expected, port::gstate_getorphans(state), || text(state));
    }
    check
}

/// Pairs that share none, one or both blocks with the state's, in every
/// position.
fn moves_here(random: &mut Random, states: &[Gstate]) -> Check {
    let mut check = Check::rust("lfs_gstate_hasmovehere");
    for state in states {
        for (_, pair) in inputs::two_pairs(random, state.pair) {
            let of_rust = rust::lfs_gstate_hasmovehere(&as_rust(state), &pair);
            let expected = u32::from(of_rust);
            check.outcome(yes_or_no(&expected));
            check.same(expected, port::gstate_hasmovehere(state, pair), || {
                format!("{}, pair {pair:x?}", text(state))
            });
        }
    }
    check
}

/// Each state with the next, and with itself: both as they stand afterwards.
fn sums(states: &[Gstate]) -> Check {
    let mut check = Check::rust("lfs_gstate_xor");
    let next = states.iter().skip(1).chain(states.first());
    let with_next = states.iter().zip(next);
    for (a, b) in with_next.chain(states.iter().zip(states)) {
        let mut sum = as_rust(a);
        rust::lfs_gstate_xor(&mut sum, &as_rust(b));
        let (tag, pair) = (sum.tag, sum.pair);
        check.same((Gstate { tag, pair }, *b), port::gstate_xor(*a, *b), || {
            format!("{} and {}", text(a), text(b))
        });
    }
    check
}
