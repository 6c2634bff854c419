//! `util.rs`, pairs of block numbers.
//!
//! Assumes nothing: any two words are a pair.

use super::{hex, two_words, yes_or_no};
use crate::port::Pair;
use crate::tally::{Check, Subject};
use crate::{inputs, port, random::Random, rust::util as rust};

/// Blocks that every combination of four is made of: the null block, its
/// neighbours, and numbers that differ from another in one bit.
const BLOCKS: [u32; 8] = [
    0,
    1,
    2,
    0x7fff_ffff,
    0x8000_0000,
    0xffff_fffd,
    0xffff_fffe,
    0xffff_ffff,
];

pub fn compare() -> Subject {
    let mut random = Random::new(5);
    let mut subject = Subject::new("util, pairs");
    let pairs = inputs::two_words(&mut random);
    subject.add(two_words(
        "lfs_pair_isnull",
        &pairs,
        Some(yes_or_no),
        |p0, p1| u32::from(rust::lfs_pair_isnull(&[p0, p1])),
        port::pair_isnull,
    ));
    subject.add(two_words(
        "lfs_pair_swap",
        &pairs,
        None,
        |p0, p1| {
            let mut pair = [p0, p1];
            rust::lfs_pair_swap(&mut pair);
            Pair { pair }
        },
        port::pair_swap,
    ));
    two_pairs(&mut subject, &fours(&mut random, &pairs));
    subject
}

/// Every combination of four of the blocks above, and pairs that share none,
/// one or both in every position.
fn fours(random: &mut Random, pairs: &[(u32, u32)]) -> Vec<([u32; 2], [u32; 2])> {
    let mut fours = Vec::new();
    for p0 in BLOCKS {
        for p1 in BLOCKS {
            for q0 in BLOCKS {
                fours.extend(BLOCKS.map(|q1| ([p0, p1], [q0, q1])));
            }
        }
    }
    for &(p0, p1) in &pairs[..pairs.len() / 8] {
        fours.extend(inputs::two_pairs(random, [p0, p1]));
    }
    for _ in 0..inputs::MANY {
        let pair = |random: &mut Random| [random.word(), random.word()];
        fours.push((pair(random), pair(random)));
    }
    fours
}

fn two_pairs(subject: &mut Subject, fours: &[([u32; 2], [u32; 2])]) {
    let mut cmp = Check::rust("lfs_pair_cmp");
    let mut sync = Check::rust("lfs_pair_issync");
    for (p, q) in fours {
        let inputs = || hex(&[p[0], p[1], q[0], q[1]]);
        let expected = rust::lfs_pair_cmp(p, q);
        cmp.outcome(if expected == 0 { "share" } else { "apart" });
        cmp.same(expected, port::pair_cmp(p[0], p[1], q[0], q[1]), inputs);
        let expected = u32::from(rust::lfs_pair_issync(p, q));
        sync.outcome(yes_or_no(&expected));
        sync.same(expected, port::pair_issync(p[0], p[1], q[0], q[1]), inputs);
    }
    subject.add(cmp);
    subject.add(sync);
}
