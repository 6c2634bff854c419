//! Fetch: the newest valid log of a pair.
//!
//! Assumes nothing.

use super::walk::{Commit, Forward, Walk};
use super::{bytes::*, tag::*, Fault, Model};
use crate::calls::{Fetch, Fetched, Mdir, CORRUPT, INVAL, NOENT};

/// "-2: fetch: count above 1,023"
pub(super) const MOST_SLOTS: u32 = 1023;

/// What was met on the way to an answer.
#[derive(Clone, Copy, Default)]
pub struct Met {
    /// The rule on forward lengths past the block, which is Ours, decided the erased
    /// mark.
    pub forward_past: bool,
    /// The last commit has a forward check of its own.
    pub forward_own: bool,
    /// A forward check stands behind the last commit, and isn't committed.
    pub forward_behind: bool,
}

impl Model {
    /// The answer, and what was met.
    pub fn fetch_and_say(&self, input: &Fetch) -> (Fetched, Met) {
        if !self.blocks_fit(&input.blocks) {
            return (refused(INVAL, input.seed), Met::default());
        }
        if self.number_too_high(input) {
            return (refused(CORRUPT, input.seed), Met::default());
        }
        let first = self.first(input);
        let mut earlier = None;
        for which in [first, 1 - first] {
            let walk = Walk::of(self.fault, input.blocks.images[which], input.seed, earlier);
            if let Some(commit) = walk.committed {
                return self.answer(input, which, &walk, &commit);
            }
            earlier = Some(walk);
            if self.has(Fault::SecondBlockUntried) {
                break;
            }
        }
        let mut answer = refused(CORRUPT, input.seed);
        if self.has(Fault::RefusalHasRecord) {
            answer.dir.pair = input.blocks.numbers;
        }
        (answer, Met::default())
    }

    /// "block number not below a non-zero block count"
    pub(super) fn number_too_high(&self, input: &Fetch) -> bool {
        let ([n0, n1], count) = (input.blocks.numbers, input.block_count);
        let high = |number: u32| match self.fault {
            Fault::BlockCountIncluded => number > count,
            _ => number >= count,
        };
        let second = high(n1) && !self.has(Fault::SecondNumberUntested);
        count != 0 && (high(n0) || second)
    }

    /// "The second block ranks first only if its revision minus the first's,
    /// wrapping and read as signed, is above 0."
    fn first(&self, input: &Fetch) -> usize {
        let [rev0, rev1] = self.revisions(input);
        let ahead = rev1.wrapping_sub(rev0) as i32;
        usize::from(match self.fault {
            Fault::RevisionUnsigned => rev1 > rev0,
            Fault::RevisionSigned => (rev1 as i32) > (rev0 as i32),
            Fault::EqualRevisionsSecond => ahead >= 0,
            _ => ahead > 0,
        })
    }

    fn revisions(&self, input: &Fetch) -> [u32; 2] {
        input.blocks.images.map(|image| match self.fault {
            Fault::RevisionBigEndian => be32(image, 0).unwrap_or(0),
            _ => le32(image, 0).unwrap_or(0),
        })
    }

    fn answer(&self, input: &Fetch, which: usize, walk: &Walk, commit: &Commit) -> (Fetched, Met) {
        let contents = match self.fault {
            Fault::UncommittedShown => walk.contents,
            _ => commit.contents,
        };
        let (erased, forward_past) = self.erased(walk, commit, input.blocks.geometry.prog_size);
        let met = Met {
            forward_past,
            forward_own: commit.forwards.own.is_some(),
            forward_behind: walk.forwards.own.is_some(),
        };
        let numbers = input.blocks.numbers;
        let shown = match self.fault {
            Fault::PairAsGiven => 0,
            _ => which,
        };
        let of = match self.fault {
            Fault::RevisionOfFirst => self.first(input),
            _ => which,
        };
        let dir = Mdir {
            pair: [numbers[shown], numbers[1 - shown]],
            rev: self.revisions(input)[of],
            off: commit.end as u32,
            etag: commit.end_tag,
            count: contents.count as u16,
            erased: erased.into(),
            split: contents.split.into(),
            tail: contents.tail,
            ..self.forward_fields(self.forward(walk, commit, erased))
        };
        let answer = Fetched {
            result: self.result(contents.count),
            dir,
            seed: self.seed(input, walk),
        };
        (self.of_noent(input, answer), met)
    }

    /// The answer, and of a -2 with a fault what it changes.
    fn of_noent(&self, input: &Fetch, answer: Fetched) -> Fetched {
        let (dir, seed) = (answer.dir.without_forward(), input.seed);
        match (answer.result, self.fault) {
            (NOENT, Fault::NoentHasNoRecord) => refused(NOENT, seed),
            (NOENT, Fault::NoentHasOldSeed) => Fetched { seed, ..answer },
            (NOENT, Fault::NoentHasNoForward) => Fetched { dir, ..answer },
            _ => answer,
        }
    }

    /// "The record shall hold the last committed forward check, or none."
    fn forward(&self, walk: &Walk, commit: &Commit, erased: bool) -> Option<Forward> {
        match self.fault {
            Fault::ForwardUncommitted => walk.forwards.last,
            Fault::ForwardOfLastCommit => commit.forwards.own,
            Fault::ForwardIfItFits => commit.forwards.last.filter(|_| erased),
            Fault::ForwardUnshown => None,
            _ => commit.forwards.last,
        }
    }

    /// The record's three fields, all 0 where there is none.
    pub(super) fn forward_fields(&self, forward: Option<Forward>) -> Mdir {
        let Some(Forward { length, sum }) = forward else {
            return Mdir::default();
        };
        let (forward_size, forward_sum) = match self.fault {
            Fault::ForwardSwapped => (sum, length),
            _ => (length, sum),
        };
        Mdir {
            forward: 1,
            forward_size,
            forward_sum,
            ..Mdir::default()
        }
    }

    fn seed(&self, input: &Fetch, walk: &Walk) -> u32 {
        let torn = type2_of(walk.previous) != CHECK;
        match torn && self.has(Fault::SeedForgotten) {
            true => input.seed,
            false => walk.seed,
        }
    }

    fn result(&self, count: u32) -> i32 {
        let most = match self.fault {
            Fault::CountBelow1023 => MOST_SLOTS - 1,
            Fault::CountTo1024 => MOST_SLOTS + 1,
            _ => MOST_SLOTS,
        };
        match count > most {
            true => NOENT,
            false => 0,
        }
    }
}

/// "record all zero, seed as given"
pub(super) fn refused(result: i32, seed: u32) -> Fetched {
    let dir = Mdir::default();
    Fetched { result, dir, seed }
}
