//! The refetch: the walk goes on at a record's end, and what it commits there is added
//! to the record. "Given a record and seed of an earlier fetch [..] continue at the
//! end only." (document 02, L6)
//!
//! It can be given a `RefetchFault`, a change in one place, for `oracle teeth`.
//!
//! Assumes nothing of the record, and never panics, also with a fault.

use super::fetch::{refused, MOST_SLOTS};
use super::walk::{Commit, Contents, Forward, Forwards, Walk};
use super::{bytes::*, tag::*, Fault, Model, RefetchFault, FAULTLESS};
use crate::calls::refetch::{Refetch, Refetches};
use crate::calls::{Fetched, Mdir, CORRUPT, INVAL, NOENT};

/// The least end that a commit has: behind the revision stands a check's tag.
const LEAST_END: u32 = 8;

/// The second implementation of the refetch, with at most one fault.
#[derive(Clone, Copy)]
pub struct Refetcher {
    pub fault: RefetchFault,
}

/// The one without a fault.
pub const FAULTLESS_REFETCHER: Refetcher = Refetcher {
    fault: RefetchFault::None,
};

/// "all bytes of this block before the record's end and in its last checksum": how
/// many they are. Behind a check of size below 4, or of 1,023, the checksum reaches
/// past the end.
pub fn known_to(dir: &Mdir) -> usize {
    dir.off as usize + 8usize.saturating_sub(length_of(dir.etag))
}

impl Refetches for Refetcher {
    fn refetch(&self, input: &Refetch) -> Fetched {
        let seed = input.fetch.seed;
        match self.refusal(input) {
            Some(refusal) if self.has(RefetchFault::RefusalHasRecord) => Fetched {
                dir: input.dir,
                ..refused(refusal, seed)
            },
            Some(refusal) => refused(refusal, seed),
            None => self.go_on(input),
        }
    }
}

impl Refetcher {
    fn has(&self, fault: RefetchFault) -> bool {
        self.fault == fault
    }

    /// -22, then -84: neither looks at the bytes.
    fn refusal(&self, input: &Refetch) -> Option<i32> {
        let high = FAULTLESS.number_too_high(&input.fetch) && !self.has(RefetchFault::HighUntested);
        match (self.fits(input), high) {
            (false, true) if self.has(RefetchFault::HighFirst) => Some(CORRUPT),
            (false, _) => Some(INVAL),
            (true, true) => Some(CORRUPT),
            (true, false) => None,
        }
    }

    /// "A record whose end passes the block or is below 8, or whose pair isn't the
    /// given one, is -22"; as are the sizes and numbers that a fetch refuses.
    fn fits(&self, input: &Refetch) -> bool {
        let (blocks, dir) = (&input.fetch.blocks, &input.dir);
        let ([n0, n1], block) = (blocks.numbers, blocks.geometry.block_size);
        let either = dir.pair == [n1, n0] && !self.has(RefetchFault::PairInOrder);
        let pair = dir.pair == [n0, n1] || either || self.has(RefetchFault::AnyPair);
        let least = match self.fault {
            RefetchFault::End7Taken => LEAST_END - 1,
            RefetchFault::End8Refused => LEAST_END + 1,
            _ => LEAST_END,
        };
        let most = match self.fault {
            RefetchFault::EndAtBlockRefused => block.saturating_sub(1),
            RefetchFault::EndPastTaken => block.saturating_add(1),
            _ => block,
        };
        let sizes = FAULTLESS.blocks_fit(blocks) || self.has(RefetchFault::SizesUntested);
        sizes && pair && (least..=most).contains(&dir.off)
    }

    fn go_on(&self, input: &Refetch) -> Fetched {
        let (blocks, dir) = (&input.fetch.blocks, &input.dir);
        let second = dir.pair[0] == blocks.numbers[1];
        let second = second && !self.has(RefetchFault::FirstImageAlways);
        let known = self.known(dir);
        let walk = self.walk(blocks.images[usize::from(second)], known, input.fetch.seed);
        let commit = walk.committed.unwrap_or(known);
        let erased = self.erased(input, &walk, &commit);
        self.answer(input, &walk, &commit, erased)
    }

    /// What the record says, as the commit that it ends behind would have left it. A
    /// record without a forward check has none, whatever its size and sum say.
    fn known(&self, dir: &Mdir) -> Commit {
        let seen = match self.fault {
            RefetchFault::ForwardDropped => false,
            RefetchFault::ForwardUnseen => true,
            _ => dir.forward != 0,
        };
        let forward = Forward {
            length: dir.forward_size,
            sum: dir.forward_sum,
        };
        let count = match self.fault {
            RefetchFault::CountFromZero => 0,
            _ => dir.count.into(),
        };
        let tail = match self.fault {
            RefetchFault::TailFromNone => [ONES; 2],
            _ => dir.tail,
        };
        let split = dir.split != 0 && !self.has(RefetchFault::SplitFromNo);
        Commit {
            contents: Contents { count, tail, split },
            end: dir.off as usize,
            end_tag: dir.etag,
            forwards: Forwards {
                last: seen.then_some(forward),
                own: None,
            },
        }
    }

    /// "the walk goes on at its end with its end tag as the previous tag, the checksum
    /// at 0xffffffff, and its count, tail, split and forward check"
    fn walk<'a>(&self, block: &'a [u8], known: Commit, seed: u32) -> Walk<'a> {
        let fault = match self.fault {
            RefetchFault::PreviousUnflipped => Fault::PreviousUnflipped,
            RefetchFault::EndTagUnflipped => Fault::EndTagUnflipped,
            RefetchFault::ForwardStays => Fault::FirstForwardKept,
            _ => Fault::None,
        };
        let mut walk = Walk::behind(fault, block, known, seed);
        match self.fault {
            RefetchFault::PreviousFromOnes => walk.previous = ONES,
            RefetchFault::SumOfRevision => {
                walk.sum = crc(ONES, block.get(..4).unwrap_or_default());
            }
            RefetchFault::SeedFromZero => walk.seed = 0,
            _ => {}
        }
        walk.run()
    }

    /// As fetch's: "straight after a commit is what its end tag's type2 says", where the
    /// walk stops at once; "its erased mark is not read".
    fn erased(&self, input: &Refetch, walk: &Walk, commit: &Commit) -> bool {
        let (dir, prog) = (&input.dir, input.fetch.blocks.geometry.prog_size);
        let at_once = walk.at == dir.off as usize;
        let behind = |end| Commit { end, ..*commit };
        let always = Model {
            fault: Fault::ErasedBehindEntries,
        };
        match self.fault {
            RefetchFault::ErasedStays => dir.erased != 0,
            RefetchFault::StraightNever if at_once => false,
            RefetchFault::StraightAlways if at_once => always.erased(walk, commit, prog).0,
            RefetchFault::ErasedFromOldEnd => {
                FAULTLESS.erased(walk, &behind(dir.off as usize), prog).0
            }
            _ => FAULTLESS.erased(walk, commit, prog).0,
        }
    }

    /// "pair and revision are the record's own"; "-2 by the count at the end, the
    /// record's own too", with record and seed as read.
    fn answer(&self, input: &Refetch, walk: &Walk, commit: &Commit, erased: bool) -> Fetched {
        let contents = match self.fault {
            RefetchFault::UncommittedShown => walk.contents,
            _ => commit.contents,
        };
        let rev = match self.fault {
            RefetchFault::RevisionRead => le32(walk.block, 0).unwrap_or_default(),
            _ => input.dir.rev,
        };
        let dir = Mdir {
            pair: input.dir.pair,
            rev,
            off: commit.end as u32,
            etag: commit.end_tag,
            count: contents.count as u16,
            erased: erased.into(),
            split: contents.split.into(),
            tail: contents.tail,
            ..self.forward(&input.dir, walk, commit)
        };
        let seed = match self.fault {
            RefetchFault::SeedStays => input.fetch.seed,
            _ => walk.seed,
        };
        let grown = commit.end != input.dir.off as usize;
        match (self.result(contents.count, grown), self.fault) {
            (NOENT, RefetchFault::NoentHasNoRecord) => refused(NOENT, seed),
            (NOENT, RefetchFault::NoentHasOldSeed) => Fetched {
                result: NOENT,
                dir,
                seed: input.fetch.seed,
            },
            (result, _) => Fetched { result, dir, seed },
        }
    }

    /// The record's three fields: of the last committed forward check, its own or one
    /// behind it.
    fn forward(&self, dir: &Mdir, walk: &Walk, commit: &Commit) -> Mdir {
        let last = match self.fault {
            RefetchFault::ForwardUncommitted => walk.forwards.last,
            _ => commit.forwards.last,
        };
        let fields = FAULTLESS.forward_fields(last);
        match (last, self.fault) {
            (None, RefetchFault::ForwardWordsStay) => Mdir {
                forward_size: dir.forward_size,
                forward_sum: dir.forward_sum,
                ..fields
            },
            _ => fields,
        }
    }

    fn result(&self, count: u32, grown: bool) -> i32 {
        let most = match self.fault {
            RefetchFault::CountTo1024 => MOST_SLOTS + 1,
            _ => MOST_SLOTS,
        };
        let unjudged = !grown && self.has(RefetchFault::CountOfCommits);
        match count > most && !unjudged {
            true => NOENT,
            false => 0,
        }
    }
}
