//! The erased mark.
//!
//! Assumes nothing.

use super::walk::{Commit, Forward, Stop, Walk};
use super::{bytes::*, tag::*, Fault, Model};

impl Model {
    /// "Erased is yes exactly if the walk stopped on an invalid tag straight
    /// after a commit, the end is a multiple of the program size, a forward
    /// check was seen in ANY commit so far, and the last one's checksum from
    /// 0xffffffff over that many bytes from the end fits. Ours: a forward length
    /// past the block gives no." The second answer: that last sentence decided.
    pub(super) fn erased(&self, walk: &Walk, commit: &Commit, prog: u32) -> (bool, bool) {
        let straight = type2_of(walk.previous) == CHECK || self.has(Fault::ErasedBehindEntries);
        let invalid = walk.stop == Stop::Invalid || self.has(Fault::ErasedAtAnyStop);
        if !(straight && invalid && self.aligned(commit.end, prog as usize)) {
            return (false, false);
        }
        let Some(forward) = walk.forwards.last else {
            return (self.has(Fault::ErasedWithoutForward), false);
        };
        let rest = walk.block.get(commit.end..).unwrap_or_default();
        match rest.get(..forward.length as usize) {
            Some(covered) => (self.fits(covered, forward), false),
            None => (self.past(rest, forward), true),
        }
    }

    fn aligned(&self, end: usize, prog: usize) -> bool {
        match self.fault {
            Fault::ErasedUnaligned => true,
            Fault::ErasedByMask => end & (prog - 1) == 0,
            _ => end.is_multiple_of(prog),
        }
    }

    fn fits(&self, covered: &[u8], forward: Forward) -> bool {
        let start = match self.fault {
            Fault::ForwardFromZero => 0,
            _ => ONES,
        };
        let empty = covered.is_empty() && self.has(Fault::EmptyForwardFails);
        crc(start, covered) == forward.sum && !empty
    }

    /// The fault is what the Rust does: it sums eight bytes at a time until a
    /// read passes the block, and compares what it has by then.
    fn past(&self, rest: &[u8], forward: Forward) -> bool {
        let whole = rest.len() / 8 * 8;
        let read = rest.get(..whole).unwrap_or_default();
        self.has(Fault::ForwardMayPass) && crc(ONES, read) == forward.sum
    }
}
