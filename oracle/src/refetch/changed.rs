//! What may happen to a pair so that a record of it is no longer good: a compaction,
//! a byte altered that the record was read from, sizes and numbers at their bounds.
//!
//! Assumes that the record is of the pair as it is.

use super::behind::REFUSED_CALL;
use super::inputs::{Given, History, Known};
use crate::calls::refetch::Refetches;
use crate::calls::write::{Work, Writes};
use crate::calls::Voice;
use crate::generate;
use crate::model::{le32, length_of};

/// Behind it the other block answers: a refetch from the old record must be seen to
/// be no fetch.
pub(super) const COMPACTION: &str = "a compaction";

impl<F: Refetches, W: Writes, R: Voice> History<'_, F, W, R> {
    pub(super) fn compaction(&mut self, known: Known) -> Given {
        let stores = match self.random.below(4) {
            0 => Some(self.random.below(self.case.images[0].len()) as u32),
            _ => None,
        };
        let kinds = [COMPACTION, "a compaction with a limit"];
        let given = self.written(known, kinds, Work::Compact, stores);
        // Another writer may have compacted what ours refuses.
        match given.kind == REFUSED_CALL && self.random.below(4) > 0 {
            true => self.other_block(known),
            false => given,
        }
    }

    /// One bit, at this place of the block that the record is of.
    fn flipped(&mut self, known: Known, kind: &'static str, place: usize) -> Given {
        let mut given = self.as_it_was(known);
        let block = &mut given.case.images[self.answering(&known.dir)];
        if let Some(byte) = block.get_mut(place) {
            *byte ^= 1 << self.random.below(8);
            given.kind = kind;
        }
        given
    }

    pub(super) fn before(&mut self, known: Known) -> Given {
        let end = known.dir.off as usize;
        let place = match self.random.below(3) {
            0 => end - 1 - self.random.below(4),
            _ => 4 + self.random.below(end - 4),
        };
        self.flipped(known, "a byte before the end", place)
    }

    /// Behind a check of size below 4, or of 1,023, some of its bytes are past the end.
    pub(super) fn last_checksum(&mut self, known: Known) -> Given {
        let start = known.dir.off as usize + 4 - length_of(known.dir.etag);
        let place = start + self.random.below(4);
        let kind = match place < known.dir.off as usize {
            true => "the last checksum",
            false => "the last checksum, past the end",
        };
        self.flipped(known, kind, place)
    }

    /// Erased, any bytes, one bit, this block's bytes, or a log that ranks before it.
    pub(super) fn other_block(&mut self, known: Known) -> Given {
        let mut given = self.as_it_was(known);
        given.kind = "the other block";
        let this = self.answering(&known.dir);
        let next = known.dir.rev.wrapping_add(1);
        let other = &mut given.case.images[1 - this];
        match self.random.below(6) {
            0 => other.fill([0xff, 0x00][self.random.below(2)]),
            1 => other.fill_with(|| self.random.word() as u8),
            2 => {
                let place = self.random.below(other.len());
                other[place] ^= 1 << self.random.below(8);
            }
            3 => other.copy_from_slice(&self.case.images[this]),
            _ => *other = generate::log(&mut self.random, self.case.geometry, next).bytes,
        }
        given
    }

    /// This block's, or the other one's.
    pub(super) fn revision(&mut self, known: Known) -> Given {
        let mut given = self.as_it_was(known);
        given.kind = "a revision";
        let block = &mut given.case.images[self.random.below(2)];
        let revision = le32(block, 0).unwrap_or_default();
        let ahead = [1, u32::MAX, 2, 1 << 31, self.random.word()][self.random.below(5)];
        block[..4].copy_from_slice(&revision.wrapping_add(ahead).to_le_bytes());
        given
    }

    /// The same blocks, given the other way round: where fetch takes the first one of
    /// two, it takes the other.
    pub(super) fn other_order(&mut self, known: Known) -> Given {
        let mut given = self.as_it_was(known);
        given.kind = "the other order";
        given.case.images.swap(0, 1);
        given.case.numbers.swap(0, 1);
        given
    }

    /// Sizes, lengths and numbers of the blocks, end and pair of the record: each at
    /// its bounds, at times with a number that is too high.
    pub(super) fn edges(&mut self, known: Known) -> Given {
        let mut given = self.as_it_was(known);
        let (this, block) = (self.answering(&known.dir), self.case.geometry.block_size);
        let [n0, n1] = self.case.numbers;
        match self.random.below(3) {
            0 => {
                given.kind = "sizes or numbers at their bounds";
                given.case = generate::broken_blocks(&mut self.random, &self.case);
                let numbers = given.case.numbers;
                given.dir.pair = [numbers[this], numbers[1 - this]];
            }
            1 => {
                given.kind = "the record's end at its bounds";
                let ends = [0, 4, 7, 8, 9, block - 1, block, block + 1, 65_536, u32::MAX];
                given.dir.off = ends[self.random.below(ends.len())];
            }
            _ => {
                given.kind = "the record's pair";
                let any = self.random.word();
                let pairs = [[n0, n0], [n1, n1], [n0 ^ 1 << 31, n1], [n0, any], [any, n1]];
                given.dir.pair = pairs[self.random.below(pairs.len())];
            }
        }
        if self.random.below(3) == 0 {
            given.case.block_count = self.count_near();
        }
        given
    }
}
