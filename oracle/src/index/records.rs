//! The records that a table is built for, and those that one is extended from: fetched
//! ones, those of earlier commits, and such as no fetch answers.
//!
//! Assumes nothing.

use super::inputs::History;
use crate::calls::write::{DOCUMENT, LITTLEFS};
use crate::calls::Mdir;
use crate::generate::{broken_blocks, tags_in, Case};
use crate::model::*;

pub(super) const FETCHED: &str = "as fetched";
pub(super) const BEFORE: &str = "the one before the call";

/// Every kind of record that a build has.
pub(super) const KINDS: [&str; 11] = [
    FETCHED,
    "of an earlier commit",
    "of the other block",
    "with other words beside pair and end",
    "its end inside a commit",
    "its end behind the log",
    "its end from 0 to 4",
    "its end past the block",
    "of another pair",
    "over a checksum that fails",
    "with sizes or numbers at their bounds",
];

/// Every kind of record that an extension starts from.
pub(super) const OLDER: [&str; 9] = [
    BEFORE,
    "an earlier commit's",
    "the same one",
    "its end inside a commit",
    "its end from 0 to 4",
    "its end above the new one",
    "its end past the block",
    "of the other block",
    "of another pair",
];

pub(super) const LOGS: [&str; 5] = [
    "regular by both rules",
    "by littlefs's alone",
    "by one at least, but not behind the end",
    "by neither",
    "no log ends there",
];

/// A record, its images, and the record that lookups may take for it.
pub(super) struct Given {
    pub kind: &'static str,
    pub case: Case,
    pub dir: Mdir,
    pub known: Option<Mdir>,
}

impl Given {
    /// The block that the record is of.
    pub fn block(&self) -> &[u8] {
        &self.case.images[usize::from(self.dir.pair[0] == self.case.numbers[1])]
    }

    fn ends(&self) -> Vec<u32> {
        ends_in(self.block())
    }

    /// By which rules the log up to the record's end is regular.
    pub fn log_kind(&self) -> &'static str {
        let block = self.block();
        let by = |rules, end| regular(WriteFault::None, rules, &log_of(block, end));
        let end = self.dir.off as usize;
        let last = || *self.ends().last().unwrap_or(&0) as usize;
        match (by(DOCUMENT, end), by(LITTLEFS, end)) {
            _ if self.known.is_none() => LOGS[4],
            (_, true) if self.kind == KINDS[1] && !by(LITTLEFS, last()) => LOGS[2],
            (true, _) => LOGS[0],
            (false, true) => LOGS[1],
            (false, false) => LOGS[3],
        }
    }
}

/// Where the checks of a block end, whether they fit or not.
fn ends_in(block: &[u8]) -> Vec<u32> {
    let (mut ends, mut at) = (Vec::new(), 4);
    for tag in tags_in(block) {
        at += length_of(tag) as u32;
        if type2_of(tag) == CHECK {
            ends.push(at);
        }
    }
    ends
}

/// The record behind the commit that ends here, if one does.
fn record_at(block: &[u8], dir: Mdir, end: u32) -> Option<Mdir> {
    let (etag, count) = commit_at(block, end as usize)?;
    let count = u16::try_from(count).ok()?;
    Some(Mdir {
        off: end,
        etag,
        count,
        ..dir
    })
}

impl History<'_> {
    fn one_of(&mut self, ends: &[u32]) -> u32 {
        ends[self.random.below(ends.len())]
    }

    /// Another record of the pair, or of nearly this pair.
    pub(super) fn another(&mut self) -> Given {
        let mut given = self.as_it_is();
        let block = self.case.geometry.block_size;
        given.kind = match self.random.below(16) {
            0..5 => return self.of_commit(given, KINDS[1]),
            5 | 6 => return self.of_other_block(given),
            7 | 8 => {
                given.dir = self.other_words(given.dir);
                KINDS[3]
            }
            9 | 10 => {
                given.dir.off = self.inside(&given);
                KINDS[4]
            }
            11 => {
                let more = 1 + self.random.below(24) as u32;
                given.dir.off =
                    [given.dir.off.saturating_add(more).min(block), block][self.random.below(2)];
                KINDS[5]
            }
            12 => {
                given.dir.off = self.random.below(5) as u32;
                KINDS[6]
            }
            13 => {
                given.dir.off = self.past();
                KINDS[7]
            }
            14 => return self.failing(given),
            _ => return self.at_bounds(given),
        };
        if given.kind != KINDS[3] {
            given.known = None;
        }
        given
    }

    /// The record of one of the block's commits.
    fn of_commit(&mut self, given: Given, kind: &'static str) -> Given {
        let ends = given.ends();
        let Some(&end) = ends.get(self.random.below(ends.len().max(1))) else {
            return given;
        };
        match record_at(given.block(), given.dir, end) {
            Some(dir) => Given {
                kind,
                known: Some(dir),
                dir,
                ..given
            },
            None => given,
        }
    }

    /// The other block's own record, or this one's with the numbers exchanged.
    fn of_other_block(&mut self, mut given: Given) -> Given {
        given.dir.pair.reverse();
        given.known = None;
        given.kind = KINDS[2];
        match self.random.below(3) {
            0 => given,
            _ => self.of_commit(given, KINDS[2]),
        }
    }

    /// "Of a record pair and end are read": all else is any word.
    fn other_words(&mut self, dir: Mdir) -> Mdir {
        let mut word = || self.random.word();
        Mdir {
            pair: dir.pair,
            rev: word(),
            off: dir.off,
            etag: word(),
            count: word() as u16,
            erased: (word() & 1) as u8,
            split: (word() & 1) as u8,
            tail: [word(), word()],
            forward: (word() & 1) as u8,
            forward_size: word(),
            forward_sum: word(),
        }
    }

    /// An end that is none: where an entry ends, or anywhere.
    fn inside(&mut self, given: &Given) -> u32 {
        let (mut at, mut entries) = (4, vec![5]);
        for tag in tags_in(given.block()) {
            at += length_of(tag) as u32;
            if type2_of(tag) != CHECK {
                entries.push(at);
            }
        }
        let below = 5 + self.random.below(given.dir.off.max(6) as usize - 5) as u32;
        [self.one_of(&entries), below][self.random.below(2)]
    }

    fn past(&mut self) -> u32 {
        let block = self.case.geometry.block_size;
        self.one_of(&[block + 1, block + 4, 65_536, 1 << 31, u32::MAX])
    }

    /// A bit of the last commit is another one: the record's end is no commit's now.
    fn failing(&mut self, mut given: Given) -> Given {
        let second = given.dir.pair[0] == given.case.numbers[1];
        let length = length_of(given.dir.etag) as u32;
        let block = &mut given.case.images[usize::from(second)];
        let sum = given.dir.off.wrapping_sub(length).wrapping_add(4) as usize;
        if let Some(byte) = block.get_mut(sum + self.random.below(4)) {
            *byte ^= 1 << self.random.below(8);
            given.kind = KINDS[9];
            given.known = None;
        }
        given
    }

    fn at_bounds(&mut self, mut given: Given) -> Given {
        given.known = None;
        if self.random.below(2) == 0 {
            given.dir.pair = self.other_pair(given.dir.pair);
            given.kind = KINDS[8];
            return given;
        }
        let same = given.dir.pair == given.case.numbers;
        given.case = broken_blocks(&mut self.random, &given.case);
        given.kind = KINDS[10];
        given.dir.pair = given.case.numbers;
        if !same {
            given.dir.pair.reverse();
        }
        given
    }

    fn other_pair(&mut self, [n0, n1]: [u32; 2]) -> [u32; 2] {
        let near = 1 << self.random.below(32);
        let pairs = [[n0, n0], [n1, n1], [n0 ^ near, n1], [n0, n1 ^ near]];
        pairs[self.random.below(4)]
    }

    /// The record that a table is extended from, and which one that is.
    pub(super) fn older(&mut self, given: &Given) -> (Mdir, &'static str) {
        let mut old = given.dir;
        let which = match self.random.below(20) {
            0..11 => {
                let mut ends = given.ends();
                ends.retain(|&end| end < old.off);
                ends.push(old.off);
                old.off = ends[self.random.below(ends.len().max(2) - 1)];
                1 + usize::from(old.off == given.dir.off)
            }
            11 => 2,
            which @ 12..17 => {
                let above = old.off.saturating_add(1 + self.random.below(40) as u32);
                let low = self.random.below(5) as u32;
                let inside = self.inside(given);
                old.off = [inside, inside, low, above, self.past()][which - 12];
                [3, 3, 4, 5, 6][which - 12]
            }
            17 | 18 => {
                old.pair.reverse();
                7
            }
            _ => {
                old.pair = self.other_pair(old.pair);
                8
            }
        };
        if self.random.below(4) == 0 {
            old = self.other_words(old);
        }
        (old, OLDER[which])
    }
}
