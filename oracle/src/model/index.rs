//! The index: a table of words that says where each live name, struct and user
//! attribute of each slot stands. "A place is two words: the live entry's tag (its type,
//! the slot's PRESENT id, its size) and the block offset of its first data byte."
//! (document 02, L8)
//!
//! A build is the directory machine over the log (`seats`); an extension runs the new
//! entries on the places of any table, each found by halving (`places`); what a table
//! holds in the end is in `table`; `get` answers from any table, and `compact` lends one
//! to a compaction.
//!
//! It can be given an `IndexFault`, a change in one place, for `oracle teeth`.
//!
//! Assumes nothing of record and table, and never panics, also with a fault.

mod compact;
mod get;
mod places;
mod seats;
mod table;

use super::committed::{log_of, regular, Logged};
use super::walk::{Commit, Walk};
use super::{tag::*, Fault, IndexFault, Model, WriteFault};
use crate::calls::index::{Index, Indexed, Indexes, Look};
use crate::calls::write::{Committed, Task, DOCUMENT, IRREGULAR, LITTLEFS};
use crate::calls::{Blocks, Got, Gstate, Lookup, Mdir, INVAL};
use seats::Seats;

/// The second implementation of the index, with at most one fault.
#[derive(Clone, Copy)]
pub struct Indexer {
    pub fault: IndexFault,
}

/// The one without a fault.
pub const FAULTLESS_INDEXER: Indexer = Indexer {
    fault: IndexFault::None,
};

/// An entry or a check of a log: its tag, and where the tag stands.
#[derive(Clone, Copy)]
struct Placed {
    tag: u32,
    at: u32,
}

/// How many places a log needs: after some entry, and at its end.
#[derive(Clone, Copy, Default)]
pub struct Needed {
    pub most: usize,
    pub end: usize,
}

/// What a table for the log up to this end needs; none where no commit ends there.
pub fn needed(block: &[u8], end: usize) -> Option<Needed> {
    let log = FAULTLESS_INDEXER.log_to(block, end)?;
    let (mut seats, mut most) = (Seats::new(IndexFault::None), 0);
    for entry in placed(&log) {
        seats.follow(&entry);
        most = most.max(seats.live());
    }
    let end = seats.live();
    Some(Needed { most, end })
}

/// End tag and count behind the commit that ends here, if one does.
pub fn commit_at(block: &[u8], end: usize) -> Option<(u32, u32)> {
    let commit = walked_to(block, end)?;
    Some((commit.end_tag, commit.contents.count))
}

/// "a commit ends there": of the block's first so many bytes, the last one.
fn walked_to(block: &[u8], end: usize) -> Option<Commit> {
    let walk = Walk::of(Fault::None, block.get(..end)?, 0, None);
    walk.committed.filter(|commit| commit.end == end)
}

/// Where the tags of a log stand: the first one at 4, each where the one before ends.
fn placed(log: &[Logged]) -> Vec<Placed> {
    let mut at = 4;
    let stands = |logged: &Logged| {
        let (tag, here) = (logged.tag, at);
        at += length_of(tag) as u32;
        Placed { tag, at: here }
    };
    log.iter().map(stands).collect()
}

impl Indexes for Indexer {
    fn index(&self, input: &Index, table: &mut [u32]) -> Indexed {
        match self.log(input) {
            Err(refusal) => self.refuse(refusal, table),
            Ok(log) => self.fill(self.built(&placed(&log), table.len()), table),
        }
    }

    fn extend(&self, input: &Index, old: &Mdir, table: &mut [u32]) -> Indexed {
        let extender = self.extender();
        match extender.grown(input, old) {
            Err(refusal) => extender.refuse(refusal, table),
            Ok(new) => extender.fill(extender.ran_on(table, &new), table),
        }
    }

    fn look(&self, input: &Index, table: &[u32], look: Look, buffer: &mut [u8]) -> Got {
        self.get(input, table, look, buffer)
    }

    fn compact_with(&self, task: &Task, images: [&mut [u8]; 2], table: &mut [u32]) -> Committed {
        self.compact(task, images, table)
    }
}

impl Indexer {
    fn has(&self, fault: IndexFault) -> bool {
        self.fault == fault
    }

    /// Who extends: some faults are a build's, in extensions alone.
    fn extender(&self) -> Indexer {
        let fault = match self.fault {
            IndexFault::ExtendFullLeavesTable => IndexFault::FullLeavesTable,
            IndexFault::ExtendUnusedLeft => IndexFault::UnusedLeft,
            IndexFault::ExtendOddWordLeft => IndexFault::OddWordLeft,
            IndexFault::ExtendIrregularTaken => IndexFault::IrregularTaken,
            IndexFault::ExtendIrregularZeroes => IndexFault::IrregularZeroes,
            fault => fault,
        };
        Indexer { fault }
    }

    /// Who tests a record and a buffer: with a fault, where it is one of a lookup.
    fn reader(&self) -> Model {
        let fault = match self.fault {
            IndexFault::AnyPair => Fault::AnyPair,
            IndexFault::PairInOrder => Fault::PairInOrder,
            IndexFault::EndPastBlock => Fault::EndPastBlock,
            IndexFault::EndAtBlock => Fault::EndAtBlock,
            IndexFault::Buffer65537 => Fault::Buffer65537,
            IndexFault::Buffer65535 => Fault::Buffer65535,
            _ => Fault::None,
        };
        Model { fault }
    }

    fn fits(&self, blocks: Blocks, dir: Mdir) -> bool {
        let gdisk = Gstate::default();
        self.reader().record_fits(&Lookup { blocks, dir, gdisk })
    }

    /// The image that has the record's first number.
    fn block<'a>(&self, input: &Index<'a>) -> &'a [u8] {
        let second = input.dir.pair[0] == input.blocks.numbers[1];
        let second = second && !self.has(IndexFault::FirstImageAlways);
        input.blocks.images[usize::from(second)]
    }

    /// The log up to the record's end, or the refusal: "record test -22 as for a
    /// lookup", and of the rules; "-202 for a log that is irregular by the given rule, or
    /// a record whose end is no commit boundary".
    fn log<'a>(&self, input: &Index<'a>) -> Result<Vec<Logged<'a>>, i32> {
        let ruled = input.rules <= LITTLEFS || self.has(IndexFault::RulesOfAnyNumber);
        if !self.fits(input.blocks, input.dir) || !ruled {
            return Err(INVAL);
        }
        let block = self.block(input);
        let log = self.log_to(block, input.dir.off as usize);
        let judged = |log: &Vec<Logged>| match self.fault {
            IndexFault::RegularBehindToo => {
                self.regular(input.rules, &log_of(block, last_end(block)))
            }
            _ => self.regular(input.rules, log),
        };
        log.filter(judged).ok_or(IRREGULAR)
    }

    fn log_to<'a>(&self, block: &'a [u8], end: usize) -> Option<Vec<Logged<'a>>> {
        let ends = || walked_to(block, end).is_some();
        let end = match self.fault {
            IndexFault::EndNeedsNoCommit if end > 4 => return Some(log_of(block, end)),
            IndexFault::SumsUntested => return summed_or_not(block, end),
            IndexFault::End4IsEmpty if end == 4 => return Some(Vec::new()),
            IndexFault::EndBehindLogTaken => end.min(last_end(block)),
            IndexFault::WholeLogTaken if ends() => last_end(block),
            IndexFault::LastEndOnly if end != last_end(block) => return None,
            _ => end,
        };
        walked_to(block, end).map(|_| log_of(block, end))
    }

    fn regular(&self, rules: u32, log: &[Logged]) -> bool {
        let rules = match self.fault {
            IndexFault::IrregularTaken => return true,
            IndexFault::DocumentIsLittlefs => LITTLEFS,
            IndexFault::LittlefsIsDocument => DOCUMENT,
            _ => rules,
        };
        regular(WriteFault::None, rules, log)
    }

    /// The entries between the two ends, or the refusal: "as for build; -22 too where the
    /// two records are not of one block or the old end is above the new one"; -202 also
    /// where the old end is no boundary.
    fn grown(&self, input: &Index, old: &Mdir) -> Result<Vec<Placed>, i32> {
        let one_block = old.pair[0] == input.dir.pair[0] || self.has(IndexFault::AnyBlock);
        let rises = match self.fault {
            IndexFault::OldEndAbove => true,
            IndexFault::EqualEndsRefused => old.off < input.dir.off,
            _ => old.off <= input.dir.off,
        };
        let tested = self.fits(input.blocks, *old) || self.has(IndexFault::OldUntested);
        let fits = one_block && rises && tested;
        if !fits && !self.has(IndexFault::OldTestedLast) {
            return Err(INVAL);
        }
        let log = self.log(input)?;
        let ends = self.log_to(self.block(input), old.off as usize).is_some();
        match (fits, ends || self.has(IndexFault::OldEndUntested)) {
            (false, _) => Err(INVAL),
            (true, false) => Err(IRREGULAR),
            (true, true) => Ok(self.behind(placed(&log), old.off)),
        }
    }

    /// The entries from the old end on.
    fn behind(&self, entries: Vec<Placed>, end: u32) -> Vec<Placed> {
        let is_check = |entry: &&Placed| type2_of(entry.tag) == CHECK;
        let last = entries.iter().rev().skip(1).find(is_check);
        let from = match self.fault {
            IndexFault::WholeLogAgain => 0,
            IndexFault::LastCommitOnly => last.map_or(end, |entry| entry.at.max(end)),
            IndexFault::FirstEntryMissed => end + 1,
            _ => end,
        };
        let new = entries.into_iter().filter(|entry| entry.at >= from);
        new.collect()
    }
}

/// Where the block's whole log ends: only a fault looks at it.
fn last_end(block: &[u8]) -> usize {
    let whole = Walk::of(Fault::None, block, 0, None);
    whole.committed.map_or(0, |commit| commit.end)
}

/// The log up to where a check ends, whether its checksum fits or not: a fault.
fn summed_or_not(block: &[u8], end: usize) -> Option<Vec<Logged<'_>>> {
    let log = log_of(block, end);
    let ends = 4 + log
        .iter()
        .map(|logged| length_of(logged.tag))
        .sum::<usize>();
    let checked = log.last().is_some_and(|last| type2_of(last.tag) == CHECK);
    (checked && ends == end).then_some(log)
}
