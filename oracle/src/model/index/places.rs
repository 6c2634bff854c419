//! The places of any table, and what an entry does to them: "an entry is found by
//! halving", also where the table is none that a build made and its places are in no
//! order.
//!
//! Assumes nothing.

use super::Placed;
use crate::model::{tag::*, IndexFault};

/// Behind every place: "A tag of zero is no place's".
const LAST_RANK: u32 = 1 << 20;
/// The class of what sets nothing in a slot.
const NO_CLASS: u32 = 258;

/// "0 its name, 1 its struct, 2 + u its user attribute u"
pub(super) fn class_of(tag: u32) -> u32 {
    match type1_of(tag) {
        NAME => 0,
        STRUCT => 1,
        ATTRIBUTE => 2 + chunk_of(tag),
        _ => NO_CLASS,
    }
}

/// "The order of places: by id, and in a slot by class."
pub(super) fn rank_at(id: u32, class: u32) -> u32 {
    id * 512 + class
}

fn rank_of(fault: IndexFault, tag: u32) -> u32 {
    match (tag, fault) {
        (0, IndexFault::ZeroRanksFirst) => 0,
        (0, _) => LAST_RANK,
        _ => rank_at(id_of(tag), class_of(tag)),
    }
}

/// Of the places in these words, the first that is not before the rank, or the one
/// behind them.
pub(super) fn halved(fault: IndexFault, words: &[u32], rank: u32) -> usize {
    let mut tags = words.chunks_exact(2).map(|place| place[0]);
    let found = match fault {
        IndexFault::FirstToLast => tags.position(|tag| rank_of(fault, tag) >= rank),
        _ => Some(halves(fault, words, rank)),
    };
    let behind = words.len() / 2;
    found.unwrap_or(behind).min(behind)
}

/// The place in the middle says in which half it is.
fn halves(fault: IndexFault, words: &[u32], rank: u32) -> usize {
    let places = words.len() / 2;
    let half = match fault {
        IndexFault::LowerMiddle => places.saturating_sub(1) / 2,
        _ => places / 2,
    };
    let Some([tag, _]) = words.get(2 * half..2 * half + 2) else {
        return 0;
    };
    let before = match fault {
        IndexFault::PastEqual => rank_of(fault, *tag) <= rank,
        _ => rank_of(fault, *tag) < rank,
    };
    let next = match fault {
        IndexFault::OneTooFar => half + 2,
        _ => half + 1,
    };
    match before {
        true => next + halves(fault, words.get(2 * next..).unwrap_or_default(), rank),
        false => halves(fault, &words[..2 * half], rank),
    }
}

/// Whether the place has the rank.
pub(super) fn is_at(fault: IndexFault, words: &[u32], place: usize, rank: u32) -> bool {
    let tag = words.chunks_exact(2).nth(place).map(|place| place[0]);
    tag.is_some_and(|tag| rank_of(fault, tag) == rank)
}

pub(super) struct Places {
    fault: IndexFault,
    pub(super) words: Vec<u32>,
}

impl Places {
    /// "the places of any table: those before the first that is zero"
    pub(super) fn leading(fault: IndexFault, table: &[u32]) -> Places {
        let places = table.chunks_exact(2);
        let words: Vec<u32> = match fault {
            IndexFault::ZeroPassedOver => places
                .filter(|place| place[0] != 0)
                .flatten()
                .copied()
                .collect(),
            IndexFault::ZeroOfBothWords => places
                .take_while(|place| *place != [0, 0])
                .flatten()
                .copied()
                .collect(),
            _ => places
                .take_while(|place| place[0] != 0)
                .flatten()
                .copied()
                .collect(),
        };
        Places { fault, words }
    }

    fn has(&self, fault: IndexFault) -> bool {
        self.fault == fault
    }

    fn seek(&self, rank: u32) -> usize {
        halved(self.fault, &self.words, rank)
    }

    pub(super) fn follow(&mut self, entry: &Placed) {
        let id = id_of(entry.tag);
        let rank = rank_at(id, class_of(entry.tag));
        let removed = is_removal(entry.tag) && !self.has(IndexFault::ExtendRemovalIsPlace);
        match type_of(entry.tag) {
            CREATE => self.make(id),
            DELETE => self.remove(id),
            _ if class_of(entry.tag) == NO_CLASS => {}
            _ if removed => self.clear(rank),
            _ => self.set(rank, entry),
        }
    }

    /// "a slot is made: the places from it on get the next id"
    fn make(&mut self, id: u32) {
        let from = match self.fault {
            IndexFault::ExtendForgetsCreate => return,
            IndexFault::ExtendCreateLeavesItsOwn => self.seek(rank_at(id + 1, 0)),
            _ => self.seek(rank_at(id, 0)),
        };
        self.shift(from, ONE_ID);
    }

    /// "a slot is removed: its own places go, and those behind them get the id before"
    fn remove(&mut self, id: u32) {
        if self.has(IndexFault::ExtendForgetsDelete) {
            return;
        }
        let (first, next) = (self.seek(rank_at(id, 0)), rank_at(id + 1, 0));
        let behind = self.words.get(2 * first..).unwrap_or_default();
        let last = match self.fault {
            IndexFault::ExtendDeletedKept => first,
            IndexFault::ExtendDeletesOne => halved(self.fault, behind, next).min(1) + first,
            IndexFault::LastFromFirstPlace => self.seek(next).max(first),
            _ => first + halved(self.fault, behind, next),
        };
        self.words.drain(2 * first..2 * last);
        if !self.has(IndexFault::ExtendDeleteLowersNothing) {
            self.shift(first, 0u32.wrapping_sub(ONE_ID));
        }
    }

    /// "ids that are higher by some ids, as words that wrap"
    fn shift(&mut self, from: usize, by: u32) {
        let words = self.words.get_mut(2 * from..).unwrap_or_default();
        for tag in words.iter_mut().step_by(2) {
            *tag = match self.fault {
                IndexFault::ShiftStaysInId => *tag & !ID_BITS | tag.wrapping_add(by) & ID_BITS,
                _ => tag.wrapping_add(by),
            };
        }
    }

    /// "what is set under a class stands in its place, or in a new one"
    fn set(&mut self, rank: u32, entry: &Placed) {
        let place = self.seek(rank);
        let at = 2 * place;
        let there = is_at(self.fault, &self.words, place, rank);
        let mut new = [entry.tag, entry.at + 4];
        match self.fault {
            IndexFault::ExtendOffsetOfTag => new[1] = entry.at,
            IndexFault::ExtendOldSize if there => {
                new[0] = new[0] & !0x3ff | size_of(self.words[at]);
            }
            IndexFault::ExtendOldOffset if there => new[1] = self.words[at + 1],
            IndexFault::ExtendOldStays if there => return,
            _ => {}
        }
        let replaced = match there && !self.has(IndexFault::ExtendAddsAgain) {
            true => at..at + 2,
            false => at..at,
        };
        let last = match self.fault {
            IndexFault::ExtendNewLast => !there,
            IndexFault::ExtendOverwrittenLast => there,
            _ => false,
        };
        match last {
            true => {
                self.words.drain(replaced);
                let behind = 2 * self.seek(rank_at(id_of(entry.tag) + 1, 0));
                self.words.splice(behind..behind, new);
            }
            false => {
                self.words.splice(replaced, new);
            }
        }
    }

    /// "what is removed leaves none"
    fn clear(&mut self, rank: u32) {
        let place = self.seek(rank);
        let forgotten = self.has(IndexFault::ExtendRemovedKept);
        if is_at(self.fault, &self.words, place, rank) && !forgotten {
            self.words.drain(2 * place..2 * place + 2);
        }
    }
}
