//! Commits and compactions whose checksum is solved for: the coincidence, and
//! commits that are there before their last store.
//!
//! Assumes nothing.

use super::ask::Outcome;
use super::history::History;
use super::lists::List;
use super::solve::{solve, Goal};
use crate::calls::write::{Work, COINCIDENCE};
use crate::model::*;

impl History<'_> {
    /// A list whose last four data bytes are solved for.
    fn solved(&mut self, goal: Goal) -> Option<List> {
        let mut list = self.list();
        let bytes = self.random.bytes(12);
        list.push(MOVE_STATE, NO_SLOT, &bytes);
        let task = self.task(
            Work::Commit {
                entries: &list.entries,
                data: &list.data,
            },
            None,
        );
        let images = [&self.case.images[0][..], &self.case.images[1][..]];
        let laid = FAULTLESS_WRITER.laid(&task, images)?;
        replace_last(&mut list, solve(&laid, goal)?);
        Some(list)
    }

    /// The coincidence with so many bytes of the check tag; at times that of the other
    /// erased byte, or half of it, which is none here.
    fn coincide(&mut self, put: usize) -> Goal {
        let byte = self.erased;
        let (fill, against) = match self.random.below(12) {
            0 => (!byte, byte),
            1 => (byte, !byte),
            2 => (!byte, !byte),
            _ => (byte, byte),
        };
        Goal::Coincide { put, fill, against }
    }

    /// A checksum that ends in one to four erased bytes: what has it is there before
    /// its last store.
    fn early_sum(&mut self) -> u32 {
        let sum = ONES << [8, 16, 24, 0][self.random.below(4)] | self.random.word() & 0x7f;
        match self.erased {
            0x00 => !sum,
            _ => sum,
        }
    }

    /// The coincidence, also where another refusal comes before it.
    pub(super) fn coincidence(&mut self) {
        let put = self.random.below(5);
        let goal = self.coincide(put);
        let Some(mut list) = self.solved(goal) else {
            return;
        };
        if self.random.below(6) == 0 {
            let last = list.entries.len() - 1;
            list.entries[last].id = 0;
        }
        self.commit("checksum solved for", &list);
    }

    /// A move state by which the compaction of the pair coincides, or has its
    /// checksum early.
    pub(super) fn coincident_compaction(&mut self) {
        let goal = match self.random.below(4) {
            3 => Goal::Sum(self.early_sum()),
            put => self.coincide(put + 1),
        };
        let mut list = List::default();
        list.push(MOVE_STATE, NO_SLOT, &self.random.bytes(12));
        let Some(four) = self.solved_behind(&list, goal) else {
            return;
        };
        replace_last(&mut list, four);
        if self.commit("checksum of a compaction solved for", &list) != 0 {
            return;
        }
        let length = self.stores(Work::Compact);
        for limit in length.saturating_sub(5)..=length {
            self.limited(
                "last cuts, checksum solved for",
                Work::Compact,
                limit as u32,
                false,
            );
        }
        self.compact("compaction, checksum solved for");
    }

    /// The four bytes for the compaction behind a commit of a list.
    fn solved_behind(&self, list: &List, goal: Goal) -> Option<[u8; 4]> {
        let work = Work::Commit {
            entries: &list.entries,
            data: &list.data,
        };
        let first = self.task(work, None);
        let outcome = Outcome::of(&FAULTLESS_WRITER, &first, &self.case.images);
        let images = outcome.images();
        let compact = self.task(Work::Compact, None);
        let laid = FAULTLESS_WRITER.laid(&compact, [&images[0], &images[1]])?;
        match outcome.answer.result() {
            0 | COINCIDENCE => solve(&laid, goal),
            _ => None,
        }
    }

    /// A commit that is there before its last store.
    pub(super) fn early(&mut self) {
        let goal = Goal::Sum(self.early_sum());
        let Some(list) = self.solved(goal) else {
            return;
        };
        let work = Work::Commit {
            entries: &list.entries,
            data: &list.data,
        };
        let length = self.stores(work);
        for limit in length.saturating_sub(6)..=length {
            self.limited("last cuts, checksum solved for", work, limit as u32, false);
        }
        self.commit("checksum solved for", &list);
    }
}

fn replace_last(list: &mut List, four: [u8; 4]) {
    let start = list.data.len().saturating_sub(4);
    list.data.truncate(start);
    list.data.extend(four);
}
