//! The compaction with a lent table: "the same call with a table lent as working
//! memory", and what stands in the table behind it.
//!
//! Assumes nothing.

use super::Indexer;
use crate::calls::index::{Index, Indexed, Indexes, TABLE_FULL};
use crate::calls::write::{Answer, Committed, Task, Work, Writes, IRREGULAR};
use crate::calls::{Blocks, Fetch, Mdir, Voice, CORRUPT, INVAL, NOENT};
use crate::model::{IndexFault, FAULTLESS, FAULTLESS_WRITER};

/// What a build leaves in a copy of the table, and its answer.
type Copied = (Vec<u32>, Indexed);

impl Indexer {
    /// "Behind the call it is as lanolin_index leaves it for the log that was compacted
    /// (all 0 where that is -221); unchanged on -22, fetch's own refusals and -202"
    pub(super) fn compact(
        &self,
        task: &Task,
        [b0, b1]: [&mut [u8]; 2],
        table: &mut [u32],
    ) -> Committed {
        let built = self.copied(task, [&*b0, &*b1], table);
        let is_full = |(_, indexed): &Copied| indexed.result == TABLE_FULL;
        let full = built.as_ref().is_some_and(is_full);
        if full && self.has(IndexFault::ShortTableRefused) {
            return refused(TABLE_FULL, task.seed);
        }
        let task = Task {
            work: Work::Compact,
            stores: None,
            ..*task
        };
        let Answer::Committed(answer) = FAULTLESS_WRITER.write(&task, [&mut *b0, &mut *b1]) else {
            return refused(INVAL, task.seed);
        };
        let compacted = self.has(IndexFault::TableOfCompacted) && answer.result == 0;
        let left = match compacted {
            true => self.copied(&task, [b0, b1], table),
            false => built.filter(|_| !self.unchanged(answer.result, full)),
        };
        if let Some((words, _)) = left {
            table.copy_from_slice(&words);
        }
        if self.has(IndexFault::CompactZeroesIrregular) && answer.result == IRREGULAR {
            table.fill(0);
        }
        answer
    }

    /// Whether the table is left as it was lent. `full`: a build in it is -221.
    fn unchanged(&self, result: i32, full: bool) -> bool {
        let unread = [INVAL, CORRUPT, NOENT, IRREGULAR].contains(&result);
        match self.fault {
            IndexFault::CompactLeavesTable => true,
            IndexFault::RefusedLeavesTable => result != 0,
            IndexFault::ShortTableLeft => unread || full,
            _ => unread,
        }
    }

    /// A build of the record that fetch answers; none where it refuses.
    fn copied(&self, task: &Task, images: [&[u8]; 2], table: &[u32]) -> Option<Copied> {
        let blocks = Blocks {
            geometry: task.geometry,
            images,
            numbers: task.numbers,
        };
        let fetched = FAULTLESS.fetch(&Fetch {
            blocks,
            block_count: task.block_count,
            seed: task.seed,
        });
        let (dir, rules) = (fetched.dir, task.rules);
        let mut words = table.to_vec();
        let indexed = self.index(&Index { blocks, dir, rules }, &mut words);
        (fetched.result == 0).then_some((words, indexed))
    }
}

/// What no compaction answers: only a fault does.
fn refused(result: i32, seed: u32) -> Committed {
    Committed {
        result,
        index: 0,
        dir: Mdir::default(),
        seed,
    }
}
