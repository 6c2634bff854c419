//! What may happen to a pair between two fetches so that the second may go on from
//! the first one's record: other bytes behind what the record knows, or another program
//! size or block count.
//!
//! Assumes that the record is of the pair as it is.

use super::inputs::{Given, History, Known};
use crate::calls::refetch::Refetches;
use crate::calls::write::{Answer, Committed, Work, Writes, ERASED, LITTLEFS};
use crate::calls::Voice;
use crate::generate::{self, erased_behind};
use crate::histories::ask::{task, Outcome};
use crate::histories::lists;
use crate::model::known_to;

pub(super) const AS_IT_WAS: &str = "as it was";
/// What a writer leaves where it refuses: everything as it was.
pub(super) const REFUSED_CALL: &str = "a refused call";
/// Program sizes that a block may have as well.
const PROG_SIZES: [u32; 10] = [4, 5, 8, 12, 16, 64, 100, 128, 255, 512];

impl<F: Refetches, W: Writes, R: Voice> History<'_, F, W, R> {
    pub(super) fn as_it_was(&self, known: Known) -> Given {
        Given {
            kind: AS_IT_WAS,
            case: self.case.clone(),
            dir: known.dir,
            seed: known.seed,
            answered: None,
        }
    }

    /// The same, but for what stands behind all that the record knows.
    fn altered(
        &mut self,
        known: Known,
        kind: &'static str,
        alter: impl FnOnce(&mut Self, &mut [u8]),
    ) -> Given {
        let mut given = self.as_it_was(known);
        let block = &mut given.case.images[self.answering(&known.dir)];
        if let Some(rest @ [_, ..]) = block.get_mut(known_to(&known.dir)..) {
            given.kind = kind;
            alter(self, rest);
        }
        given
    }

    /// One call of the writer; what it answers is known then. It is for flash of the
    /// kind that the record's end is, or of any.
    pub(super) fn written(
        &mut self,
        known: Known,
        kinds: [&'static str; 2],
        work: Work,
        stores: Option<u32>,
    ) -> Given {
        let mut given = self.as_it_was(known);
        let erased = match self.random.below(4) {
            0 => ERASED[self.random.below(2)],
            _ => erased_behind(known.dir.etag),
        };
        let task = task(&self.case, LITTLEFS, erased, work, stores);
        if !self.voices.writer.can(&work) {
            return given;
        }
        let outcome = Outcome::of(self.voices.writer, &task, &self.case.images);
        given.case.images = outcome.images();
        given.kind = match (outcome.answer.result(), stores) {
            (0, None) => kinds[0],
            (0, Some(_)) => kinds[1],
            _ => REFUSED_CALL,
        };
        if let Answer::Committed(Committed {
            result: 0,
            dir,
            seed,
            ..
        }) = outcome.answer
        {
            let by = kinds[0];
            given.answered = Some(Known { dir, seed, by });
        }
        given
    }

    /// A commit; with a limit, it is stopped after some of its stores, or just not.
    pub(super) fn commit(&mut self, known: Known, limited: bool) -> Given {
        let count = known.dir.count.into();
        let (list, _) = lists::good(&mut self.random, &self.habits, count);
        let work = Work::Commit {
            entries: &list.entries,
            data: &list.data,
        };
        let some = self.random.below(list.length() + 24) as u32;
        let kinds = match erased_behind(known.dir.etag) {
            0x00 => ["a commit for 0x00", "a commit for 0x00 with a limit"],
            _ => ["a commit", "a commit with a limit"],
        };
        let given = self.written(known, kinds, work, limited.then_some(some));
        // Another writer may go on where ours refuses.
        match given.kind == REFUSED_CALL && self.random.below(4) > 0 {
            true => self.grown(known),
            false => given,
        }
    }

    /// Commits of any kind, as another writer might lay them.
    pub(super) fn grown(&mut self, known: Known) -> Given {
        let mut given = self.as_it_was(known);
        let (this, geometry) = (self.answering(&known.dir), self.case.geometry);
        let image = &self.case.images[this];
        given.case.images[this] = generate::behind(&mut self.random, geometry, image, &known.dir);
        given.kind = "any commits";
        given
    }

    /// A few bits: of the first byte that is not known, of the last one, of any.
    pub(super) fn torn(&mut self, known: Known) -> Given {
        self.altered(known, "torn bytes", |history, rest| {
            for _ in 0..1 + history.random.below(3) {
                let any = history.random.below(rest.len());
                let near = history.random.below(rest.len().min(8));
                let place = [0, near, any, rest.len() - 1][history.random.below(4)];
                rest[place] ^= 1 << history.random.below(8);
            }
        })
    }

    pub(super) fn noise(&mut self, known: Known) -> Given {
        self.altered(known, "random bytes", |history, rest| {
            let from = [0, history.random.below(rest.len())][history.random.below(2)];
            rest[from..].fill_with(|| history.random.word() as u8);
        })
    }

    pub(super) fn erased(&mut self, known: Known) -> Given {
        self.altered(known, "erased or zeroed", |history, rest| {
            rest.fill([0xff, 0xff, 0x00][history.random.below(3)]);
        })
    }

    /// Another program size, or a block count on either side of the numbers: what is
    /// known of the pair holds there too.
    pub(super) fn elsewhere(&mut self, known: Known) -> Given {
        let mut given = self.as_it_was(known);
        given.kind = "another program size or block count";
        let block = self.case.geometry.block_size;
        let prog = PROG_SIZES[self.random.below(PROG_SIZES.len())];
        if block.is_multiple_of(prog) && self.random.below(2) == 0 {
            given.case.geometry.prog_size = prog;
        } else {
            given.case.block_count = self.count_near();
        }
        given
    }

    /// A block count: one of the two numbers, or one more.
    pub(super) fn count_near(&mut self) -> u32 {
        let number = self.case.numbers[self.random.below(2)];
        number.saturating_add(self.random.below(2) as u32)
    }
}
