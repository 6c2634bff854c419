//! Calls with a limit of stores: a cut at any place, and every cut of a call.
//!
//! Assumes nothing.

use super::ask::{fetched, After, Outcome, Step};
use super::history::History;
use crate::calls::write::Work;
use crate::model::FAULTLESS_WRITER;

impl History<'_> {
    /// One call with a limit, from whose images the history may go on; the images
    /// afterwards, and whether they are the finished ones.
    pub(super) fn limited(
        &mut self,
        kind: &'static str,
        work: Work,
        limit: u32,
        goes_on: bool,
    ) -> ([Vec<u8>; 2], bool) {
        let directory = self.applied(work);
        let task = self.task(work, Some(limit));
        let truth = Outcome::of(&FAULTLESS_WRITER, &task, &self.case.images);
        let images = truth.images();
        let mut finished = false;
        let after = match truth.answer.result() {
            0 => {
                let whole = self.task(work, None);
                let whole = Outcome::of(&FAULTLESS_WRITER, &whole, &self.case.images).images();
                finished = images == whole;
                After::Cut {
                    old: self.fetched(),
                    new: fetched(&self.case, &whole),
                    finished,
                    goes_on,
                }
            }
            _ => After::Refused,
        };
        (self.tell)(&Step {
            kind,
            task,
            case: &self.case,
            truth: &truth,
            after,
            directories: [&self.directory, &directory],
            types: &self.habits.types,
        });
        (images, finished)
    }

    /// A call cut short; the history goes on from what is left, and the machine
    /// from the finished directory or the old one.
    pub(super) fn cut(&mut self) {
        let list = self.list();
        let work = match self.random.below(3) {
            0 => Work::Compact,
            _ => Work::Commit {
                entries: &list.entries,
                data: &list.data,
            },
        };
        let length = self.stores(work);
        let limit = match self.random.below(5) {
            0 => self.random.below(4),
            1 => length.saturating_sub(self.random.below(9)),
            2 => length + self.random.below(3),
            _ => self.random.below(length + 1),
        };
        let (images, finished) = self.limited("cut, and gone on from", work, limit as u32, true);
        if finished {
            self.directory = self.applied(work);
        }
        self.case.images = images;
    }

    /// How many stores a call makes, or 0 if it is refused.
    pub(super) fn stores(&self, work: Work) -> usize {
        let task = self.task(work, None);
        let images = [&self.case.images[0][..], &self.case.images[1][..]];
        match FAULTLESS_WRITER.plan(&task, images) {
            Ok(plan) => plan.laid.bytes.len() + usize::from(plan.erase.is_some()),
            Err(_) => 0,
        }
    }

    /// Every cut of one call, each from the same images.
    pub(super) fn every_cut(&mut self) {
        let list = self.list();
        let work = match self.random.below(3) {
            0 => Work::Compact,
            _ => Work::Commit {
                entries: &list.entries,
                data: &list.data,
            },
        };
        let length = self.stores(work).min(120);
        for limit in (0..=length as u32 + 1).chain([u32::MAX]) {
            self.limited("every cut of a call", work, limit, false);
        }
    }
}
