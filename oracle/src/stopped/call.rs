//! One accepted call: what stands before it, what it answers and leaves, and
//! which single stores lie between.
//!
//! Assumes nothing: of a writer with a fault the places may be wrong, and none is
//! read past the block.

use super::machine::{questions, Question};
use super::Asked;
use crate::calls::write::{Committed, Work, Writes};
use crate::calls::{Blocks, Fetch, Fetched, Gstate, Lookup, Voice};
use crate::dirs::truth::{Sliced, Slicer};
use crate::generate::erased_behind;
use crate::histories::ask::{text, Step};
use crate::histories::carried::Carried;
use crate::model::size_of;

pub struct Call<'a> {
    pub step: &'a Step<'a>,
    /// What it answers without a limit, and the images it leaves.
    pub answer: Committed,
    pub finished: [Vec<u8>; 2],
    /// What is read before the first store.
    pub before: State,
    /// The directory lookups of the old directory and of the finished one.
    pub questions: [Vec<Question>; 2],
    /// Which image is written, where its first byte is stored, and how many
    /// stores there are.
    pub which: usize,
    start: usize,
    pub all: usize,
    pub forward: Carried,
}

/// What is read of a pair: fetch, and directory lookups with its record.
pub struct State {
    pub fetched: Fetched,
    pub answers: Vec<Sliced>,
}

impl State {
    pub fn of(
        reader: &impl Voice,
        call: &Call,
        images: &[Vec<u8>; 2],
        questions: &[Question],
    ) -> State {
        State::read(reader, call.step, images, questions)
    }

    fn read(
        reader: &impl Voice,
        step: &Step,
        images: &[Vec<u8>; 2],
        questions: &[Question],
    ) -> State {
        let blocks = Blocks {
            images: [&images[0], &images[1]],
            ..step.case.blocks()
        };
        let fetched = reader.fetch(&Fetch {
            blocks,
            block_count: step.task.block_count,
            seed: step.task.seed,
        });
        let lookup = Lookup {
            blocks,
            dir: fetched.dir,
            gdisk: Gstate::default(),
        };
        let ask = |of: &Question| Slicer::Getslice.ask(reader, &lookup, of.query, of.length);
        State {
            fetched,
            answers: questions.iter().map(ask).collect(),
        }
    }
}

/// What the machine and the old record say of the finished record: pair,
/// revision, count, split and tail.
pub type Known = ([u32; 2], u32, usize, bool, [u32; 2]);

impl<'a> Call<'a> {
    pub fn of<W: Writes, R: Voice>(
        asked: &Asked<W, R>,
        step: &'a Step<'a>,
        answer: Committed,
        finished: [Vec<u8>; 2],
        every_type: bool,
    ) -> Call<'a> {
        let questions = step
            .directories
            .map(|directory| questions(directory, step.types, every_type));
        let before = State::read(asked.reader, step, &step.case.images, &questions[0]);
        let old = before.fetched.dir;
        let answering = usize::from(old.pair[0] == step.task.numbers[1]);
        let (which, start, erase) = match step.task.work {
            Work::Commit { .. } => (answering, old.off as usize, 0),
            Work::Compact => (1 - answering, 0, 1),
        };
        // The check tag's size counts the checksum's four bytes and the padding,
        // which isn't stored.
        let (end, padded) = (
            answer.dir.off as usize + 4,
            size_of(answer.dir.etag) as usize,
        );
        let bytes = end.saturating_sub(padded + start);
        let room = finished[which].len().saturating_sub(start);
        let forward = Carried::of(step.case.geometry, &finished[which], &answer.dir);
        Call {
            step,
            answer,
            finished,
            before,
            questions,
            which,
            start: start.min(step.case.images[which].len()),
            all: bytes.min(room) + erase,
            forward,
        }
    }

    pub fn compacts(&self) -> bool {
        matches!(self.step.task.work, Work::Compact)
    }

    /// The log has a check for flash of the other kind, before the call or behind it.
    pub fn for_both(&self) -> bool {
        let old = self.before.fetched.dir.etag;
        self.forward.both || erased_behind(old) != self.step.task.erased
    }

    /// For the counts.
    pub fn kind(&self) -> &'static str {
        match self.compacts() {
            true => "compactions",
            false => "commits",
        }
    }

    /// What the store behind a stop belongs to, for the counts.
    pub fn part(&self, made: usize) -> &'static str {
        match self.all.saturating_sub(made) {
            0..=8 => "the check",
            9..=20 if self.forward.carried => "the forward check",
            _ => "the entries",
        }
    }

    /// The images after so many stores: of a compaction the erase is the first;
    /// then the finished bytes, one by one, rising.
    pub fn laid(&self, made: usize) -> [Vec<u8>; 2] {
        let mut images = self.step.case.images.clone();
        let block = &mut images[self.which];
        let bytes = match (self.compacts(), made) {
            (_, 0) => return images,
            (true, _) => {
                block.fill(self.step.task.erased);
                made - 1
            }
            (false, _) => made,
        };
        let place = self.start..self.start + bytes;
        if let (Some(to), Some(from)) = (
            block.get_mut(place.clone()),
            self.finished[self.which].get(place),
        ) {
            to.copy_from_slice(from);
        }
        images
    }

    /// What the finished record must be, but for its end.
    pub fn known(&self) -> Known {
        let (old, directory) = (self.before.fetched.dir, self.step.directories[1]);
        let (pair, revision) = match self.compacts() {
            true => ([old.pair[1], old.pair[0]], old.rev.wrapping_add(1)),
            false => (old.pair, old.rev),
        };
        let (hard, tail) = directory.tail;
        (pair, revision, directory.slots.len(), hard, tail)
    }

    /// The same of the answered record.
    pub fn said(&self) -> Known {
        let dir = self.answer.dir;
        let hard = dir.split != 0;
        (dir.pair, dir.rev, dir.count.into(), hard, dir.tail)
    }

    /// Smaller blocks are lighter, then earlier stops.
    pub fn weight(&self, limit: usize) -> usize {
        self.step.case.images[0].len() << 16 | limit
    }

    pub fn text(&self, limit: usize) -> String {
        format!("stopped after {limit}: {}", text(self.step))
    }
}
