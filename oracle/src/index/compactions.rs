//! Compactions with a lent table: every compaction of some histories of `histories`, with
//! a table of each length that its log has use for or hasn't.
//!
//! Assumes nothing.

use super::tables::{self, Room};
use crate::calls::index::Indexes;
use crate::calls::write::{Answer, Task, Work, Writes};
use crate::histories::ask::{fetched, Outcome, Step};
use crate::histories::history;
use crate::histories::real::Real;
use crate::histories::STEPS;
use crate::model::needed;
use crate::random::Random;
use std::cell::RefCell;
use std::fmt::{self, Debug, Formatter};

/// Words on either side of the lent table.
const WORDS_BESIDE: usize = 4;
const FILL_WORD: u32 = 0xa5a5_a5a5;

/// One compaction, and the table that is lent to it.
pub struct Asked<'a> {
    pub step: &'a Step<'a>,
    pub table_kind: &'static str,
    pub table: Vec<u32>,
}

/// The history of this number.
pub fn ask(number: u64, each: &mut dyn FnMut(&Asked)) {
    let mut random = Random::numbered(number, 0x7c5);
    history::run(number, STEPS, &mut |step| tell(&mut random, step, each));
}

/// The same from a pair that a real littlefs wrote.
pub fn ask_of(real: &Real, number: u64, each: &mut dyn FnMut(&Asked)) {
    let mut random = Random::numbered(number, 0x7c7);
    history::run_from(real, number, STEPS, &mut |step| {
        tell(&mut random, step, each);
    });
}

/// A log of the wider kind.
pub fn ask_wider(number: u64, each: &mut dyn FnMut(&Asked)) {
    let mut random = Random::numbered(number, 0x7c9);
    history::wider(number, &mut |step| tell(&mut random, step, each));
}

fn tell(random: &mut Random, step: &Step, each: &mut dyn FnMut(&Asked)) {
    if !matches!((step.task.work, step.task.stores), (Work::Compact, None)) {
        return;
    }
    let dir = fetched(step.case, &step.case.images).dir;
    let second = dir.pair[0] == step.case.numbers[1];
    let block = &step.case.images[usize::from(second)];
    let needed = needed(block, dir.off as usize).unwrap_or_default();
    let Room { kind, words } = tables::room(random, needed);
    each(&Asked {
        step,
        table_kind: kind,
        table: tables::any_words(random, words),
    });
}

/// The call's answer, the images and the table, each with what is beside it.
#[derive(Clone, PartialEq)]
pub struct Compacted {
    pub outcome: Outcome,
    words: Vec<u32>,
}

impl Compacted {
    pub fn of(voice: &impl Indexes, asked: &Asked) -> Compacted {
        let beside = [FILL_WORD; WORDS_BESIDE];
        let words = [&beside[..], &asked.table, &beside].concat();
        let lending = Lending {
            voice,
            words: RefCell::new(words),
        };
        let outcome = Outcome::of(&lending, &asked.step.task, &asked.step.case.images);
        Compacted {
            outcome,
            words: lending.words.into_inner(),
        }
    }
}

impl Debug for Compacted {
    fn fmt(&self, f: &mut Formatter) -> fmt::Result {
        write!(f, "{:?}, words {:x?}", self.outcome, self.words)
    }
}

/// Who compacts with a table, to be asked as who writes without one.
struct Lending<'a, I> {
    voice: &'a I,
    /// The table, with what is beside it.
    words: RefCell<Vec<u32>>,
}

impl<I: Indexes> Writes for Lending<'_, I> {
    fn can(&self, work: &Work) -> bool {
        matches!(work, Work::Compact)
    }

    fn write(&self, task: &Task, images: [&mut [u8]; 2]) -> Answer {
        let mut words = self.words.borrow_mut();
        let end = words.len() - WORDS_BESIDE;
        let table = &mut words[WORDS_BESIDE..end];
        Answer::Committed(self.voice.compact_with(task, images, table))
    }
}
