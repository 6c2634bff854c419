//! The questions of the index, the same for the comparison and for the teeth: a history
//! of a pair whose table is built, and extended after each commit; and records and tables
//! that no history has.
//!
//! Assumes nothing.

use super::busy;
use super::looks::{self, Asking};
use super::records::{self, Given};
use super::start;
use super::tables::{self, Room};
use crate::calls::index::{Index, Indexes};
use crate::calls::write::{Task, Work, DOCUMENT, LITTLEFS};
use crate::calls::{Mdir, Voice};
use crate::generate::{erased_behind, Case};
use crate::histories::ask::{task, Outcome};
use crate::histories::history;
use crate::histories::lists::{self, Habits};
use crate::model::*;
use crate::random::Random;

/// Calls of the writer on each pair.
const STEPS: usize = 4;

/// How a table comes about.
#[derive(Clone, Copy)]
pub enum Making {
    Build,
    Extend {
        /// The record that the table is taken for.
        old: Mdir,
        /// Which one that is, for the counts.
        from: &'static str,
        /// What is lent is what a build of the old record leaves: then the extension must
        /// leave what a build afresh does.
        grown: bool,
    },
    /// It is given, and nothing is made.
    Given,
}

/// One table, and what is asked of it.
pub struct Asked<'a> {
    /// Which record, by which rules its log is regular, and which table is lent: for the
    /// counts.
    pub kind: &'static str,
    pub log_kind: &'static str,
    pub table_kind: &'static str,
    pub case: &'a Case,
    pub dir: Mdir,
    pub rules: u32,
    pub making: Making,
    /// As it is lent.
    pub table: Vec<u32>,
    /// The record that lookups take, where the table is to answer what they do.
    pub known: Option<Mdir>,
    pub askings: Vec<Asking>,
}

impl Asked<'_> {
    pub fn input(&self) -> Index<'_> {
        Index {
            blocks: self.case.blocks(),
            dir: self.dir,
            rules: self.rules,
        }
    }
}

pub(super) struct History<'a> {
    pub random: Random,
    pub case: Case,
    habits: Habits,
    /// Those of the step at hand.
    rules: u32,
    each: &'a mut dyn FnMut(&Asked),
}

/// The history of this number.
pub fn ask(number: u64, each: &mut dyn FnMut(&Asked)) {
    let mut random = Random::numbered(number, 0x8d7);
    let (case, habits) = start::case(&mut random);
    run(random, case, habits, each);
}

/// The same from a given pair.
pub fn ask_of(case: &Case, number: u64, each: &mut dyn FnMut(&Asked)) {
    let mut random = Random::numbered(number, 0x5b3);
    let habits = history::habits(&mut random, case.geometry.block_size);
    run(random, case.clone(), habits, each);
}

fn run(random: Random, case: Case, habits: Habits, each: &mut dyn FnMut(&Asked)) {
    let mut history = History {
        random,
        case,
        habits,
        rules: LITTLEFS,
        each,
    };
    for _ in 0..STEPS {
        history.step();
    }
}

impl History<'_> {
    /// What is there, what is there no more or never was; then the next commit.
    fn step(&mut self) {
        self.rules = match self.random.below(24) {
            0 => [2, 3, 0x100, 1 << 31, u32::MAX][self.random.below(5)],
            1..6 => DOCUMENT,
            _ => LITTLEFS,
        };
        let now = self.as_it_is();
        self.build(&now, 6);
        let other = self.another();
        self.build(&other, 6);
        self.foreign(&now);
        let given = match self.random.below(5) {
            0 => other,
            _ => now,
        };
        let (old, from) = self.older(&given);
        self.extend(&old, from, &given, 6);
        self.write();
    }

    /// The record that fetch answers; all zero where it refuses.
    pub(super) fn as_it_is(&self) -> Given {
        let fetched = FAULTLESS.fetch(&self.case.fetch());
        Given {
            kind: records::FETCHED,
            case: self.case.clone(),
            dir: fetched.dir,
            known: (fetched.result == 0).then_some(fetched.dir),
        }
    }

    fn input<'a>(&self, given: &'a Given) -> Index<'a> {
        Index {
            blocks: given.case.blocks(),
            dir: given.dir,
            rules: self.rules,
        }
    }

    /// A length that a table for the record's log has use for, or hasn't.
    fn room(&mut self, given: &Given) -> Room {
        let (block, end) = (given.block(), given.dir.off as usize);
        let needed = needed(block, end).unwrap_or_default();
        tables::room(&mut self.random, needed)
    }

    /// A build over any words, and so many lookups.
    fn build(&mut self, given: &Given, lookups: usize) {
        let Room { kind, words } = self.room(given);
        let table = tables::any_words(&mut self.random, words);
        self.tell(given, Making::Build, (kind, table), lookups);
    }

    /// An extension from one record to another: mostly of the first one's table.
    fn extend(&mut self, old: &Mdir, from: &'static str, given: &Given, lookups: usize) {
        let Room { mut kind, words } = self.room(given);
        let mut table = tables::any_words(&mut self.random, words);
        let of_old = Index {
            dir: *old,
            ..self.input(given)
        };
        let built = FAULTLESS_INDEXER.index(&of_old, &mut table).result == 0;
        let rises = old.pair == given.dir.pair && old.off <= given.dir.off;
        let grown = built && rises && self.random.below(5) > 0;
        match grown {
            true if self.random.below(2) == 0 => tables::noise_behind(&mut self.random, &mut table),
            true => {}
            false => (kind, table) = self.another_table(table),
        }
        let old = *old;
        let making = Making::Extend { old, from, grown };
        self.tell(given, making, (kind, table), lookups);
    }

    fn another_table(&mut self, table: Vec<u32>) -> (&'static str, Vec<u32>) {
        tables::foreign(&mut self.random, self.case.geometry.block_size, table)
    }

    /// Answers from a table that no build made.
    fn foreign(&mut self, now: &Given) {
        let mut table = vec![0; self.room(now).words];
        FAULTLESS_INDEXER.index(&self.input(now), &mut table);
        let table = self.another_table(table);
        self.tell(now, Making::Given, table, 4);
    }

    /// A commit, whole or stopped, or a compaction. Then the old table is extended, or
    /// one is built, and every slot is looked up.
    fn write(&mut self) {
        let old = self.as_it_is();
        let erased = erased_behind(old.dir.etag);
        let count = old.dir.count.into();
        let (list, _) = match self.random.below(2) {
            0 => busy::list(&mut self.random, count),
            _ => lists::good(&mut self.random, &self.habits, count),
        };
        let commit = Work::Commit {
            entries: &list.entries,
            data: &list.data,
        };
        let stopped = self.random.below(list.length() + 24) as u32;
        let stores = (self.random.below(8) == 0).then_some(stopped);
        let work = [commit, Work::Compact][self.random.below(8) / 7];
        let result = self.call(&task(&self.case, LITTLEFS, erased, work, stores));
        if result != 0 {
            self.call(&task(&self.case, LITTLEFS, erased, Work::Compact, None));
        }
        let now = self.as_it_is();
        match now.dir.pair == old.dir.pair {
            true => self.extend(&old.dir, records::BEFORE, &now, looks::ALL),
            false => self.build(&now, looks::ALL),
        }
    }

    fn call(&mut self, task: &Task) -> i32 {
        let outcome = Outcome::of(&FAULTLESS_WRITER, task, &self.case.images);
        self.case.images = outcome.images();
        outcome.answer.result()
    }

    fn tell(
        &mut self,
        given: &Given,
        making: Making,
        (table_kind, table): (&'static str, Vec<u32>),
        lookups: usize,
    ) {
        let made = match making {
            Making::Build => true,
            Making::Extend { grown, .. } => grown,
            Making::Given => false,
        };
        let known = given.known.filter(|_| made);
        let askings = match known {
            Some(dir) => looks::of_slots(&mut self.random, given.block(), &dir, lookups),
            None => looks::of_table(&mut self.random, &table),
        };
        (self.each)(&Asked {
            kind: given.kind,
            log_kind: given.log_kind(),
            table_kind,
            case: &given.case,
            dir: given.dir,
            rules: self.rules,
            making,
            table,
            known,
            askings,
        });
    }
}
