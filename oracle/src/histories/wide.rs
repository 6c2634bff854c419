//! Logs of the wider kind: names that make their slots, as littlefs's own
//! compaction leaves them, and what a file system writes behind them; and logs that
//! just fail littlefs's rule.
//!
//! Assumes nothing.

use super::lists::{self, Habits, List};
use super::start::{check, forward, holds_forward, put};
use crate::calls::Geometry;
use crate::generate::Log;
use crate::model::*;
use crate::random::Random;

/// The most slots of a pair. A name of this id makes one too many.
const MOST: u32 = 1023;

/// A log on its way.
struct Wide<'a> {
    random: &'a mut Random,
    habits: &'a Habits,
    /// What names, creates and deletes leave.
    count: u32,
    /// No create or delete has come.
    grows: bool,
}

/// Some commits, as many as have room, of a log that is regular by littlefs's rule;
/// if asked for, with one that isn't.
pub fn log(
    random: &mut Random,
    geometry: Geometry,
    habits: &Habits,
    revision: u32,
    spoil: bool,
) -> Log {
    let mut log = Log::on(habits.board(random), geometry.block_size as usize, revision);
    let commits = 1 + random.below(habits.commits);
    let spoilt = random.below(commits);
    let mut wide = Wide {
        random,
        habits,
        count: 0,
        grows: true,
    };
    for commit in 0..commits {
        let mut lists = vec![wide.commit()];
        if spoil && commit == spoilt {
            lists.extend(wide.spoilt());
        }
        for list in lists {
            if list.length() + 24 > log.room() && !log.ends.is_empty() {
                return log;
            }
            log.erased = habits.board(wide.random);
            put(&mut log, &list);
            // littlefs lays one in each commit that has room for it.
            if wide.random.below(3) == 0 && holds_forward(&log, geometry) {
                forward(wide.random, &mut log, geometry);
            }
            check(wide.random, &mut log, geometry, true, false);
        }
    }
    log
}

impl Wide<'_> {
    /// Names that make slots, as long as they may, or what else a commit has.
    fn commit(&mut self) -> List {
        let mut list = List::default();
        let names = match self.grows {
            true => self.random.below(4),
            false => 0,
        };
        for _ in 0..names {
            self.named(&mut list);
        }
        if names > 0 && self.random.below(3) > 0 {
            return list;
        }
        let (more, count) = lists::good(self.random, self.habits, self.count);
        let splices = |type_: u16| [CREATE, DELETE].contains(&type_.into());
        self.grows &= !more.entries.iter().any(|entry| splices(entry.type_));
        self.count = count;
        list.append(more);
        list
    }

    /// A name at the count or above it, with what its slot may have.
    fn named(&mut self, list: &mut List) {
        let far = MOST - 1 - self.random.below(2) as u32;
        let id = match self.random.below(100) {
            0 => far,
            1..20 => self.count + 1 + self.random.below(4) as u32,
            _ => self.count,
        };
        if id >= MOST {
            return;
        }
        let type_ = match self.random.below(5) {
            0 => SUPERBLOCK,
            1 => DIRECTORY,
            _ => FILE,
        };
        self.name(list, type_, id);
        self.count = self.count.max(id + 1);
        if self.random.below(2) == 0 {
            lists::structure(self.random, self.habits, list, id);
        }
        if self.random.below(3) == 0 {
            let any = self.random.below(self.count as usize) as u32;
            lists::attribute(self.random, self.habits, list, any);
        }
    }

    fn name(&mut self, list: &mut List, type_: u32, id: u32) {
        let length = 1 + self.random.below(self.habits.longest);
        list.push(type_, id, &self.habits.name(self.random, length));
    }

    fn inline(&mut self, list: &mut List, id: u32) {
        let length = self.random.below(self.habits.longest);
        list.push(INLINE, id, &self.random.bytes(length));
    }

    /// A commit that is not regular, or two: what raises the count and may not.
    fn spoilt(&mut self) -> Vec<List> {
        let (mut list, count) = (List::default(), self.count);
        let name = [FILE, DIRECTORY, SUPERBLOCK][self.random.below(3)];
        match self.random.below(9) {
            0 => self.inline(&mut list, count),
            1 => lists::attribute(self.random, self.habits, &mut list, count),
            2 => list.push(name, count, &[]),
            3 => list.remove(name, count, 0),
            4 | 5 => {
                list.push(CREATE, self.random.below(count as usize + 1) as u32, &[]);
                return self.behind(list, name, count + 1);
            }
            6 | 7 if count > 0 => {
                list.push(DELETE, self.random.below(count as usize) as u32, &[]);
                return self.behind(list, name, count - 1);
            }
            // One slot too many, and one less at once, so that fetch takes it.
            _ => {
                self.name(&mut list, name, MOST);
                list.push(DELETE, [0, MOST - 1][self.random.below(2)], &[]);
            }
        }
        vec![list]
    }

    /// A name at the count or above it behind a splice, in the same commit or in
    /// the next.
    fn behind(&mut self, splice: List, name: u32, count: u32) -> Vec<List> {
        let id = (count + self.random.below(2) as u32).min(MOST - 1);
        let mut lists = vec![splice];
        if self.random.below(2) == 0 {
            lists.push(List::default());
        }
        let last = lists.len() - 1;
        self.name(&mut lists[last], name, id);
        lists
    }
}
