//! Pairs of many slots, with names at ids around multiples of 32, where a set of ids
//! passes from one word to the next, and creates and deletes that move them across.
//!
//! Assumes nothing.

use crate::calls::Geometry;
use crate::generate::{Case, Log};
use crate::histories::lists::{Habits, List};
use crate::histories::start;
use crate::model::*;
use crate::random::Random;

const GEOMETRY: Geometry = Geometry {
    block_size: 4096,
    prog_size: 16,
};
/// The highest id that a slot has.
const LAST: u32 = 1022;

struct Crowd<'a> {
    random: &'a mut Random,
    habits: &'a Habits,
    count: u32,
    list: List,
}

/// Slots that creates make, or names; then commits that splice among them.
pub fn case(random: &mut Random, habits: &Habits) -> Case {
    let revision = random.word();
    let board = habits.board(random);
    let mut log = Log::on(board, GEOMETRY.block_size as usize, revision);
    let mut crowd = Crowd {
        random,
        habits,
        count: 0,
        list: List::default(),
    };
    let most = crowd.begin();
    for _ in 0..2 + crowd.random.below(4) {
        start::put(&mut log, &std::mem::take(&mut crowd.list));
        start::check(crowd.random, &mut log, GEOMETRY, true, false);
        for _ in 0..1 + crowd.random.below(4) {
            crowd.splice(most);
        }
    }
    start::finished(random, "crowded", GEOMETRY, habits, (log, revision))
}

impl Crowd<'_> {
    /// The slots and their names; so many slots are asked for.
    fn begin(&mut self) -> u32 {
        let created = self.random.below(2) == 0;
        let most = match created {
            true => 30 + self.random.below(110) as u32,
            false => [70, 140, 300, LAST][self.random.below(4)],
        };
        if created {
            self.count = most;
            (0..most).for_each(|_| self.list.push(CREATE, 0, &[]));
        }
        for _ in 0..4 + self.random.below(8) {
            let id = self.near(most);
            if !created || id < self.count {
                self.name(id);
            }
        }
        most
    }

    /// An id at most two away from a multiple of 32.
    fn near(&mut self, most: u32) -> u32 {
        let word = 32 * self.random.below(most as usize / 32 + 1) as u32;
        (word + self.random.below(5) as u32)
            .saturating_sub(2)
            .min(LAST)
    }

    fn name(&mut self, id: u32) {
        let type_ = [FILE, FILE, DIRECTORY][self.random.below(3)];
        let name = self.habits.name(self.random, 1);
        self.list.push(type_, id, &name);
        self.count = self.count.max(id + 1);
    }

    /// A create, a delete or a rename, mostly low, so that it moves many slots.
    fn splice(&mut self, most: u32) {
        let id = match self.random.below(3) {
            0 => self.near(most),
            _ => self.random.below(4) as u32,
        };
        match self.random.below(5) {
            _ if id >= self.count => {}
            0 => self.name(id),
            1 | 2 => {
                self.list.push(DELETE, id, &[]);
                self.count -= 1;
            }
            _ if self.count <= LAST => {
                self.list.push(CREATE, id, &[]);
                self.count += 1;
            }
            _ => {}
        }
    }
}
