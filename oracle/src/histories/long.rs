//! Lists at the bounds: of their length, of their data, of the count.
//!
//! Assumes nothing.

use super::history::History;
use super::lists::List;
use super::start;
use crate::calls::write::Entry;
use crate::model::*;

impl History<'_> {
    /// 8,191 to 8,193 creates and deletes in turn, with or without a bad one.
    pub(super) fn long_list(&mut self) {
        let number = 8191 + self.random.below(3);
        let entry = |i: usize| Entry {
            type_: [CREATE, DELETE][i % 2] as u16,
            id: 0,
            off: 0,
            len: 0,
        };
        let mut list = List {
            entries: (0..number).map(entry).collect(),
            data: Vec::new(),
        };
        if self.random.below(2) == 0 {
            let which = number - 1 - self.random.below(3);
            list.entries[which].len = 1;
        }
        self.commit("8,191 to 8,193 entries", &list);
    }

    /// A small entry at the end of 65,535 to 65,537 bytes.
    pub(super) fn long_data(&mut self) {
        let length = 65_535 + self.random.below(3);
        let mut list = List {
            entries: Vec::new(),
            data: vec![0x5a; length - 12],
        };
        list.push(MOVE_STATE, NO_SLOT, &self.random.bytes(12));
        self.commit("65,535 to 65,537 bytes of data", &list);
    }

    /// Creates up to a count of 1,021 to 1,024, in a block that has the room.
    pub(super) fn many_slots(&mut self) {
        let large = start::large(&mut self.random, self.erased);
        let kept = (
            std::mem::replace(&mut self.case, large),
            std::mem::take(&mut self.directory),
        );
        for more in [1000, 21 + self.random.below(4), 1, 1, 1] {
            let mut list = List::default();
            for _ in 0..more {
                list.push(CREATE, 0, &[]);
            }
            self.commit("creates up to 1,023", &list);
        }
        self.compact("compaction");
        (self.case, self.directory) = kept;
    }
}
