//! Logs that a table is slow to build from: what comes stands before all that is there,
//! so that every place is moved for it.
//!
//! Assumes that the entries fit into the block, and checks it.

use crate::directory::{commit, Directory};
use oracle::generate::Log;
use oracle::model::{tag_of, ATTRIBUTE, FILE};

/// Names that make their slots, by littlefs's rule, from the last id down, a few in each
/// commit.
pub fn names_down(block_size: u32, slots: u32, in_a_commit: u32) -> Directory {
    let mut log = Log::new(block_size as usize, 1);
    for i in 0..slots {
        let (id, name) = (slots - 1 - i, format!("q{i:04}"));
        assert!(
            log.put(tag_of(FILE, id, 5), name.as_bytes()),
            "the names fit"
        );
        if i % in_a_commit == in_a_commit - 1 || i == slots - 1 {
            commit(&mut log);
        }
    }
    Directory::of(log, slots - 1)
}

/// As many entries as a block holds, and so as many places: attributes of no bytes, all
/// of 32 slots, from the last slot's last one down. No worse order was found: each of
/// them moves all places, and no entry is shorter.
pub fn attributes_down(block_size: u32) -> Directory {
    const SLOTS: u32 = 32;
    let mut log = Log::new(block_size as usize, 1);
    assert!(log.put(tag_of(FILE, SLOTS - 1, 1), b"q"), "a name fits");
    for id in (0..SLOTS).rev() {
        for type_ in (ATTRIBUTE..=ATTRIBUTE + 0xff).rev() {
            // What is left has room for a check.
            if log.room() > 64 {
                log.put(tag_of(type_, id, 0), &[]);
            }
        }
    }
    commit(&mut log);
    Directory::of(log, SLOTS - 1)
}
