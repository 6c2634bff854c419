//! What finding a name costs: beside the unchanged Rust's lookups slot by slot, and
//! beside one fetch of the same pair.
//!
//! The name is that of the last id, so that the Rust looks every slot up, or none
//! that is there.
//!
//! Assumes that the archive has the call, and checks it.

use crate::directory::{self, name_of, Directory, BUFFER};
use crate::measure::{beside_fetch, side_by_side};
use crate::writing;
use oracle::calls::find::{Find, Finds, Named};
use oracle::calls::write::DOCUMENT;
use oracle::calls::Voice;
use oracle::device::Rust;
use oracle::model::{size_of, tag_of, FILE};
use oracle::port::{Port, CAN_FIND};
use std::hint::black_box;

/// The most fetches that a find is to take.
pub const MOST_FETCHES: f64 = 1.5;

/// One name, and the answer to it.
pub struct Asked<'a> {
    directory: &'a Directory,
    line: &'static str,
    name: Vec<u8>,
    expected: Named,
}

/// The name of the last id, as the Rust shows it, and one that no slot has.
pub fn asked(directory: &Directory) -> [Asked<'_>; 2] {
    assert!(CAN_FIND, "the archive has the call that finds a name");
    let (last, mut buffer) = (u32::from(directory.dir.count) - 1, [0; BUFFER]);
    let word = Rust::default().getslice(&directory.lookup(), name_of(last), &mut buffer);
    [
        Asked {
            directory,
            line: "lanolin_find, the last id",
            name: buffer[..size_of(word) as usize].to_vec(),
            expected: Named::at(last),
        },
        Asked {
            directory,
            line: "lanolin_find, a miss",
            name: b"q9999".to_vec(),
            expected: Named::none(),
        },
    ]
}

impl Asked<'_> {
    fn find(&self, seed: u32) -> u32 {
        let named = Port.find(black_box(&Find {
            fetch: self.directory.fetch(seed),
            rules: DOCUMENT,
            name: &self.name,
            type_: FILE,
        }));
        assert_eq!(named, self.expected, "the name is found where it is");
        named.id
    }

    /// One lookup after the other, until one shows the name.
    fn slot_by_slot(&self, rust: &mut Rust) -> u32 {
        let input = self.directory.lookup();
        let shows_it = |id: &u32| {
            let mut buffer = [0; BUFFER];
            let word = rust.getslice(black_box(&input), name_of(*id), &mut buffer);
            word == tag_of(FILE, *id, self.name.len() as u32) && buffer.starts_with(&self.name)
        };
        let found = (0..self.directory.dir.count.into()).find(shows_it);
        found.unwrap_or(0)
    }

    pub fn beside_rust(&self) -> directory::Line {
        let mut rust = Rust::default();
        directory::Line {
            name: self.line,
            bytes: None,
            times: side_by_side(|seed| self.find(seed), |_| self.slot_by_slot(&mut rust)),
        }
    }

    pub fn beside_fetch(&self) -> writing::Line {
        let fetch = |seed| Port.fetch(black_box(&self.directory.fetch(seed))).seed;
        writing::Line {
            name: self.line,
            beside: beside_fetch(|seed| self.find(seed), fetch),
        }
    }
}
