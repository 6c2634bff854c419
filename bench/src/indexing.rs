//! What the index costs: all deadlines by a build and one pass over the table, and one
//! answer from it, beside the unchanged Rust's lookups; a build beside one fetch of the
//! same pair; an extension behind a small commit beside a build.
//!
//! A table has just the places that its log needs.
//!
//! Assumes that the archive has the calls, and checks it.

use crate::directory::{self, mixed, query, Directory, ATTRIBUTE, BUFFER};
use crate::measure::{beside_fetch, side_by_side, Beside, Times};
use crate::writing::{self, attribute, task, DATA};
use oracle::calls::index::{Index, Indexes, Look};
use oracle::calls::write::{Answer, Work, Writes, LITTLEFS};
use oracle::calls::{Mdir, Voice};
use oracle::device::Rust;
use oracle::model::{needed, type_of, NAME, STRUCT};
use oracle::port::{Port, CAN_INDEX};
use std::hint::black_box;

/// The most that all deadlines of 1,000 slots are to take of the Rust's lookups.
pub const MOST_OF_LOOKUPS: f64 = 0.02;
/// The most fetches that a build of 1,000 slots written in order is to take.
pub const MOST_FETCHES: f64 = 4.0;

/// A table for a directory.
pub struct Table<'a> {
    directory: &'a Directory,
    images: &'a [Vec<u8>; 2],
    dir: Mdir,
    words: Vec<u32>,
}

impl<'a> Table<'a> {
    pub fn of(directory: &'a Directory) -> Table<'a> {
        Table::on(directory, &directory.images, directory.dir)
    }

    /// Of the directory as it is in other images.
    fn on(directory: &'a Directory, images: &'a [Vec<u8>; 2], dir: Mdir) -> Table<'a> {
        assert!(CAN_INDEX, "the archive has the calls of the index");
        Table {
            directory,
            images,
            dir,
            words: words_for(&images[0], &dir),
        }
    }

    fn input(&self) -> Index<'a> {
        Index {
            blocks: self.directory.blocks(self.images),
            dir: self.dir,
            rules: LITTLEFS,
        }
    }

    /// How many places are in use then.
    fn build(&mut self) -> u32 {
        let input = self.input();
        let indexed = Port.index(black_box(&input), &mut self.words);
        assert_eq!(
            indexed.result, 0,
            "the log is regular, and the table long enough"
        );
        indexed.places
    }

    /// A build, and one pass over the places: every deadline, by rising id.
    fn deadlines(&mut self, register: u32) -> u32 {
        let (places, block) = (self.build(), &self.images[0]);
        let places = self.words.chunks_exact(2).take(places as usize);
        let deadlines = places.filter(|place| type_of(place[0]) == ATTRIBUTE);
        deadlines.fold(register, |register, place| {
            let off = place[1] as usize;
            let bytes = [block[off], block[off + 1], block[off + 2], block[off + 3]];
            mixed(register, u32::from_le_bytes(bytes), 0)
        })
    }

    /// Beside the Rust's lookup of each slot's.
    pub fn beside_lookups(&mut self) -> directory::Line {
        let (mut rust, input) = (Rust::default(), self.directory.lookup());
        let slots = self.directory.slots;
        let by_lookups = |register| {
            (0..slots).fold(register, |register, id| {
                let mut bytes = [0; 4];
                let deadline = query(0x7ff, ATTRIBUTE, id);
                rust.getslice(black_box(&input), deadline, &mut bytes);
                mixed(register, u32::from_le_bytes(bytes), 0)
            })
        };
        directory::Line {
            name: "deadlines, build and pass",
            bytes: None,
            times: side_by_side(|register| self.deadlines(register), by_lookups),
        }
    }

    /// One answer from the table beside one lookup: the mean over name, struct and
    /// attribute of so many slots.
    pub fn beside_lookup(&mut self, looked_up: u32) -> directory::Line {
        self.build();
        let ids = self.directory.ids(looked_up);
        let of_slot = |&id: &u32| [(NAME, id), (STRUCT, id), (ATTRIBUTE, id)];
        let asked: Vec<(u32, u32)> = ids.iter().flat_map(of_slot).collect();
        directory::Line {
            name: "lanolin_index_get",
            bytes: None,
            times: self.time_answers(&asked),
        }
    }

    fn time_answers(&self, asked: &[(u32, u32)]) -> Times {
        let (mut rust, lookup) = (Rust::default(), self.directory.lookup());
        let (input, mut buffer) = (self.input(), [0; BUFFER]);
        let port = |register| {
            asked.iter().fold(register, |register, &(type_, id)| {
                let look = Look { type_, id };
                let got = Port.look(black_box(&input), &self.words, look, &mut buffer);
                mixed(register, got.word(), buffer[0])
            })
        };
        let rust = |register| {
            asked.iter().fold(register, |register, &(type_, id)| {
                let mut buffer = [0; BUFFER];
                let types = if type_ == ATTRIBUTE { 0x7ff } else { 0x700 };
                let word = rust.getslice(black_box(&lookup), query(types, type_, id), &mut buffer);
                mixed(register, word, buffer[0])
            })
        };
        side_by_side(port, rust).of_each(asked.len())
    }

    pub fn beside_fetch(&mut self) -> writing::Line {
        let fetch = self.directory.fetch_of(self.images, 0);
        writing::Line {
            name: "lanolin_index",
            beside: beside_fetch(|_| self.build(), |_| Port.fetch(black_box(&fetch)).seed),
        }
    }
}

/// As many words as the log up to the record's end needs.
pub fn words_for(block: &[u8], dir: &Mdir) -> Vec<u32> {
    let needed = needed(block, dir.off as usize).expect("a commit ends there");
    vec![0; 2 * needed.most]
}

/// One extension behind a commit of one user attribute, beside a build: the bytes of the
/// commit, and both times. What is set again is in its place already, so a table can be
/// extended by the same commit any number of times, and stays as it is.
pub fn extension(directory: &Directory) -> (u32, Beside) {
    let mut images = directory.images.clone();
    let work = Work::Commit {
        entries: &attribute(directory),
        data: DATA,
    };
    let [b0, b1] = &mut images;
    let Answer::Committed(answer) = Port.write(&task(directory, work), [b0, b1]) else {
        panic!("the call without a limit answers a record");
    };
    assert_eq!(answer.result, 0, "the commit is accepted");
    let mut built = Table::on(directory, &images, answer.dir);
    let mut extended = Table::on(directory, &images, answer.dir);
    let (input, old) = (built.input(), directory.dir);
    Port.index(&Index { dir: old, ..input }, &mut extended.words);
    let mut extend = || {
        Port.extend(black_box(&input), &old, &mut extended.words)
            .places
    };
    assert_eq!(
        extend(),
        built.build(),
        "an extension leaves as many places"
    );
    let beside = beside_fetch(|_| extend(), |_| built.build());
    assert_eq!(
        extended.words, built.words,
        "an extension leaves the same table"
    );
    (answer.dir.off - old.off, beside)
}
