//! A directory of many slots, and what is measured on it: fetch and lookups.
//!
//! Each slot is a small file with a user attribute, a number of four bytes. Slots are
//! created at places spread over the directory, a few in each commit, so that a lookup
//! has splices to go around; or, for the index, in another order.
//!
//! Assumes that the slots fit into the block, and checks it.

use crate::measure::{side_by_side, Times};
use oracle::calls::{Blocks, Fetch, Geometry, Gstate, Lookup, Mdir, Query, Voice};
use oracle::device::Rust;
use oracle::generate::Log;
use oracle::model::{tag_of, CHECK, CREATE, FILE, ID_BITS, INLINE, NAME, NO_SLOT, STRUCT};
use oracle::port::Port;
use std::hint::black_box;

pub const ATTRIBUTE: u32 = 0x374;
const NO_ATTRIBUTE: u32 = 0x3aa;
const PROG_SIZE: u32 = 16;
pub const BUFFER: usize = 16;

pub struct Directory {
    pub images: [Vec<u8>; 2],
    pub geometry: Geometry,
    pub dir: Mdir,
    pub slots: u32,
    /// The slot that was created first: its create is the log's first tag.
    oldest: u32,
}

/// One line of the table.
pub struct Line {
    pub name: &'static str,
    /// The bytes that a call reads, where that says something.
    pub bytes: Option<usize>,
    pub times: Times,
}

/// Where the slots are created: the place of each, by how many there are.
pub type Order = fn(u32) -> u32;

/// A multiplier without a common factor spreads the places.
pub const SPREAD: Order = |i| i * 7919 % (i + 1);
pub const IN_ORDER: Order = |i| i;
pub const ALWAYS_FIRST: Order = |_| 0;

impl Directory {
    pub fn new(order: Order, block_size: u32, slots: u32, in_a_commit: u32) -> Directory {
        let mut log = Log::new(block_size as usize, 1);
        let mut oldest = 0;
        for i in 0..slots {
            let id = order(i);
            oldest += u32::from(i > 0 && id <= oldest);
            create(&mut log, id, i);
            if i % in_a_commit == in_a_commit - 1 || i == slots - 1 {
                commit(&mut log);
            }
        }
        let directory = Directory::of(log, oldest);
        assert_eq!(directory.slots, slots, "the slots fit");
        directory
    }

    /// What a log leaves.
    pub fn of(log: Log, oldest: u32) -> Directory {
        let block_size = log.bytes.len();
        let mut directory = Directory {
            images: [log.bytes, vec![0xff; block_size]],
            geometry: Geometry {
                block_size: block_size as u32,
                prog_size: PROG_SIZE,
            },
            dir: Mdir::default(),
            slots: 0,
            oldest,
        };
        directory.dir = Rust::default().fetch(&directory.fetch(0)).dir;
        directory.slots = directory.dir.count.into();
        directory
    }

    pub fn blocks<'a>(&self, images: &'a [Vec<u8>; 2]) -> Blocks<'a> {
        Blocks {
            geometry: self.geometry,
            images: [&images[0], &images[1]],
            numbers: [0, 1],
        }
    }

    pub fn fetch(&self, seed: u32) -> Fetch<'_> {
        self.fetch_of(&self.images, seed)
    }

    /// A fetch of a copy of the images.
    pub fn fetch_of<'a>(&self, images: &'a [Vec<u8>; 2], seed: u32) -> Fetch<'a> {
        Fetch {
            blocks: self.blocks(images),
            block_count: 0,
            seed,
        }
    }

    pub fn lookup(&self) -> Lookup<'_> {
        Lookup {
            blocks: self.blocks(&self.images),
            dir: self.dir,
            gdisk: Gstate::default(),
        }
    }

    /// So many of its slots, spread evenly.
    pub fn ids(&self, looked_up: u32) -> Vec<u32> {
        let step = self.slots.div_ceil(looked_up).max(1);
        (0..self.slots).step_by(step as usize).collect()
    }

    /// Every line of this directory, with so many of its slots looked up.
    pub fn lines(&self, looked_up: u32) -> Vec<Line> {
        let ids = self.ids(looked_up);
        let mut found = Vec::new();
        for &id in &ids {
            found.push(name_of(id));
            found.push(query(0x700, STRUCT, id));
            found.push(query(0x7ff, ATTRIBUTE, id));
        }
        let missed = [query(0x7ff, NO_ATTRIBUTE, self.oldest)];
        let line = |name, times| Line {
            name,
            bytes: None,
            times,
        };
        vec![
            Line {
                name: "lfs_dir_fetch",
                bytes: Some(self.dir.off as usize),
                times: self.time_fetch(),
            },
            line("lfs_dir_getslice", self.time_slices(&found)),
            line("lfs_dir_getslice, a miss", self.time_slices(&missed)),
            line("lfs_dir_getinfo", self.time_infos(&ids)),
        ]
    }

    /// The seed goes from one fetch into the next.
    fn time_fetch(&self) -> Times {
        let mut rust = Rust::default();
        side_by_side(
            |seed| Port.fetch(black_box(&self.fetch(seed))).seed,
            |seed| rust.fetch(black_box(&self.fetch(seed))).seed,
        )
    }

    /// The mean over all queries.
    fn time_slices(&self, queries: &[Query]) -> Times {
        let (mut rust, input) = (Rust::default(), self.lookup());
        let port = |register| {
            queries.iter().fold(register, |register, &query| {
                let mut buffer = [0; BUFFER];
                let got = Port.getslice(black_box(&input), query, &mut buffer);
                mixed(register, got.word(), buffer[0])
            })
        };
        let rust = |register| {
            queries.iter().fold(register, |register, &query| {
                let mut buffer = [0; BUFFER];
                let word = rust.getslice(black_box(&input), query, &mut buffer);
                mixed(register, word, buffer[0])
            })
        };
        side_by_side(port, rust).of_each(queries.len())
    }

    /// The mean over all slots.
    fn time_infos(&self, ids: &[u32]) -> Times {
        let (mut rust, input) = (Rust::default(), self.lookup());
        let port = |register| {
            ids.iter().fold(register, |register, &id| {
                let info = Port.getinfo(black_box(&input), 255, id);
                mixed(register, info.size, info.name[4])
            })
        };
        let rust = |register| {
            ids.iter().fold(register, |register, &id| {
                let info = rust.getinfo(black_box(&input), 255, id);
                mixed(register, info.size, info.name[4])
            })
        };
        side_by_side(port, rust).of_each(ids.len())
    }
}

fn create(log: &mut Log, id: u32, i: u32) {
    let name = format!("q{i:04}");
    let entries = [
        (tag_of(CREATE, id, 0), &[][..]),
        (tag_of(FILE, id, 5), name.as_bytes()),
        (tag_of(INLINE, id, 4), b"data"),
        (tag_of(ATTRIBUTE, id, 4), &i.to_le_bytes()),
    ];
    for (tag, data) in entries {
        assert!(log.put(tag, data), "the slots fit");
    }
}

pub fn commit(log: &mut Log) {
    let size = log.check_size(0, PROG_SIZE as usize);
    assert!(log.check(tag_of(CHECK, NO_SLOT, size)), "the slots fit");
}

/// The name of a slot.
pub fn name_of(id: u32) -> Query {
    query(0x700, NAME, id)
}

pub fn query(types: u32, type_: u32, id: u32) -> Query {
    Query {
        mask: types << 20 | ID_BITS,
        key: tag_of(type_, id, 0),
        offset: 0,
    }
}

/// Makes the register depend on an answer and on a byte that was read.
pub fn mixed(register: u32, word: u32, byte: u8) -> u32 {
    register.rotate_left(5) ^ word ^ u32::from(byte)
}
