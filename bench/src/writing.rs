//! What writing costs: a commit, a compaction, and a compaction with a lent table, each
//! beside one fetch of the same pair.
//!
//! There is no Rust that writes, so the port's own fetch is the measure. A call
//! that writes alters the images: each is timed alone on a fresh copy, and the
//! copy is made before the clock starts.
//!
//! Assumes that the calls are accepted, and checks it.

use crate::directory::{Directory, ATTRIBUTE};
use crate::indexing::words_for;
use crate::measure::{in_turn, Beside};
use oracle::calls::index::Indexes;
use oracle::calls::write::{Answer, Entry, Task, Work, Writes, DOCUMENT};
use oracle::calls::Voice;
use oracle::port::{Port, CAN_COMPACT_WITH};
use std::hint::black_box;

/// The most fetches that a compaction of the larger directory may take.
pub const MOST_FETCHES: f64 = 300.0;

/// The most fetches that a commit of one attribute is to take.
pub const MOST_OF_A_COMMIT: f64 = 1.3;

/// The most fetches that a compaction of the larger directory is to take with a table.
pub const MOST_WITH_A_TABLE: f64 = 30.0;

/// The attribute's bytes.
pub const DATA: &[u8] = b"new!";

/// One line of the table.
pub struct Line {
    pub name: &'static str,
    pub beside: Beside,
}

/// One user attribute of four bytes, set on the slot in the middle.
pub fn attribute(directory: &Directory) -> [Entry; 1] {
    [Entry {
        type_: ATTRIBUTE as u16,
        id: directory.dir.count / 2,
        off: 0,
        len: 4,
    }]
}

/// A commit of it, or a compaction, of the directory's pair.
pub fn task<'a>(directory: &Directory, work: Work<'a>) -> Task<'a> {
    Task {
        geometry: directory.geometry,
        numbers: [0, 1],
        block_count: 0,
        seed: 0,
        rules: DOCUMENT,
        erased: 0xff,
        work,
        stores: None,
    }
}

pub fn commit(directory: &Directory) -> Line {
    let work = Work::Commit {
        entries: &attribute(directory),
        data: DATA,
    };
    Line {
        name: "lfs_dir_commit",
        beside: time(directory, work),
    }
}

pub fn compact(directory: &Directory) -> Line {
    Line {
        name: "lfs_dir_compact",
        beside: time(directory, Work::Compact),
    }
}

/// A compaction with a table lent, of just the places that the log needs.
pub fn compact_with(directory: &Directory) -> Line {
    assert!(
        CAN_COMPACT_WITH,
        "the archive has the compaction with a table"
    );
    let task = task(directory, Work::Compact);
    let mut table = words_for(&directory.images[0], &directory.dir);
    let compact = |images: &mut [Vec<u8>; 2]| {
        let [b0, b1] = images;
        let answer = Port.compact_with(black_box(&task), [b0, b1], &mut table);
        assert_eq!(answer.result, 0, "the call is accepted");
        answer.seed
    };
    Line {
        name: "lanolin_compact_with",
        beside: in_turn(
            &directory.images,
            |images| fetch(directory, images),
            compact,
        ),
    }
}

fn fetch(directory: &Directory, images: &[Vec<u8>; 2]) -> u32 {
    Port.fetch(black_box(&directory.fetch_of(images, 0))).seed
}

fn time(directory: &Directory, work: Work) -> Beside {
    assert!(Port.can(&work), "the archive has the calls that write");
    let task = task(directory, work);
    in_turn(
        &directory.images,
        |images| fetch(directory, images),
        |images| {
            let [b0, b1] = images;
            let Answer::Committed(answer) = Port.write(black_box(&task), [b0, b1]) else {
                panic!("the call without a limit answers a record");
            };
            assert_eq!(answer.result, 0, "the call is accepted");
            answer.seed
        },
    )
}
