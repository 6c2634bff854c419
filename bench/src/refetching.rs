//! What a refetch costs beside a fetch of the same pair: behind one small commit,
//! and how it grows with the bytes behind the record's end.
//!
//! The record and the seed are those before the commits, so a refetch walks all of
//! them. Each refetch must answer what the fetch does.
//!
//! Assumes that the archive has the calls, and checks it.

use crate::directory::Directory;
use crate::measure::{beside_fetch, Beside};
use crate::writing::{attribute, task, DATA};
use oracle::calls::refetch::{Refetch, Refetches};
use oracle::calls::write::{Answer, Work, Writes};
use oracle::calls::Voice;
use oracle::port::{Port, CAN_REFETCH};
use std::hint::black_box;

/// The most that a refetch behind one commit is to take of a fetch, in the largest
/// block.
pub const MOST_OF_A_FETCH: f64 = 0.05;

/// After how many commits, of one attribute each, it is measured.
const COMMITS: [u32; 5] = [1, 4, 16, 64, 256];

/// One line of the table: the bytes behind the record's end.
pub struct Line {
    pub behind: u32,
    pub beside: Beside,
}

/// Every line of a directory, as far as its block has room for the commits.
pub fn lines(directory: &Directory) -> Vec<Line> {
    assert!(CAN_REFETCH, "the archive has the call that fetches again");
    let mut images = directory.images.clone();
    let known = Port.fetch(&directory.fetch(0));
    let (mut lines, mut made) = (Vec::new(), 0);
    for commits in COMMITS {
        while made < commits {
            if !commit(directory, &mut images) {
                return lines;
            }
            made += 1;
        }
        let whole = directory.fetch_of(&images, 0);
        let now = Port.fetch(&whole);
        let input = Refetch {
            fetch: directory.fetch_of(&images, known.seed),
            dir: known.dir,
        };
        let again = || Port.refetch(black_box(&input)).seed;
        assert_eq!(again(), now.seed, "a refetch answers what a fetch does");
        lines.push(Line {
            behind: now.dir.off - known.dir.off,
            beside: beside_fetch(|_| again(), |_| Port.fetch(black_box(&whole)).seed),
        });
    }
    lines
}

/// A commit of one user attribute. False: there is no room for it.
fn commit(directory: &Directory, images: &mut [Vec<u8>; 2]) -> bool {
    let work = Work::Commit {
        entries: &attribute(directory),
        data: DATA,
    };
    let [b0, b1] = images;
    match Port.write(&task(directory, work), [b0, b1]) {
        Answer::Committed(answer) => answer.result == 0,
        _ => panic!("the call without a limit answers a record"),
    }
}
