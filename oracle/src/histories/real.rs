//! The pairs of `samples/real`, which a real littlefs wrote, and those of
//! `samples/zero`, which one wrote on flash that erases to 0x00.
//!
//! Assumes that the program runs where it was built: the pairs are read when it
//! runs.

use crate::calls::Geometry;
use crate::generate::Case;
use std::fs;
use std::path::Path;

/// A pair, and the byte that its flash erases to.
pub struct Real {
    pub case: Case,
    pub erased: u8,
}

/// Every pair that `shown.txt` names in either directory, of each in turn, so that a
/// part of them has both.
pub fn cases() -> Vec<Real> {
    let samples = Path::new(env!("CARGO_MANIFEST_DIR")).join("../samples");
    let mut pairs = pairs_of(&samples.join("real"), "real", 0xff);
    pairs.extend(pairs_of(&samples.join("zero"), "real on 0x00", 0x00));
    pairs.sort_by_key(|pair| pair.0);
    pairs.into_iter().map(|pair| pair.1).collect()
}

/// The pairs of one directory, each with its number there.
fn pairs_of(directory: &Path, kind: &'static str, erased: u8) -> Vec<(usize, Real)> {
    let shown = fs::read_to_string(directory.join("shown.txt")).expect("shown.txt is read");
    let lines = shown.lines().filter_map(|line| line.strip_prefix("pair "));
    let real = |line| Real {
        case: case(directory, kind, line),
        erased,
    };
    lines.map(real).enumerate().collect()
}

/// `FILE BLOCK_SIZE PROG_SIZE N0 N1 ..`
fn case(directory: &Path, kind: &'static str, line: &str) -> Case {
    let (file, rest) = line.split_once(' ').expect("a file and its numbers");
    let words = rest.split(' ').map(|word| word.parse().expect("a number"));
    let words: Vec<u32> = words.collect();
    let bytes = fs::read(directory.join(file)).expect("a pair is read");
    let (b0, b1) = bytes.split_at(bytes.len() / 2);
    Case {
        kind,
        geometry: Geometry {
            block_size: words[0],
            prog_size: words[1],
        },
        images: [b0.to_vec(), b1.to_vec()],
        numbers: [words[2], words[3]],
        block_count: 0,
        seed: 0,
    }
}
