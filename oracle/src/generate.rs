//! Inputs of document 01's domain for fetch and lookups, and inputs at its
//! edges: seeded, so the same in every run, and each one found again by its
//! number alone.
//!
//! Most are what a file system leaves behind, since random bytes hardly ever
//! hold a commit; some are made on purpose, since random logs hardly ever reach
//! them.
//!
//! Assumes nothing.

mod behind;
mod damage;
mod edges;
mod entries;
mod log;
mod lookups;
mod pairs;
mod shapes;
mod sizes;

pub use behind::behind;
pub use edges::{broken, broken_blocks, Edge};
pub use log::{erased_behind, Log};
pub use lookups::{tags_in, Asked};
pub use pairs::{finish, log};
pub use sizes::geometry;

use crate::calls::{Blocks, Fetch, Geometry};
use crate::random::Random;

/// Two images with what a fetch takes beside them.
#[derive(Clone)]
pub struct Case {
    /// How it was made, for the counts.
    pub kind: &'static str,
    pub geometry: Geometry,
    pub images: [Vec<u8>; 2],
    pub numbers: [u32; 2],
    pub block_count: u32,
    pub seed: u32,
}

impl Case {
    pub fn blocks(&self) -> Blocks<'_> {
        Blocks {
            geometry: self.geometry,
            images: [&self.images[0], &self.images[1]],
            numbers: self.numbers,
        }
    }

    pub fn fetch(&self) -> Fetch<'_> {
        Fetch {
            blocks: self.blocks(),
            block_count: self.block_count,
            seed: self.seed,
        }
    }
}

/// How large the blocks are.
#[derive(Clone, Copy, PartialEq, Eq)]
pub enum Sizes {
    /// 128 to 32,768 bytes, mostly small.
    Any,
    /// 128 to 512 bytes.
    Small,
}

/// The case of this number, and the generator for what is asked of it.
pub fn case(number: u64, sizes: Sizes) -> (Case, Random) {
    let mut random = Random::numbered(number, 0x1a0);
    let case = pairs::case(&mut random, sizes);
    (case, random)
}
