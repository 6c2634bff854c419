//! The port's call that fetches again from a known end.
//!
//! Slices pass as in `dir`. The build script sets `lanolin_refetch` where the archive
//! has the call; without it nothing is declared, and `CAN_REFETCH` says that it
//! cannot be asked.
//!
//! Assumes that the archive keeps to the shapes of `include/lanolin.h`.

use super::Port;
use crate::calls::refetch::{Refetch, Refetches};
use crate::calls::Fetched;

/// Whether the archive has the call at all.
pub const CAN_REFETCH: bool = cfg!(lanolin_refetch);

#[cfg(lanolin_refetch)]
extern "C" {
    fn lanolin_refetch(
        geometry: crate::calls::Geometry,
        b0: *const u8,
        b0_len: usize,
        b1: *const u8,
        b1_len: usize,
        n0: u32,
        n1: u32,
        block_count: u32,
        seed: u32,
        dir: crate::calls::Mdir,
    ) -> Fetched;
}

impl Refetches for Port {
    #[cfg(lanolin_refetch)]
    fn refetch(&self, input: &Refetch) -> Fetched {
        use super::dir::start_of;

        let (fetch, blocks) = (input.fetch, input.fetch.blocks);
        let ([b0, b1], [n0, n1]) = (blocks.images, blocks.numbers);
        // SAFETY: the images are valid for their lengths; a record's marks are 0 or
        // 1, and any number is answered.
        unsafe {
            lanolin_refetch(
                blocks.geometry,
                start_of(b0),
                b0.len(),
                start_of(b1),
                b1.len(),
                n0,
                n1,
                fetch.block_count,
                fetch.seed,
                input.dir,
            )
        }
    }

    #[cfg(not(lanolin_refetch))]
    fn refetch(&self, _input: &Refetch) -> Fetched {
        unreachable!("the archive lacks the call: `CAN_REFETCH` says so")
    }
}
