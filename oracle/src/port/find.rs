//! The port's call that finds a name.
//!
//! Slices pass as in `dir`. The build script sets `lanolin_find` where the archive
//! has the call; without it nothing is declared, and `CAN_FIND` says that it cannot
//! be asked.
//!
//! Assumes that the archive keeps to the shapes of `include/lanolin.h`.

use super::Port;
use crate::calls::find::{Find, Finds, Named};

/// Whether the archive has the call at all.
pub const CAN_FIND: bool = cfg!(lanolin_find);

#[cfg(lanolin_find)]
extern "C" {
    fn lanolin_find(
        geometry: crate::calls::Geometry,
        b0: *const u8,
        b0_len: usize,
        b1: *const u8,
        b1_len: usize,
        n0: u32,
        n1: u32,
        block_count: u32,
        seed: u32,
        rules: u32,
        name: *const u8,
        name_len: usize,
        type_: u32,
    ) -> Named;
}

impl Finds for Port {
    #[cfg(lanolin_find)]
    fn find(&self, input: &Find) -> Named {
        use super::dir::start_of;

        let (blocks, name) = (input.fetch.blocks, input.name);
        let ([b0, b1], [n0, n1]) = (blocks.images, blocks.numbers);
        // SAFETY: images and name are valid for their lengths; any number is
        // answered.
        unsafe {
            lanolin_find(
                blocks.geometry,
                start_of(b0),
                b0.len(),
                start_of(b1),
                b1.len(),
                n0,
                n1,
                input.fetch.block_count,
                input.fetch.seed,
                input.rules,
                start_of(name),
                name.len(),
                input.type_,
            )
        }
    }

    #[cfg(not(lanolin_find))]
    fn find(&self, _input: &Find) -> Named {
        unreachable!("the archive lacks the call: `CAN_FIND` says so")
    }
}
