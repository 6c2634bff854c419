//! The port's five calls that read a pair of blocks.
//!
//! An image or a buffer passes as a pointer and a count. An empty one passes as
//! a null pointer, which the layer allows with count 0.
//!
//! Assumes that the archive keeps to the shapes of `include/lanolin.h`: records
//! and answers pass by value.

use crate::calls::{Fetch, Fetched, Geometry, Got, Gstate, Info, Lookup, Mdir, Query, Voice};
use std::ptr;

extern "C" {
    fn lanolin_fetch(
        geometry: Geometry,
        b0: *const u8,
        b0_len: usize,
        b1: *const u8,
        b1_len: usize,
        n0: u32,
        n1: u32,
        block_count: u32,
        seed: u32,
    ) -> Fetched;
    fn lanolin_getslice(
        geometry: Geometry,
        b0: *const u8,
        b0_len: usize,
        b1: *const u8,
        b1_len: usize,
        n0: u32,
        n1: u32,
        dir: Mdir,
        gdisk: Gstate,
        gmask: u32,
        gtag: u32,
        goff: u32,
        buffer: *mut u8,
        gsize: usize,
    ) -> Got;
    fn lanolin_get(
        geometry: Geometry,
        b0: *const u8,
        b0_len: usize,
        b1: *const u8,
        b1_len: usize,
        n0: u32,
        n1: u32,
        dir: Mdir,
        gdisk: Gstate,
        gmask: u32,
        gtag: u32,
        buffer: *mut u8,
        gsize: usize,
    ) -> Got;
    fn lanolin_getinfo(
        geometry: Geometry,
        b0: *const u8,
        b0_len: usize,
        b1: *const u8,
        b1_len: usize,
        n0: u32,
        n1: u32,
        dir: Mdir,
        gdisk: Gstate,
        name_max: u32,
        id: u32,
    ) -> Info;
    fn lanolin_getgstate(
        geometry: Geometry,
        b0: *const u8,
        b0_len: usize,
        b1: *const u8,
        b1_len: usize,
        n0: u32,
        n1: u32,
        dir: Mdir,
        gdisk: Gstate,
        gstate: *mut Gstate,
    ) -> i32;
}

/// The port, to be asked as the second implementation is.
pub struct Port;

pub(super) fn start_of(bytes: &[u8]) -> *const u8 {
    match bytes {
        [] => ptr::null(),
        _ => bytes.as_ptr(),
    }
}

pub(super) fn start_of_mut(bytes: &mut [u8]) -> *mut u8 {
    match bytes {
        [] => ptr::null_mut(),
        _ => bytes.as_mut_ptr(),
    }
}

impl Voice for Port {
    fn fetch(&self, input: &Fetch) -> Fetched {
        let Fetch {
            blocks,
            block_count,
            seed,
        } = *input;
        let ([b0, b1], [n0, n1]) = (blocks.images, blocks.numbers);
        // SAFETY: the images are valid for their lengths; any number is answered.
        unsafe {
            lanolin_fetch(
                blocks.geometry,
                start_of(b0),
                b0.len(),
                start_of(b1),
                b1.len(),
                n0,
                n1,
                block_count,
                seed,
            )
        }
    }

    fn getslice(&self, input: &Lookup, query: Query, buffer: &mut [u8]) -> Got {
        let Lookup { blocks, dir, gdisk } = *input;
        let ([b0, b1], [n0, n1]) = (blocks.images, blocks.numbers);
        // SAFETY: images and buffer are valid for their lengths, and the buffer
        // is lent to this call alone; a record's marks are 0 or 1.
        unsafe {
            lanolin_getslice(
                blocks.geometry,
                start_of(b0),
                b0.len(),
                start_of(b1),
                b1.len(),
                n0,
                n1,
                dir,
                gdisk,
                query.mask,
                query.key,
                query.offset,
                start_of_mut(buffer),
                buffer.len(),
            )
        }
    }

    fn get(&self, input: &Lookup, query: Query, buffer: &mut [u8]) -> Got {
        let Lookup { blocks, dir, gdisk } = *input;
        let ([b0, b1], [n0, n1]) = (blocks.images, blocks.numbers);
        // SAFETY: as for `getslice`.
        unsafe {
            lanolin_get(
                blocks.geometry,
                start_of(b0),
                b0.len(),
                start_of(b1),
                b1.len(),
                n0,
                n1,
                dir,
                gdisk,
                query.mask,
                query.key,
                start_of_mut(buffer),
                buffer.len(),
            )
        }
    }

    fn getinfo(&self, input: &Lookup, name_max: u32, id: u32) -> Info {
        let Lookup { blocks, dir, gdisk } = *input;
        let ([b0, b1], [n0, n1]) = (blocks.images, blocks.numbers);
        // SAFETY: the images are valid for their lengths.
        unsafe {
            lanolin_getinfo(
                blocks.geometry,
                start_of(b0),
                b0.len(),
                start_of(b1),
                b1.len(),
                n0,
                n1,
                dir,
                gdisk,
                name_max,
                id,
            )
        }
    }

    fn getgstate(&self, input: &Lookup, state: &mut Gstate) -> i32 {
        let Lookup { blocks, dir, gdisk } = *input;
        let ([b0, b1], [n0, n1]) = (blocks.images, blocks.numbers);
        // SAFETY: the images are valid for their lengths, and the state is lent
        // to this call alone.
        unsafe {
            lanolin_getgstate(
                blocks.geometry,
                start_of(b0),
                b0.len(),
                start_of(b1),
                b1.len(),
                n0,
                n1,
                dir,
                gdisk,
                state,
            )
        }
    }
}
