//! The unchanged Rust on two images: a fresh `Lfs` for each call, over a device
//! that reads from the images.
//!
//! The read size is 1 and the cache holds a block, so that every read inside
//! the block is allowed and the cache changes no answer. What the Rust is to
//! fill is first filled with bytes of ours: what it leaves alone shows.
//!
//! Assumes the compared domain: sizes that are not broken, block numbers below
//! 0xfffffffe, and a record whose pair are the two numbers.

use crate::calls::{Blocks, Fetch, Fetched, Gstate, Info, Lookup, Mdir, Query};
use crate::rust::lfs_gstate::LfsGstate;
use crate::rust::lfs_info::LfsInfo;
use crate::rust::types::LFS_BLOCK_NULL;
use crate::rust::{dir, error, Lfs, LfsCache, LfsConfig, LfsMdir};
use std::ffi::c_void;
use std::ptr;

/// What stands in lent memory before the Rust writes there.
pub const FILL: u8 = 0xa5;
const FILL_WORD: u32 = 0xa5a5_a5a5;

/// The Rust, with the memory of its cache.
pub struct Rust {
    cache: Vec<u8>,
}

/// What the calls take from the `Lfs`.
struct Given {
    block_count: u32,
    seed: u32,
    gdisk: Gstate,
    name_max: u32,
}

impl Default for Rust {
    fn default() -> Rust {
        Rust {
            cache: vec![FILL; 32_768],
        }
    }
}

impl Rust {
    /// `lfs_dir_fetch`. On -84 the record is what the Rust left there.
    pub fn fetch(&mut self, input: &Fetch) -> Fetched {
        let given = Given {
            block_count: input.block_count,
            seed: input.seed,
            gdisk: Gstate::default(),
            name_max: 0,
        };
        let mut record = filled_record();
        self.on(&input.blocks, given, |lfs| {
            let result = dir::fetch::lfs_dir_fetch(lfs, &mut record, &input.blocks.numbers);
            Fetched {
                result,
                dir: as_ours(&record),
                // SAFETY: `on` lends a valid `Lfs`.
                seed: unsafe { (*lfs).seed },
            }
        })
    }

    /// `lfs_dir_getslice`: the one word that it answers.
    pub fn getslice(&mut self, input: &Lookup, query: Query, buffer: &mut [u8]) -> u32 {
        let record = as_rust(&input.dir);
        self.on(&input.blocks, given(input), |lfs| {
            let start = buffer.as_mut_ptr() as *mut c_void;
            let Query { mask, key, offset } = query;
            let length = buffer.len() as u32;
            dir::traverse::lfs_dir_getslice(lfs, &record, mask, key, offset, start, length) as u32
        })
    }

    /// `lfs_dir_get`. The buffer has at least as many bytes as the key's size.
    pub fn get(&mut self, input: &Lookup, query: Query, buffer: &mut [u8]) -> u32 {
        assert!(buffer.len() >= (query.key & 0x3ff) as usize);
        let record = as_rust(&input.dir);
        self.on(&input.blocks, given(input), |lfs| {
            let start = buffer.as_mut_ptr() as *mut c_void;
            dir::traverse::lfs_dir_get(lfs, &record, query.mask, query.key, start) as u32
        })
    }

    /// `lfs_dir_getinfo`. What it leaves alone is `FILL`.
    pub fn getinfo(&mut self, input: &Lookup, name_max: u32, id: u32) -> Info {
        let record = as_rust(&input.dir);
        let mut info = LfsInfo {
            type_: FILL,
            size: FILL_WORD,
            name: [FILL; 256],
        };
        let given = Given {
            name_max,
            ..given(input)
        };
        let id = u16::try_from(id).expect("an id of the compared domain");
        let result = self.on(&input.blocks, given, |lfs| {
            dir::fetch::lfs_dir_getinfo(lfs, &record, id, &mut info)
        });
        Info {
            result,
            type_: info.type_,
            size: info.size,
            name: info.name,
        }
    }

    /// `lfs_dir_getgstate`.
    pub fn getgstate(&mut self, input: &Lookup, state: &mut Gstate) -> i32 {
        let record = as_rust(&input.dir);
        let mut of_rust = state_as_rust(*state);
        let result = self.on(&input.blocks, given(input), |lfs| {
            dir::fetch::lfs_dir_getgstate(lfs, &record, &mut of_rust)
        });
        (state.tag, state.pair) = (of_rust.tag, of_rust.pair);
        result
    }

    /// Calls with a fresh `Lfs` over the images.
    fn on<T>(&mut self, blocks: &Blocks, given: Given, call: impl FnOnce(*mut Lfs) -> T) -> T {
        let block_size = blocks.geometry.block_size;
        let config = LfsConfig {
            context: blocks as *const Blocks as *mut c_void,
            read: Some(read),
            prog: None,
            erase: None,
            sync: None,
            read_size: 1,
            prog_size: blocks.geometry.prog_size,
            block_size,
            cache_size: block_size,
        };
        assert!(block_size as usize <= self.cache.len());
        let mut lfs = Lfs {
            rcache: LfsCache {
                block: LFS_BLOCK_NULL,
                off: 0,
                size: 0,
                buffer: self.cache.as_mut_ptr(),
            },
            seed: given.seed,
            gdisk: state_as_rust(given.gdisk),
            cfg: &config,
            block_count: given.block_count,
            name_max: given.name_max,
        };
        call(&mut lfs)
    }
}

/// The device's read. A block or place that is not there is an error of the
/// device, which the compared domain does not have: it would show as -5.
unsafe extern "C" fn read(
    config: *const LfsConfig,
    block: u32,
    off: u32,
    buffer: *mut u8,
    size: u32,
) -> i32 {
    // SAFETY: `on` sets the context, and both live while the call runs.
    let blocks = unsafe { &*((*config).context as *const Blocks) };
    let which = blocks.numbers.iter().position(|&number| number == block);
    let (start, end) = (off as usize, off as usize + size as usize);
    match which.and_then(|which| blocks.images[which].get(start..end)) {
        // SAFETY: the Rust lends `size` bytes.
        Some(bytes) => unsafe { ptr::copy_nonoverlapping(bytes.as_ptr(), buffer, bytes.len()) },
        None => return error::LFS_ERR_IO,
    }
    0
}

fn given(input: &Lookup) -> Given {
    Given {
        block_count: 0,
        seed: 0,
        gdisk: input.gdisk,
        name_max: 0,
    }
}

fn state_as_rust(state: Gstate) -> LfsGstate {
    LfsGstate {
        tag: state.tag,
        pair: state.pair,
    }
}

fn filled_record() -> LfsMdir {
    LfsMdir {
        pair: [FILL_WORD; 2],
        rev: FILL_WORD,
        off: FILL_WORD,
        etag: FILL_WORD,
        count: FILL_WORD as u16,
        erased: true,
        split: true,
        tail: [FILL_WORD; 2],
    }
}

fn as_rust(dir: &Mdir) -> LfsMdir {
    LfsMdir {
        pair: dir.pair,
        rev: dir.rev,
        off: dir.off,
        etag: dir.etag,
        count: dir.count,
        erased: dir.erased != 0,
        split: dir.split != 0,
        tail: dir.tail,
    }
}

/// The Rust keeps no forward check.
fn as_ours(dir: &LfsMdir) -> Mdir {
    Mdir {
        pair: dir.pair,
        rev: dir.rev,
        off: dir.off,
        etag: dir.etag,
        count: dir.count,
        erased: dir.erased.into(),
        split: dir.split.into(),
        tail: dir.tail,
        ..Mdir::default()
    }
}
