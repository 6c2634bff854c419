//! What the Rust's files use and do not bring: four structs and four macros.
//!
//! Written from the uses in the files and from littlefs's `lfs.h`. It is
//! ASSUMED that the real structs have these fields, with these types; a real
//! struct may have more of them, and their order plays no part, since the files
//! reach each field by its name.

use crate::lfs_gstate::LfsGstate;
use crate::types::{lfs_block_t, lfs_off_t, lfs_size_t, lfs_tag_t};
use core::ffi::c_void;

/// Assumed: all four fields. `bd/bd.rs` reads and writes them.
pub struct LfsCache {
    pub block: lfs_block_t,
    pub off: lfs_off_t,
    pub size: lfs_size_t,
    pub buffer: *mut u8,
}

/// Assumed: all eight fields, and that `count` has 16 bits, which decides where
/// it wraps. `dir/fetch.rs` fills them, `dir/traverse.rs` reads pair, off, etag.
#[derive(Clone, Copy, Debug, PartialEq, Eq)]
pub struct LfsMdir {
    pub pair: [lfs_block_t; 2],
    pub rev: u32,
    pub off: lfs_off_t,
    pub etag: lfs_tag_t,
    pub count: u16,
    pub erased: bool,
    pub split: bool,
    pub tail: [lfs_block_t; 2],
}

type Read =
    unsafe extern "C" fn(*const LfsConfig, lfs_block_t, lfs_off_t, *mut u8, lfs_size_t) -> i32;
type Prog =
    unsafe extern "C" fn(*const LfsConfig, lfs_block_t, lfs_off_t, *const u8, lfs_size_t) -> i32;
type Erase = unsafe extern "C" fn(*const LfsConfig, lfs_block_t) -> i32;
type Sync = unsafe extern "C" fn(*const LfsConfig) -> i32;

/// Assumed: the four calls of a device, each of which may be absent, and the
/// four sizes. `bd/bd.rs` uses them. `context` is for the caller's device: the
/// files never look at it.
pub struct LfsConfig {
    pub context: *mut c_void,
    pub read: Option<Read>,
    pub prog: Option<Prog>,
    pub erase: Option<Erase>,
    pub sync: Option<Sync>,
    pub read_size: lfs_size_t,
    pub prog_size: lfs_size_t,
    pub block_size: lfs_size_t,
    pub cache_size: lfs_size_t,
}

/// Assumed: `rcache` (every read goes through it), `seed` (fetch adds each
/// check to it), `gdisk` (the pending move), `cfg`, `block_count` (0 asks for
/// no test), `name_max` (`lfs_dir_getinfo` asks for one byte more).
pub struct Lfs {
    pub rcache: LfsCache,
    pub seed: u32,
    pub gdisk: LfsGstate,
    pub cfg: *const LfsConfig,
    pub block_count: lfs_size_t,
    pub name_max: lfs_size_t,
}

/// Assumed: it prints, and does nothing else.
macro_rules! lfs_trace {
    ($($text:tt)*) => {};
}

/// Assumed: its value is its argument.
macro_rules! lfs_err {
    ($code:expr) => {
        $code
    };
}

/// Assumed: its value is its argument.
macro_rules! lfs_pass_err {
    ($code:expr) => {
        $code
    };
}

/// Assumed: it changes no answer. Off, as every debug assertion here.
macro_rules! lfs_assert {
    ($($condition:tt)*) => {
        debug_assert!($($condition)*)
    };
}

pub(crate) use {lfs_assert, lfs_err, lfs_pass_err, lfs_trace};
