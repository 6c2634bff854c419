//! The port: every call of `liblanolin.a`, each with a safe wrapper. The leaves
//! are here, the calls that read a pair of blocks in `dir`, `refetch`, `find` and
//! `index`, those that write one in `write`, but for the compaction with a lent table,
//! which is in `index` too.
//!
//! The shapes are those of `include/lanolin.h`. A wrapper adds nothing: it
//! passes a slice as a pointer and a count, and hands back what the call
//! answers. What a call leaves in lent memory is handed back by value, so that
//! a caller compares it as it compares an answer.
//!
//! Assumes that the archive keeps to those shapes: the linker sees names only.

mod dir;
mod find;
mod index;
mod refetch;
mod write;

pub use crate::calls::Gstate;
pub use dir::Port;
pub use find::CAN_FIND;
pub use index::{CAN_COMPACT_WITH, CAN_INDEX};
pub use refetch::CAN_REFETCH;

/// A word, or the refusal and 0.
#[repr(C)]
#[derive(Clone, Copy, Debug, PartialEq, Eq)]
pub struct Word {
    pub result: i32,
    pub value: u32,
}

/// The two block numbers of a pair.
#[repr(C)]
#[derive(Clone, Copy, Debug, PartialEq, Eq)]
pub struct Pair {
    pub pair: [u32; 2],
}

/// Declares calls that take and answer numbers alone, so that nothing is asked
/// of the caller, and the wrapper of each.
macro_rules! calls_on_numbers {
    ($($wrapper:ident = $call:ident($($name:ident: $type:ty),*) -> $answer:ty;)*) => {
        extern "C" {
            $(fn $call($($name: $type),*) -> $answer;)*
        }
        $(
            #[inline] // so that a benchmark pays for one call
            pub fn $wrapper($($name: $type),*) -> $answer {
                // SAFETY: the call takes numbers, and any number is answered.
                unsafe { $call($($name),*) }
            }
        )*
    };
}

calls_on_numbers! {
    mktag = lanolin_mktag(type_: u32, id: u32, size: u32) -> u32;
    mktag_if = lanolin_mktag_if(cond: bool, type_: u32, id: u32, size: u32) -> u32;
    tag_isvalid = lanolin_tag_isvalid(tag: u32) -> u32;
    tag_isdelete = lanolin_tag_isdelete(tag: u32) -> u32;
    tag_type1 = lanolin_tag_type1(tag: u32) -> u32;
    tag_type2 = lanolin_tag_type2(tag: u32) -> u32;
    tag_type3 = lanolin_tag_type3(tag: u32) -> u32;
    tag_chunk = lanolin_tag_chunk(tag: u32) -> u32;
    tag_splice = lanolin_tag_splice(tag: u32) -> i32;
    tag_id = lanolin_tag_id(tag: u32) -> u32;
    tag_size = lanolin_tag_size(tag: u32) -> u32;
    tag_dsize = lanolin_tag_dsize(tag: u32) -> u32;

    npw2 = lanolin_npw2(a: u32) -> u32;
    ctz = lanolin_ctz(a: u32) -> u32;
    popc = lanolin_popc(a: u32) -> u32;
    scmp = lanolin_scmp(a: u32, b: u32) -> i32;
    min = lanolin_min(a: u32, b: u32) -> u32;
    max = lanolin_max(a: u32, b: u32) -> u32;
    alignup = lanolin_alignup(a: u32, alignment: u32) -> Word;
    aligndown = lanolin_aligndown(a: u32, alignment: u32) -> Word;

    pair_isnull = lanolin_pair_isnull(p0: u32, p1: u32) -> u32;
    pair_cmp = lanolin_pair_cmp(p0: u32, p1: u32, q0: u32, q1: u32) -> i32;
    pair_issync = lanolin_pair_issync(p0: u32, p1: u32, q0: u32, q1: u32) -> u32;
    pair_swap = lanolin_pair_swap(p0: u32, p1: u32) -> Pair;
}

extern "C" {
    fn lanolin_crc(crc: u32, bytes: *const u8, len: usize) -> u32;
    fn lanolin_le32_at(bytes: *const u8, len: usize, at: usize) -> Word;
    fn lanolin_be32_at(bytes: *const u8, len: usize, at: usize) -> Word;
    fn lanolin_put_le32(bytes: *mut u8, len: usize, at: usize, value: u32) -> i32;
    fn lanolin_put_be32(bytes: *mut u8, len: usize, at: usize, value: u32) -> i32;
}

pub fn crc(crc: u32, bytes: &[u8]) -> u32 {
    // SAFETY: the slice is valid for its length.
    unsafe { lanolin_crc(crc, bytes.as_ptr(), bytes.len()) }
}

/// The checksum of no bytes, from a null pointer with count 0.
pub fn crc_null(crc: u32) -> u32 {
    // SAFETY: a null pointer with count 0 is allowed.
    unsafe { lanolin_crc(crc, std::ptr::null(), 0) }
}

pub fn le32_at(bytes: &[u8], at: usize) -> Word {
    // SAFETY: the slice is valid for its length; `at` may be any number.
    unsafe { lanolin_le32_at(bytes.as_ptr(), bytes.len(), at) }
}

pub fn be32_at(bytes: &[u8], at: usize) -> Word {
    // SAFETY: as for `le32_at`.
    unsafe { lanolin_be32_at(bytes.as_ptr(), bytes.len(), at) }
}

pub fn le32_at_null(at: usize) -> Word {
    // SAFETY: a null pointer with count 0 is allowed.
    unsafe { lanolin_le32_at(std::ptr::null(), 0, at) }
}

pub fn be32_at_null(at: usize) -> Word {
    // SAFETY: a null pointer with count 0 is allowed.
    unsafe { lanolin_be32_at(std::ptr::null(), 0, at) }
}

pub fn put_le32(bytes: &mut [u8], at: usize, value: u32) -> i32 {
    // SAFETY: the slice is valid for its length, and lent for this call alone.
    unsafe { lanolin_put_le32(bytes.as_mut_ptr(), bytes.len(), at, value) }
}

pub fn put_be32(bytes: &mut [u8], at: usize, value: u32) -> i32 {
    // SAFETY: as for `put_le32`.
    unsafe { lanolin_put_be32(bytes.as_mut_ptr(), bytes.len(), at, value) }
}

pub fn put_le32_null(at: usize, value: u32) -> i32 {
    // SAFETY: a null pointer with count 0 is allowed.
    unsafe { lanolin_put_le32(std::ptr::null_mut(), 0, at, value) }
}

pub fn put_be32_null(at: usize, value: u32) -> i32 {
    // SAFETY: a null pointer with count 0 is allowed.
    unsafe { lanolin_put_be32(std::ptr::null_mut(), 0, at, value) }
}

extern "C" {
    fn lanolin_gstate_iszero(a: *const Gstate) -> u32;
    fn lanolin_gstate_hasorphans(a: *const Gstate) -> u32;
    fn lanolin_gstate_getorphans(a: *const Gstate) -> u32;
    fn lanolin_gstate_hasmove(a: *const Gstate) -> u32;
    fn lanolin_gstate_needssuperblock(a: *const Gstate) -> u32;
    fn lanolin_gstate_hasmovehere(a: *const Gstate, p0: u32, p1: u32) -> u32;
    fn lanolin_gstate_xor(a: *mut Gstate, b: *const Gstate);
}

pub fn gstate_iszero(a: &Gstate) -> u32 {
    // SAFETY: the state is lent for this call, here and in the next five.
    unsafe { lanolin_gstate_iszero(a) }
}

pub fn gstate_hasorphans(a: &Gstate) -> u32 {
    unsafe { lanolin_gstate_hasorphans(a) }
}

pub fn gstate_getorphans(a: &Gstate) -> u32 {
    unsafe { lanolin_gstate_getorphans(a) }
}

pub fn gstate_hasmove(a: &Gstate) -> u32 {
    unsafe { lanolin_gstate_hasmove(a) }
}

pub fn gstate_needssuperblock(a: &Gstate) -> u32 {
    unsafe { lanolin_gstate_needssuperblock(a) }
}

pub fn gstate_hasmovehere(a: &Gstate, pair: [u32; 2]) -> u32 {
    unsafe { lanolin_gstate_hasmovehere(a, pair[0], pair[1]) }
}

/// Both states as the call leaves them: the second one must be as it was.
pub fn gstate_xor(a: Gstate, b: Gstate) -> (Gstate, Gstate) {
    let (mut a, mut b) = (a, b);
    // SAFETY: both are locals of this function, and do not overlap.
    unsafe { lanolin_gstate_xor(&mut a, &raw mut b) };
    (a, b)
}
