//! The fields of a tag, and the types that have a meaning.
//!
//! "A tag is 32 bits: validity (bit 31, valid when 0), type 11 bits, id 10 bits,
//! size 10 bits."
//!
//! Assumes nothing.

/// Of the types under 0x700.
pub const NAME: u32 = 0x000;
pub const STRUCT: u32 = 0x200;
pub const SPLICE: u32 = 0x400;
pub const TAIL: u32 = 0x600;

/// Whole types.
pub const FILE: u32 = 0x001;
pub const DIRECTORY: u32 = 0x002;
pub const SUPERBLOCK: u32 = 0x0ff;
pub const DIR_STRUCT: u32 = 0x200;
pub const INLINE: u32 = 0x201;
pub const CTZ: u32 = 0x202;
pub const ATTRIBUTE: u32 = 0x300;
pub const CREATE: u32 = 0x401;
pub const DELETE: u32 = 0x4ff;
pub const CHECK: u32 = 0x500;
pub const FORWARD: u32 = 0x5ff;
pub const SOFT_TAIL: u32 = 0x600;
pub const HARD_TAIL: u32 = 0x601;
pub const MOVE_STATE: u32 = 0x7ff;

/// The size that means removal.
pub const REMOVAL: u32 = 0x3ff;
/// The id of what belongs to no slot, and of the root.
pub const NO_SLOT: u32 = 0x3ff;
/// All bits of the id.
pub const ID_BITS: u32 = 0x3ff << 10;
/// The difference of one id.
pub const ONE_ID: u32 = 1 << 10;
pub const INVALID: u32 = 1 << 31;

pub fn tag_of(type_: u32, id: u32, size: u32) -> u32 {
    type_ << 20 | (id & 0x3ff) << 10 | size & 0x3ff
}

pub fn type_of(tag: u32) -> u32 {
    tag >> 20 & 0x7ff
}

pub fn type1_of(tag: u32) -> u32 {
    type_of(tag) & 0x700
}

pub fn type2_of(tag: u32) -> u32 {
    type_of(tag) & 0x780
}

pub fn chunk_of(tag: u32) -> u32 {
    type_of(tag) & 0xff
}

/// "splice is chunk as signed, -128 to 127"
pub fn splice_of(tag: u32) -> i32 {
    i32::from(chunk_of(tag) as u8 as i8)
}

pub fn id_of(tag: u32) -> u32 {
    tag >> 10 & 0x3ff
}

pub fn size_of(tag: u32) -> u32 {
    tag & 0x3ff
}

pub fn is_removal(tag: u32) -> bool {
    size_of(tag) == REMOVAL
}

/// "The stored length is 4 plus size, or 4 for a removal."
pub fn length_of(tag: u32) -> usize {
    match size_of(tag) {
        REMOVAL => 4,
        size => 4 + size as usize,
    }
}
