//! The five calls that read a pair of blocks, as values: what goes in, what comes
//! out, and who can be asked. Those that write are in `write`, the one that fetches
//! again is in `refetch`, the one that finds a name in `find`, those of the index are
//! in `index`.
//!
//! The structs with `repr(C)` are those of `include/lanolin.h`. The three marks of
//! a record are bytes here, not `bool`: any byte that the archive hands back is
//! then a value that can be compared, and one that is neither 0 nor 1 is seen.
//!
//! Assumes nothing.

pub mod find;
pub mod index;
pub mod refetch;
pub mod write;

use std::fmt::{self, Debug, Formatter};

/// Document 01's numbers for the refusals of fetch and lookups.
pub const INVAL: i32 = -22;
pub const CORRUPT: i32 = -84;
pub const NOENT: i32 = -2;

/// `lanolin_geometry`.
#[repr(C)]
#[derive(Clone, Copy, Debug, PartialEq, Eq)]
pub struct Geometry {
    pub block_size: u32,
    pub prog_size: u32,
}

/// `lanolin_mdir`, the record.
#[repr(C)]
#[derive(Clone, Copy, Default, PartialEq, Eq)]
pub struct Mdir {
    pub pair: [u32; 2],
    pub rev: u32,
    pub off: u32,
    pub etag: u32,
    pub count: u16,
    pub erased: u8,
    pub split: u8,
    pub tail: [u32; 2],
    pub forward: u8,
    pub forward_size: u32,
    pub forward_sum: u32,
}

impl Mdir {
    /// The record that the Rust has: it keeps no forward check.
    pub fn without_forward(self) -> Mdir {
        Mdir {
            forward: 0,
            forward_size: 0,
            forward_sum: 0,
            ..self
        }
    }
}

/// `lanolin_gstate`.
#[repr(C)]
#[derive(Clone, Copy, Debug, Default, PartialEq, Eq)]
pub struct Gstate {
    pub tag: u32,
    pub pair: [u32; 2],
}

/// `lanolin_fetched`.
#[repr(C)]
#[derive(Clone, Copy, Debug, PartialEq, Eq)]
pub struct Fetched {
    pub result: i32,
    pub dir: Mdir,
    pub seed: u32,
}

/// `lanolin_got`.
#[repr(C)]
#[derive(Clone, Copy, PartialEq, Eq)]
pub struct Got {
    pub result: i32,
    pub tag: u32,
    pub length: u32,
    pub off: u32,
}

impl Got {
    pub fn refused(result: i32) -> Got {
        Got {
            result,
            tag: 0,
            length: 0,
            off: 0,
        }
    }

    /// What is found, by who tells its tag alone: the Rust, the directory machine.
    pub fn tagged(tag: u32) -> Got {
        Got {
            tag,
            ..Got::refused(0)
        }
    }

    /// The same answer; what is found, by its tag alone.
    pub fn without_place(self) -> Got {
        match self.result {
            0 => Got::tagged(self.tag),
            _ => self,
        }
    }

    /// The one word that the Rust answers: the tag, or the refusal.
    pub fn word(self) -> u32 {
        match self.result {
            0 => self.tag,
            refusal => refusal as u32,
        }
    }
}

/// `lanolin_info`.
#[repr(C)]
#[derive(Clone, Copy, PartialEq, Eq)]
pub struct Info {
    pub result: i32,
    pub type_: u8,
    pub size: u32,
    pub name: [u8; 256],
}

impl Info {
    pub fn refused(result: i32) -> Info {
        Info {
            result,
            type_: 0,
            size: 0,
            name: [0; 256],
        }
    }
}

// Answers as text: bits in hexadecimal, counts and results in decimal.

impl Debug for Mdir {
    fn fmt(&self, f: &mut Formatter) -> fmt::Result {
        let Mdir {
            pair,
            rev,
            off,
            etag,
            count,
            ..
        } = self;
        write!(
            f,
            "record of pair {pair:x?}, revision {rev:#x}, end {off}, "
        )?;
        write!(
            f,
            "end tag {etag:#010x}, count {count}, erased {}, ",
            self.erased
        )?;
        write!(f, "split {}, tail {:x?}, ", self.split, self.tail)?;
        write!(
            f,
            "forward {} of {} with {:#010x}",
            self.forward, self.forward_size, self.forward_sum
        )
    }
}

impl Debug for Got {
    fn fmt(&self, f: &mut Formatter) -> fmt::Result {
        write!(f, "result {}, tag {:#010x}, ", self.result, self.tag)?;
        write!(f, "length {}, place {}", self.length, self.off)
    }
}

impl Debug for Info {
    fn fmt(&self, f: &mut Formatter) -> fmt::Result {
        write!(f, "result {}, type {:#x}, ", self.result, self.type_)?;
        write!(f, "size {:#x}, name {}", self.size, hex(&self.name))
    }
}

/// Bytes in hexadecimal, the last one said with how often it stands there.
pub fn hex(bytes: &[u8]) -> String {
    let Some(last) = bytes.last() else {
        return String::from("of no bytes");
    };
    let other = bytes.iter().rposition(|byte| byte != last);
    let (first, rest) = bytes.split_at(other.map_or(0, |other| other + 1));
    let text: String = first.iter().map(|byte| format!("{byte:02x}")).collect();
    let space = if first.is_empty() { "" } else { " then " };
    format!("{text}{space}{} times {last:02x}", rest.len())
}

/// What every call takes: the sizes, the two images and their block numbers.
#[derive(Clone, Copy)]
pub struct Blocks<'a> {
    pub geometry: Geometry,
    pub images: [&'a [u8]; 2],
    pub numbers: [u32; 2],
}

#[derive(Clone, Copy)]
pub struct Fetch<'a> {
    pub blocks: Blocks<'a>,
    pub block_count: u32,
    pub seed: u32,
}

/// What every lookup takes beside the blocks: the record, and the global state
/// as it stands on the disk.
#[derive(Clone, Copy)]
pub struct Lookup<'a> {
    pub blocks: Blocks<'a>,
    pub dir: Mdir,
    pub gdisk: Gstate,
}

/// What `lfs_dir_getslice` and `lfs_dir_get` look for; the latter has offset 0.
#[derive(Clone, Copy, Debug)]
pub struct Query {
    pub mask: u32,
    pub key: u32,
    pub offset: u32,
}

/// Who answers the five calls: the port, or the second implementation.
pub trait Voice {
    fn fetch(&self, input: &Fetch) -> Fetched;
    fn getslice(&self, input: &Lookup, query: Query, buffer: &mut [u8]) -> Got;
    /// The query's offset is not looked at.
    fn get(&self, input: &Lookup, query: Query, buffer: &mut [u8]) -> Got;
    fn getinfo(&self, input: &Lookup, name_max: u32, id: u32) -> Info;
    fn getgstate(&self, input: &Lookup, state: &mut Gstate) -> i32;
}
