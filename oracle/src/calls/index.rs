//! The calls of the index, and the compaction with a lent table, as values: what goes
//! in, what comes out, and who can be asked.
//!
//! The struct with `repr(C)` is that of `include/lanolin.h`.
//!
//! Assumes nothing.

use super::write::{Committed, Task};
use super::{Blocks, Got, Mdir};

/// Document 02's number for a table that is too small (L8).
pub const TABLE_FULL: i32 = -221;

/// `lanolin_indexed`: the places in use, 0 on a refusal.
#[repr(C)]
#[derive(Clone, Copy, Debug, PartialEq, Eq)]
pub struct Indexed {
    pub result: i32,
    pub places: u32,
}

impl Indexed {
    pub fn of(places: usize) -> Indexed {
        Indexed {
            result: 0,
            places: places as u32,
        }
    }

    pub fn refused(result: i32) -> Indexed {
        Indexed { result, places: 0 }
    }
}

/// What a build and an extension take, but for the table: that is lent, and altered.
#[derive(Clone, Copy)]
pub struct Index<'a> {
    pub blocks: Blocks<'a>,
    /// Of a record pair and end are read.
    pub dir: Mdir,
    /// `DOCUMENT` or `LITTLEFS`; any other number is -22.
    pub rules: u32,
}

/// What is asked of a table.
#[derive(Clone, Copy, Debug, PartialEq, Eq)]
pub struct Look {
    /// Any 0x0xx asks for the name, any 0x2xx for the struct, 0x300 to 0x3ff for that
    /// attribute.
    pub type_: u32,
    pub id: u32,
}

/// Who answers the calls: the port, or the second implementation.
pub trait Indexes {
    fn index(&self, input: &Index, table: &mut [u32]) -> Indexed;
    /// `old` is the record that the table is of.
    fn extend(&self, input: &Index, old: &Mdir, table: &mut [u32]) -> Indexed;
    /// The input's rules are not looked at.
    fn look(&self, input: &Index, table: &[u32], look: Look, buffer: &mut [u8]) -> Got;
    /// A compaction: the task's work is not looked at, nor its limit.
    fn compact_with(&self, task: &Task, images: [&mut [u8]; 2], table: &mut [u32]) -> Committed;
}
