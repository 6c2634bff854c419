//! The four calls that write, as values: what goes in, what comes out, and who
//! can be asked.
//!
//! The structs with `repr(C)` are those of `include/lanolin.h`.
//!
//! Assumes nothing.

use super::{Geometry, Mdir};

/// Document 01's numbers for the refusals of commit and compaction, beside
/// those of fetch, and the three of document 02, L1, in the place of -203, the
/// second of them as L7 has it.
pub const BAD_ENTRY: i32 = -201;
pub const IRREGULAR: i32 = -202;
pub const NO_SPACE: i32 = -28;
pub const MISALIGNED: i32 = -211;
pub const WRONG_VALIDITY: i32 = -212;
pub const NOT_ERASED: i32 = -213;
pub const COINCIDENCE: i32 = -204;

/// Which logs are regular: by document 01's rule, or by littlefs's beside it.
pub const DOCUMENT: u32 = 0;
pub const LITTLEFS: u32 = 1;

/// "the erased byte, 0xff or 0x00" (document 02, L7)
pub const ERASED: [u8; 2] = [0xff, 0x00];

/// `lanolin_entry`.
#[repr(C)]
#[derive(Clone, Copy, Debug, PartialEq, Eq)]
pub struct Entry {
    pub type_: u16,
    pub id: u16,
    pub off: u32,
    pub len: u32,
}

/// `lanolin_committed`.
#[repr(C)]
#[derive(Clone, Copy, Debug, PartialEq, Eq)]
pub struct Committed {
    pub result: i32,
    pub index: u32,
    pub dir: Mdir,
    pub seed: u32,
}

/// `lanolin_stored`.
#[repr(C)]
#[derive(Clone, Copy, Debug, PartialEq, Eq)]
pub struct Stored {
    pub result: i32,
    pub index: u32,
    pub stores: u32,
}

#[derive(Clone, Copy)]
pub enum Work<'a> {
    Commit {
        entries: &'a [Entry],
        data: &'a [u8],
    },
    Compact,
}

/// One call, but for the images: they are lent, and altered.
#[derive(Clone, Copy)]
pub struct Task<'a> {
    pub geometry: Geometry,
    pub numbers: [u32; 2],
    pub block_count: u32,
    pub seed: u32,
    /// `DOCUMENT` or `LITTLEFS`; "any other number is -22".
    pub rules: u32,
    /// One of `ERASED`; "any other erased byte is -22".
    pub erased: u8,
    pub work: Work<'a>,
    /// The limit of n stores, in the two calls that have one.
    pub stores: Option<u32>,
}

/// What the call answers: with a limit the second, without the first.
#[derive(Clone, Copy, Debug, PartialEq, Eq)]
pub enum Answer {
    Committed(Committed),
    Stored(Stored),
}

impl Answer {
    pub fn result(&self) -> i32 {
        match self {
            Answer::Committed(committed) => committed.result,
            Answer::Stored(stored) => stored.result,
        }
    }
}

/// Who answers the four calls: the port, or the second implementation.
pub trait Writes {
    /// Whether it has the call at all.
    fn can(&self, work: &Work) -> bool;
    fn write(&self, task: &Task, images: [&mut [u8]; 2]) -> Answer;
}
