//! Whether there is room to append: "clean means that byte to the block's end and bit
//! 31 of the end tag clear for 0xff, set for 0x00" (document 02, L7), behind "an old end
//! that is a multiple of the program size".
//!
//! Assumes nothing.

use super::lay::Laid;
use super::writer::{Read, Refused, Writer};
use super::{tag::*, WriteFault};
use crate::calls::write::*;

impl Writer {
    /// "-211 misaligned end"
    pub(super) fn misaligned(&self, task: &Task, read: &Read) -> Refused {
        let unit = match self.fault {
            WriteFault::AlignedByBlock => task.geometry.block_size,
            _ => task.geometry.prog_size,
        };
        let aligned = read.dir.off.is_multiple_of(unit) || self.has(WriteFault::UnalignedEnd);
        (!aligned).then_some((MISALIGNED, 0))
    }

    /// "wrong validity bit": clean means "bit 31 of the end tag clear for 0xff, set for
    /// 0x00"
    pub(super) fn wrong_validity(&self, task: &Task, read: &Read) -> Refused {
        let set = read.dir.etag & INVALID != 0;
        let wrong = match (self.fault, task.erased) {
            (WriteFault::BitUntestedForFf, 0xff) => false,
            (WriteFault::BitUntestedFor00, 0x00) => false,
            (WriteFault::BitUnturned, _) => set,
            (_, 0x00) => !set,
            _ => set,
        };
        wrong.then_some((WRONG_VALIDITY, 0))
    }

    /// "-213 byte with offset": clean means "that byte to the block's end", and of the
    /// bytes from the old end on the first that isn't is named.
    pub(super) fn not_erased(&self, task: &Task, read: &Read, laid: &Laid) -> Refused {
        let end = read.dir.off as usize;
        let rest = read.block.get(end..).unwrap_or_default();
        let needed = match self.fault {
            WriteFault::CleanOnlyWhereLaid => laid.bytes.len(),
            WriteFault::CleanToNewEnd => laid.end.saturating_sub(end),
            WriteFault::CleanOneTag => 4,
            _ => rest.len(),
        };
        let mut needed = rest.iter().take(needed);
        let dirty = |&byte: &u8| match self.fault {
            WriteFault::CleanOfFf => byte != 0xff,
            WriteFault::CleanOfEither => !ERASED.contains(&byte),
            _ => byte != task.erased,
        };
        let found = match self.fault {
            WriteFault::LastByteNamed => needed.rposition(dirty),
            WriteFault::NeedsErased if read.dir.erased == 0 => Some(0),
            _ => needed.position(dirty),
        };
        let offset = match self.fault {
            WriteFault::OffsetFromEnd => found?,
            WriteFault::NoOffset => found.map(|_| 0)?,
            _ => end + found?,
        };
        Some((NOT_ERASED, offset as u32))
    }
}
