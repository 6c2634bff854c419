//! An answer from a table: "tag, length, place and buffer as L3's answer, by halving. ..
//! what it says is checked against the block (an offset past it is -84), and nothing else
//! is asked of it."
//!
//! Assumes nothing.

use super::places::{class_of, halved, is_at, rank_at};
use super::Indexer;
use crate::calls::index::{Index, Look};
use crate::calls::{Got, CORRUPT, INVAL, NOENT};
use crate::model::{tag::*, IndexFault};

/// The highest type that a tag has.
const LAST_TYPE: u32 = 0x7ff;

impl Indexer {
    pub(super) fn get(&self, input: &Index, table: &[u32], look: Look, buffer: &mut [u8]) -> Got {
        let tested = self.fits(input.blocks, input.dir) || self.has(IndexFault::GetUntested);
        if !tested || !self.reader().buffer_fits(buffer) {
            return Got::refused(INVAL);
        }
        if self.has(IndexFault::RefusalZeroesBuffer) {
            buffer.fill(0);
        }
        match self.hit(table, look) {
            Some([tag, off]) => self.read(self.block(input), tag, off, buffer),
            None => Got::refused(NOENT),
        }
    }

    /// The place that is asked for: "any 0x0xx asks the name, any 0x2xx the struct, 0x300
    /// to 0x3ff that attribute; any other type, and an id that the table has not (above
    /// 1,023 too), finds nothing".
    fn hit(&self, table: &[u32], look: Look) -> Option<[u32; 2]> {
        let table = match self.fault {
            IndexFault::LeadingOnly => {
                let zero = table.chunks_exact(2).position(|place| place[0] == 0);
                &table[..zero.map_or(table.len(), |zero| 2 * zero)]
            }
            IndexFault::LastPlaceMissed => &table[..table.len().saturating_sub(2)],
            _ => table,
        };
        let Look { type_, id } = self.asked(look)?;
        let key = tag_of(type_, 0, 0);
        let class = match (class_of(key), self.fault) {
            (2.., IndexFault::AttributesAreOne) => 2,
            (1, IndexFault::StructUnfound) => return None,
            (class, _) => class,
        };
        let rank = rank_at(id, class);
        let place = halved(self.fault, table, rank);
        let found = is_at(self.fault, table, place, rank);
        let words = table.get(2 * place..2 * place + 2)?;
        let told = match (class, self.fault) {
            (0, IndexFault::NameTypesTold) => type_ == NAME || type_of(words[0]) == type_,
            (1, IndexFault::StructTypesTold) => type_ == STRUCT || type_of(words[0]) == type_,
            _ => true,
        };
        let taken = found || self.has(IndexFault::NextTaken);
        (taken && told).then(|| [words[0], words[1]])
    }

    /// What is asked for, where a table can have it at all.
    fn asked(&self, look: Look) -> Option<Look> {
        let type_ = match self.fault {
            IndexFault::TypeOf11Bits => look.type_ & LAST_TYPE,
            IndexFault::OtherTypesAskName if look.type_ & 0x700 == 0x100 => NAME,
            _ => look.type_,
        };
        let id = match self.fault {
            IndexFault::IdOf10Bits => look.id & 0x3ff,
            IndexFault::IdOf16Bits => look.id & 0xffff,
            _ => look.id,
        };
        let class = [NAME, STRUCT, ATTRIBUTE].contains(&(type_ & 0x700));
        let fits = type_ <= LAST_TYPE && id <= NO_SLOT && class;
        let last = id == NO_SLOT && self.has(IndexFault::LastIdUnfound);
        (fits && !last).then_some(Look { type_, id })
    }

    /// "offset plus min(size, buffer)" must not pass the block; "the rest of the buffer is
    /// zeroed".
    fn read(&self, block: &[u8], tag: u32, off: u32, buffer: &mut [u8]) -> Got {
        let size = length_of(tag) - 4;
        let length = match self.fault {
            IndexFault::ReadFillsBuffer => buffer.len(),
            IndexFault::RemovalIsRead => (size_of(tag) as usize).min(buffer.len()),
            _ => size.min(buffer.len()),
        };
        let start = off as usize;
        let whole = self.has(IndexFault::WholeEntryInBlock) && start + size > block.len();
        let at_end = self.has(IndexFault::EndOfBlockPasses) && start + length == block.len();
        let bytes = match block.get(start..start + length) {
            Some(_) if whole || at_end => return Got::refused(CORRUPT),
            Some(bytes) => bytes,
            None if self.taken_past(length) => block.get(start..).unwrap_or_default(),
            None if self.has(IndexFault::PastIsNoent) => return Got::refused(NOENT),
            None => return Got::refused(CORRUPT),
        };
        let (read, rest) = buffer.split_at_mut(bytes.len());
        read.copy_from_slice(bytes);
        if !self.has(IndexFault::RestUnzeroed) {
            rest.fill(0);
        }
        self.found(tag, off)
    }

    /// A fault answers what passes the block.
    fn taken_past(&self, length: usize) -> bool {
        match self.fault {
            IndexFault::PastAnswered => true,
            IndexFault::EmptyReadPasses => length == 0,
            _ => false,
        }
    }

    fn found(&self, tag: u32, off: u32) -> Got {
        let length = match self.fault {
            IndexFault::LengthWithoutTag => length_of(tag) - 4,
            IndexFault::RemovalHasLength => 4 + size_of(tag) as usize,
            _ => length_of(tag),
        };
        let off = match self.fault {
            IndexFault::PlaceOfTag => off.wrapping_sub(4),
            _ => off,
        };
        let tag = match self.fault {
            IndexFault::Bit31Cleared => tag & !INVALID,
            _ => tag,
        };
        Got {
            result: 0,
            tag,
            length: length as u32,
            off,
        }
    }
}
