//! Lookup: the newest entry that a mask and a key ask for, found backwards from
//! the record's end.
//!
//! Assumes nothing.

use super::{bytes::*, tag::*, Fault, Model};
use crate::calls::{Got, Lookup, Query, CORRUPT, INVAL, NOENT};

/// A match: its tag as it stands, where the tag stands, and the difference.
struct Found {
    tag: u32,
    at: usize,
    difference: u32,
}

impl Model {
    /// `lfs_dir_getslice`.
    pub(super) fn slice(&self, input: &Lookup, query: Query, buffer: &mut [u8]) -> Got {
        if !self.record_fits(input) || !self.buffer_fits(buffer) {
            return Got::refused(INVAL);
        }
        if self.has(Fault::RefusalZeroesBuffer) {
            buffer.fill(0);
        }
        let block = self.block(input);
        match self.find(input, block, query) {
            Some(found) => self.read(block, &found, query.offset, buffer),
            None => Got::refused(NOENT),
        }
    }

    /// `lfs_dir_get`: the key's size says how many bytes of the buffer are
    /// written; the rest stays.
    pub(super) fn sized(&self, input: &Lookup, query: Query, buffer: &mut [u8]) -> Got {
        let query = Query { offset: 0, ..query };
        let len = buffer.len();
        let size = match self.fault {
            Fault::GetFillsBuffer => len,
            Fault::GetTakesShortBuffer => len.min(size_of(query.key) as usize),
            _ => size_of(query.key) as usize,
        };
        if !self.buffer_fits(buffer) {
            return Got::refused(INVAL);
        }
        match buffer.get_mut(..size) {
            Some(part) => self.slice(input, query, part),
            None => Got::refused(INVAL),
        }
    }

    /// The image that has the record's first number.
    fn block<'a>(&self, input: &Lookup<'a>) -> &'a [u8] {
        let second = input.dir.pair[0] == input.blocks.numbers[1];
        let second = second && !self.has(Fault::FirstImageAlways);
        input.blocks.images[usize::from(second)]
    }

    /// "a pending move (global tag's type1 not 0) whose pair shares any block
    /// answers -2 at its own id and lowers the difference by one id above it"
    fn pending(&self, input: &Lookup, id: u32) -> Option<u32> {
        if self.has(Fault::SearchBoundByCount) && id >= u32::from(input.dir.count) {
            return None;
        }
        let (moved, here) = (input.gdisk, input.dir.pair);
        let shared = match self.fault {
            Fault::MoveNeedsBothBlocks => here.iter().all(|block| moved.pair.contains(block)),
            Fault::MoveNeedsOrder => here == moved.pair,
            _ => here.iter().any(|block| moved.pair.contains(block)),
        };
        let some = match self.fault {
            Fault::MoveByWholeType => type_of(moved.tag) != 0,
            _ => type1_of(moved.tag) != 0,
        };
        if !some || !shared || self.has(Fault::MoveIgnored) {
            return Some(0);
        }
        if id_of(moved.tag) == id {
            return None;
        }
        match id_of(moved.tag) < id && !self.has(Fault::MoveLowersNothing) {
            true => Some(0u32.wrapping_sub(ONE_ID)),
            false => Some(0),
        }
    }

    /// "The walk goes back from end and end tag while the offset is at least 4
    /// plus the tag's length. Bit 31 of each earlier tag is cleared. Key and
    /// running difference are 32-bit words that wrap."
    fn find(&self, input: &Lookup, block: &[u8], query: Query) -> Option<Found> {
        let Query { mask, key, .. } = query;
        let ids = mask & ID_BITS != 0 || self.has(Fault::MaskNeedsNoIds);
        let mut difference = match ids {
            true => self.pending(input, id_of(key))?,
            false => 0,
        };
        let (mut at, mut next) = (input.dir.off as usize, self.end_tag(input.dir.etag));
        while at >= self.least_offset() + length_of(next) {
            at -= length_of(next);
            let tag = next;
            next = self.earlier(be32(block, at)? ^ tag);
            if self.has(Fault::MatchBeforeSplice) && matches(mask, tag, key, difference) {
                return self.found(tag, at, difference);
            }
            if self.has(Fault::MoveAtAdjustedId) && ids {
                self.pending(input, id_of(key.wrapping_sub(difference)))?;
            }
            if ids && type1_of(tag) == SPLICE {
                difference = self.splice_back(tag, key, difference)?;
            }
            if matches(mask, tag, self.key(key), difference) {
                return self.found(tag, at, difference);
            }
            if self.has(Fault::SearchEndsAtCheck) && type2_of(next) == CHECK {
                break;
            }
        }
        None
    }

    fn end_tag(&self, tag: u32) -> u32 {
        match self.fault {
            Fault::EndTagCleared => tag & !INVALID,
            _ => tag,
        }
    }

    fn earlier(&self, tag: u32) -> u32 {
        match self.fault {
            Fault::Bit31Kept => tag,
            _ => tag & !INVALID,
        }
    }

    fn key(&self, key: u32) -> u32 {
        match self.fault {
            Fault::KeyCleared => key & !INVALID,
            _ => key,
        }
    }

    fn least_offset(&self) -> usize {
        match self.fault {
            Fault::FirstTagUnread => 5,
            Fault::RevisionIsATag => 0,
            _ => 4,
        }
    }

    /// "each splice at or below the adjusted id answers -2 if it is exactly
    /// create at that id with size 0, else adds its splice, as ids, to the
    /// difference"
    fn splice_back(&self, tag: u32, key: u32, difference: u32) -> Option<u32> {
        let adjusted = key.wrapping_sub(difference);
        let reached = match self.fault {
            Fault::IdOf16Bits => id_of(tag) <= adjusted >> 10 & 0xffff,
            Fault::SpliceBelowOnly => id_of(tag) < id_of(adjusted),
            Fault::SpliceAtPlainId => id_of(tag) <= id_of(key),
            _ => id_of(tag) <= id_of(adjusted),
        };
        if !reached {
            return Some(difference);
        }
        let created = CREATE << 20 | adjusted & ID_BITS;
        let at_create = match self.fault {
            Fault::CreateOfAnySize => tag & !0x3ff == created,
            Fault::CreateWithoutBit31 => tag & !INVALID == created,
            Fault::CreateUnseen => false,
            _ => tag == created,
        };
        let ids = splice_of(tag) as u32;
        match self.fault {
            _ if at_create => None,
            Fault::DifferenceStaysInId => {
                Some(difference.wrapping_add(ids.wrapping_mul(ONE_ID)) & ID_BITS)
            }
            Fault::SplicesAreOne => {
                Some(difference.wrapping_add((ids as i32).signum() as u32 * ONE_ID))
            }
            _ => Some(difference.wrapping_add(ids.wrapping_mul(ONE_ID))),
        }
    }

    /// "A match that is a removal answers -2."
    fn found(&self, tag: u32, at: usize, difference: u32) -> Option<Found> {
        let removed = is_removal(tag) && !self.has(Fault::RemovalAnswers);
        (!removed).then_some(Found {
            tag,
            at,
            difference,
        })
    }

    /// "min(size, buffer length) bytes are read from the entry's first data byte
    /// plus the offset, also where that runs into the next entry; the rest of
    /// the buffer is zeroed. The answer is the tag plus the difference." Document
    /// 02, L3: "the stored length and the offset of the first data byte beside the
    /// tag".
    fn read(&self, block: &[u8], found: &Found, offset: u32, buffer: &mut [u8]) -> Got {
        let size = size_of(found.tag) as usize;
        let length = match self.fault {
            Fault::ReadStopsAtEntry => size.saturating_sub(offset as usize).min(buffer.len()),
            Fault::ReadFillsBuffer => buffer.len(),
            _ => size.min(buffer.len()),
        };
        let start = match self.fault {
            Fault::OffsetWraps => (found.at as u32).wrapping_add(4).wrapping_add(offset) as usize,
            Fault::OffsetFromTag => found.at + offset as usize,
            _ => found.at + 4 + offset as usize,
        };
        let empty = length == 0 && self.has(Fault::EmptyReadMayPass);
        let bytes = match block.get(start..start + length) {
            Some(bytes) => bytes,
            None if empty => &[],
            None if self.has(Fault::PastIsNoent) => return Got::refused(NOENT),
            None => return Got::refused(CORRUPT),
        };
        let (read, rest) = buffer.split_at_mut(bytes.len());
        read.copy_from_slice(bytes);
        if !self.has(Fault::RestUnzeroed) {
            rest.fill(0);
        }
        let tag = match self.fault {
            Fault::AnswerWithoutDifference => found.tag,
            Fault::AnswerMinusDifference => found.tag.wrapping_sub(found.difference),
            _ => found.tag.wrapping_add(found.difference),
        };
        let error = tag & INVALID != 0 && self.has(Fault::Bit31IsError);
        match error {
            true => Got::refused(tag as i32),
            false => Got {
                result: 0,
                tag,
                length: self.stored_length(found, buffer.len()),
                off: self.first_data_byte(found, offset),
            },
        }
    }

    /// Of the tag as it stands in the log: "4 plus size".
    fn stored_length(&self, found: &Found, room: usize) -> u32 {
        let length = length_of(found.tag) as u32;
        match self.fault {
            Fault::LengthWithoutTag => length - 4,
            Fault::LengthCutToBuffer => length.min(4 + room as u32),
            _ => length,
        }
    }

    fn first_data_byte(&self, found: &Found, offset: u32) -> u32 {
        let tag_at = found.at as u32;
        match self.fault {
            Fault::PlaceOfTag => tag_at,
            Fault::PlaceWithOffset => (tag_at + 4).wrapping_add(offset),
            _ => tag_at + 4,
        }
    }
}

fn matches(mask: u32, tag: u32, key: u32, difference: u32) -> bool {
    mask & tag == mask & key.wrapping_sub(difference)
}
