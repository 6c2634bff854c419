//! A log written into an erased block, tag by tag.
//!
//! It writes whatever it is asked to, so that logs come out that no file system
//! would write: any tag, any data, checks of any size.
//!
//! Assumes nothing: what does not fit is not written.

use crate::model::{be32, chunk_of, crc, length_of, CHECK, INVALID, ONES};

pub struct Log {
    pub bytes: Vec<u8>,
    /// The byte that the flash erases to: what is laid for it says so.
    pub erased: u8,
    /// Where the next tag stands.
    at: usize,
    /// Up to where bytes are laid: behind a check's padding, or a short one's
    /// checksum, that is another place.
    laid: usize,
    previous: u32,
    sum: u32,
    /// Where the commits end.
    pub ends: Vec<usize>,
}

/// The byte that the room behind a commit is erased to, if its check was laid for it:
/// "the check tag's low chunk bit [..] say[s] which validity bit the next tag must have".
pub fn erased_behind(end_tag: u32) -> u8 {
    match end_tag & INVALID {
        0 => 0xff,
        _ => 0x00,
    }
}

impl Log {
    pub fn new(block_size: usize, revision: u32) -> Log {
        Log::on(0xff, block_size, revision)
    }

    /// On flash that erases to this byte.
    pub fn on(erased: u8, block_size: usize, revision: u32) -> Log {
        let mut bytes = vec![erased; block_size];
        bytes[..4].copy_from_slice(&revision.to_le_bytes());
        Log {
            sum: crc(ONES, &bytes[..4]),
            bytes,
            erased,
            at: 4,
            laid: 4,
            previous: ONES,
            ends: Vec::new(),
        }
    }

    /// A log that goes on behind a commit, over what stands there.
    pub fn behind(bytes: Vec<u8>, erased: u8, end: usize, end_tag: u32) -> Log {
        Log {
            bytes,
            erased,
            at: end,
            laid: end,
            previous: end_tag,
            sum: ONES,
            ends: Vec::new(),
        }
    }

    pub fn at(&self) -> usize {
        self.at
    }

    pub fn room(&self) -> usize {
        self.bytes.len().saturating_sub(self.at)
    }

    /// An entry. Data that are too short for the tag's size end in zeros.
    pub fn put(&mut self, tag: u32, data: &[u8]) -> bool {
        let length = length_of(tag);
        if length > self.room() {
            return false;
        }
        let mut entry = (tag ^ self.previous).to_be_bytes().to_vec();
        entry.extend(data);
        entry.resize(length, 0);
        self.bytes[self.at..self.at + length].copy_from_slice(&entry);
        self.sum = crc(self.sum, &entry);
        self.at += length;
        self.laid = self.at;
        self.previous = tag;
        true
    }

    /// The type of a check that is laid for the flash: "0x500 for 0xff and 0x501 for
    /// 0x00".
    pub fn check_type(&self) -> u32 {
        CHECK + u32::from(self.erased == 0x00)
    }

    /// Erases all behind the log, as another board might.
    pub fn erase_rest(&mut self) {
        let end = self.at.max(self.laid);
        let rest = self.bytes.get_mut(end..).unwrap_or_default();
        rest.fill(self.erased);
    }

    /// A commit check whose checksum fits. Only its eight bytes must have room:
    /// a size that passes the block is written as it is.
    pub fn check(&mut self, tag: u32) -> bool {
        if self.room() < 8 {
            return false;
        }
        let raw = (tag ^ self.previous).to_be_bytes();
        let sum = crc(self.sum, &raw);
        self.bytes[self.at..self.at + 4].copy_from_slice(&raw);
        self.bytes[self.at + 4..self.at + 8].copy_from_slice(&sum.to_le_bytes());
        self.laid = self.at + 8;
        self.at += length_of(tag);
        self.previous = tag ^ (chunk_of(tag) & 1) << 31;
        self.sum = ONES;
        self.ends.push(self.at);
        true
    }

    /// Takes what stands at the next tag's place for an entry. Behind a check of
    /// size below 4 that is the checksum's own bytes.
    pub fn adopt(&mut self) -> bool {
        let Some(raw) = be32(&self.bytes, self.at) else {
            return false;
        };
        let tag = raw ^ self.previous;
        if tag & INVALID != 0 || length_of(tag) > self.room() {
            return false;
        }
        let end = self.at + length_of(tag);
        self.sum = crc(self.sum, &self.bytes[self.at..end]);
        (self.at, self.previous) = (end, tag);
        self.laid = end;
        true
    }

    /// The tag that, written next, stands there as these bytes.
    pub fn tag_for(&self, raw: [u8; 4]) -> u32 {
        u32::from_be_bytes(raw) ^ self.previous
    }

    /// The size of a check that, written after `before` more bytes, ends on a
    /// multiple: the least one of at least 4.
    pub fn check_size(&self, before: usize, multiple: usize) -> u32 {
        let least = self.at + before + 8;
        (least.next_multiple_of(multiple) - least + 4) as u32
    }
}
