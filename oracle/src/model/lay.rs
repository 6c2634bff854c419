//! The bytes of one commit: "tags chained as above, data, then a check tag
//! 0x500, id 1,023, and the checksum little-endian", where "the check tag is 0x500
//! for 0xff and 0x501 for 0x00" (document 02, L7); and before the check tag the
//! forward check, which `forward` makes.
//!
//! Assumes nothing: a size that a tag cannot have is cut to its ten bits.

use super::forward::{unit, FORWARD_LENGTH};
use super::{bytes::*, tag::*, WriteFault};
use crate::calls::{Geometry, Mdir};

/// A commit being laid.
pub struct Lay {
    pub fault: WriteFault,
    /// Where the first of its bytes will stand.
    pub start: usize,
    pub bytes: Vec<u8>,
    pub previous: u32,
    pub sum: u32,
    /// The byte that the flash erases to.
    pub erased: u8,
    /// The record before the call: only faults look at it.
    pub old: Mdir,
}

/// A commit with its check: where it ends, and whether it coincides.
pub struct Laid {
    pub start: usize,
    pub bytes: Vec<u8>,
    pub end: usize,
    pub coincides: bool,
    /// Where in its bytes the forward check stands, if it carries one.
    pub forward: Option<usize>,
}

impl Laid {
    /// Where it would end with a forward check, carried or not.
    pub fn end_with_forward(&self, geometry: Geometry) -> usize {
        let stored = self.start + self.bytes.len();
        match self.forward {
            Some(_) => self.end,
            None => (stored + FORWARD_LENGTH).next_multiple_of(unit(geometry)),
        }
    }
}

impl Lay {
    fn has(&self, fault: WriteFault) -> bool {
        self.fault == fault
    }

    fn raw(&self, tag: u32) -> [u8; 4] {
        match self.fault {
            WriteFault::TagsUnchained => tag.to_be_bytes(),
            WriteFault::TagsLittleEndian => (tag ^ self.previous).to_le_bytes(),
            _ => (tag ^ self.previous).to_be_bytes(),
        }
    }

    pub fn put(&mut self, type_: u32, id: u32, size: u32, data: &[u8]) {
        let tag = tag_of(type_ & 0x7ff, id, size);
        let raw = self.raw(tag);
        for part in [&raw[..], data] {
            self.bytes.extend(part);
            self.sum = crc(self.sum, part);
        }
        self.previous = tag;
    }

    /// "Its size, 4 or more, is the least that ends on a multiple of the program
    /// size"
    fn check_tag(&self, prog: usize) -> (u32, usize) {
        let at = self.start + self.bytes.len();
        let mut end = (at + 8).next_multiple_of(prog);
        match self.fault {
            WriteFault::CheckOneUnitLong => end += prog,
            WriteFault::CheckUnpadded => end = at + 8,
            WriteFault::AlignedByMask => end = (at + 8 + prog - 1) & !(prog - 1),
            WriteFault::AlignedFromStart => {
                end = self.start + (self.bytes.len() + 8).next_multiple_of(prog);
            }
            _ => {}
        }
        let id = match self.fault {
            WriteFault::CheckHasId0 => 0,
            _ => NO_SLOT,
        };
        let size = end.saturating_sub(at + 4) as u32 & 0x3ff;
        (tag_of(self.check_type(), id, size), end)
    }

    /// "The check tag is 0x500 for 0xff and 0x501 for 0x00": its low chunk bit says
    /// which validity bit the next tag must have, and erased bytes have the other.
    fn check_type(&self) -> u32 {
        match (self.fault, self.erased) {
            (WriteFault::CheckIs500For00, _) => CHECK,
            (WriteFault::CheckIs501ForFf, _) => CHECK + 1,
            (WriteFault::CheckOfOldKind, _) => CHECK + (self.old.etag >> 31),
            (_, 0x00) => CHECK + 1,
            _ => CHECK,
        }
    }

    /// The forward check, if there is one, and the check.
    pub fn finish(mut self, geometry: Geometry) -> Laid {
        let (before, carries) = (self.sum, self.carries(geometry));
        let behind = carries && self.has(WriteFault::ForwardBehindCheck);
        let forward = (carries && !behind).then_some(self.bytes.len());
        if forward.is_some() {
            self.put_forward(geometry);
        }
        let (tag, end) = self.check_tag(unit(geometry));
        let raw = self.raw(tag);
        let coincides = match self.fault {
            WriteFault::CoincidenceWithoutForward => self.coincides(before, raw),
            WriteFault::CoincidenceOfUnchained => self.coincides(self.sum, tag.to_be_bytes()),
            _ => self.coincides(self.sum, raw),
        };
        self.bytes.extend(raw);
        self.bytes.extend(self.checksum(raw));
        if behind {
            self.previous = tag;
            self.put_forward(geometry);
        }
        if self.has(WriteFault::PaddingStored) {
            let length = end.saturating_sub(self.start);
            self.bytes.resize(length.max(self.bytes.len()), self.erased);
        }
        let Lay { start, bytes, .. } = self;
        Laid {
            start,
            bytes,
            end,
            coincides,
            forward,
        }
    }

    /// "the checksum little-endian", with the check tag in it.
    fn checksum(&self, raw: [u8; 4]) -> [u8; 4] {
        let sum = match self.fault {
            WriteFault::CheckTagUnsummed => self.sum,
            _ => crc(self.sum, &raw),
        };
        match self.fault {
            WriteFault::ChecksumBigEndian => sum.to_be_bytes(),
            WriteFault::ChecksumInverted => (!sum).to_le_bytes(),
            _ => sum.to_le_bytes(),
        }
    }

    /// "put 1, 2 or 3 bytes of the check tag and fill its four with 0xff; if any
    /// of the three checksums is 0xffffffff", where "the coincidence fills with and
    /// compares against erased bytes". The register is the one before the tag.
    fn coincides(&self, register: u32, raw: [u8; 4]) -> bool {
        let puts: &[usize] = match self.fault {
            WriteFault::CoincidenceUntested => &[],
            WriteFault::CoincidenceWithout1 => &[2, 3],
            WriteFault::CoincidenceWithout2 => &[1, 3],
            WriteFault::CoincidenceWithout3 => &[1, 2],
            WriteFault::CoincidenceWith0 => &[0, 1, 2, 3],
            WriteFault::CoincidenceWith4 => &[1, 2, 3, 4],
            _ => &[1, 2, 3],
        };
        let fill = match self.fault {
            WriteFault::CoincidenceFillsWithFf => 0xff,
            _ => self.erased,
        };
        puts.iter().any(|&put| {
            let mut four = [fill; 4];
            for (byte, real) in four.iter_mut().zip(raw).take(put) {
                *byte = real;
            }
            self.is_erased(crc(register, &four))
        })
    }

    /// Whether a checksum is four erased bytes, as the walk reads them behind a tag.
    fn is_erased(&self, sum: u32) -> bool {
        match self.fault {
            WriteFault::CoincidenceAgainstOnes => sum == ONES,
            WriteFault::CoincidenceAgainstBoth => sum == ONES || sum == 0,
            _ => sum == u32::from_le_bytes([self.erased; 4]),
        }
    }
}
