//! Records and seeds that nobody answered: one field altered, or all made up.
//!
//! Assumes nothing.

use super::inputs::{Given, History, Known};
use super::start::ends_in;
use crate::calls::refetch::Refetches;
use crate::calls::write::Writes;
use crate::calls::{Mdir, Voice};
use crate::model::*;

impl<F: Refetches, W: Writes, R: Voice> History<'_, F, W, R> {
    pub(super) fn another_seed(&mut self, known: Known) -> Given {
        Given {
            kind: "another seed",
            seed: [0, self.case.seed, self.random.word()][self.random.below(3)],
            ..self.as_it_was(known)
        }
    }

    /// Everything made up. Where nothing is known, all records are.
    pub(super) fn made_up(&mut self) -> Given {
        let [n0, n1] = self.case.numbers;
        let pair = [[n0, n1], [n1, n0]][self.random.below(2)];
        let nothing = Mdir {
            pair,
            off: 8,
            etag: tag_of(CHECK, NO_SLOT, 4),
            ..Mdir::default()
        };
        let known = self.known.map_or(nothing, |known| known.dir);
        let mut dir = Mdir { pair, ..known };
        self.end(&mut dir);
        for field in 1..FIELDS {
            if self.random.below(4) > 0 {
                self.field(&mut dir, field);
            }
        }
        Given {
            kind: "a made-up record",
            case: self.case.clone(),
            dir,
            seed: self.random.word(),
            answered: None,
        }
    }

    /// One field of a record made up.
    pub(super) fn one_field(&mut self, known: Known) -> Given {
        let mut given = self.as_it_was(known);
        let field = self.random.below(FIELDS);
        given.kind = self.field(&mut given.dir, field);
        given
    }

    fn field(&mut self, dir: &mut Mdir, field: usize) -> &'static str {
        match field {
            0 => self.end(dir),
            1 => dir.etag = self.end_tag(dir.etag),
            2 => {
                let counts = [0, 1022, 1023, 1024, 65_535, self.random.word() as u16];
                dir.count = counts[self.random.below(counts.len())];
            }
            3 => dir.tail = [self.random.word(), self.random.word()],
            4 => dir.split ^= 1,
            5 => dir.rev = self.random.word(),
            6 => dir.erased ^= 1,
            7 => dir.pair.swap(0, 1),
            _ => self.forward(dir),
        }
        KINDS[field.min(FIELDS - 1)]
    }

    /// Behind another commit of the log, on a program unit, or anywhere.
    fn end(&mut self, dir: &mut Mdir) {
        let (which, geometry) = (self.answering(dir), self.case.geometry);
        let (block, prog) = (geometry.block_size, geometry.prog_size.max(1));
        let ends = ends_in(&self.case.images[which]);
        match (self.random.below(4), ends.len()) {
            (0 | 1, 1..) => (dir.off, dir.etag) = ends[self.random.below(ends.len())],
            (2, _) => dir.off = prog * self.random.below((block / prog) as usize + 1) as u32,
            _ => dir.off = self.random.below(block as usize + 2) as u32,
        }
    }

    /// Of a check or not, with bit 31 or without.
    fn end_tag(&mut self, known: u32) -> u32 {
        let any = self.random.word();
        match self.random.below(5) {
            0 => any,
            1 => known ^ INVALID,
            // The next tag is as valid as before.
            2 => known & INVALID | any & !INVALID,
            3 => known ^ (0x80 << 20),
            _ => tag_of(CHECK + (any & 0x7f), NO_SLOT, any >> 16) | any & INVALID,
        }
    }

    /// One that fits what stands behind the end, or not; past the block, also so far
    /// that end and length wrap; none, with words that would fit.
    fn forward(&mut self, dir: &mut Mdir) {
        let block = &self.case.images[self.answering(dir)];
        let rest = block.get(dir.off as usize..).unwrap_or_default();
        let (left, prog) = (rest.len() as u32, self.case.geometry.prog_size);
        let lengths = [
            0,
            prog,
            left,
            left + 1,
            self.random.below(rest.len() + 1) as u32,
            u32::MAX,
            0u32.wrapping_sub(dir.off),
            self.random.word(),
        ];
        let length = lengths[self.random.below(lengths.len())];
        let covered = rest.get(..length as usize).unwrap_or(rest);
        dir.forward = [1, 1, 0][self.random.below(3)];
        dir.forward_size = length;
        dir.forward_sum = match self.random.below(4) {
            0 => self.random.word(),
            _ => crc(ONES, covered),
        };
    }
}

const FIELDS: usize = KINDS.len();
const KINDS: [&str; 9] = [
    "the record's end",
    "the record's end tag",
    "the record's count",
    "the record's tail",
    "the record's split",
    "the record's revision",
    "the record's erased mark",
    "the record's pair, in the other order",
    "the record's forward check",
];
