//! The forward check that a commit carries: "When at least one whole program unit
//! follows the new end, counted with the added bytes, a commit shall carry, before
//! its check tag, a forward check entry: program size and the checksum of that
//! erased unit." (document 02, L5) Erased is the byte that L7 takes as an input.
//!
//! Assumes nothing.

use super::lay::Lay;
use super::{bytes::*, tag::*, WriteFault};
use crate::calls::Geometry;

/// "these 12 bytes": a tag and two words.
pub const FORWARD_LENGTH: usize = 12;
/// A check tag and its checksum.
const CHECK_LENGTH: usize = 8;

impl Lay {
    /// Whether one is carried behind the entries that are laid. Ends and block are
    /// multiples of the program size, so it is all the same whether a whole unit or
    /// a single byte must follow.
    pub(super) fn carries(&self, geometry: Geometry) -> bool {
        let (block, prog) = (geometry.block_size as usize, unit(geometry));
        let added = match self.fault {
            WriteFault::ForwardUncounted => 0,
            _ => FORWARD_LENGTH,
        };
        let behind = match self.fault {
            WriteFault::ForwardAtBlocksEnd => 0,
            WriteFault::ForwardNeedsTwoUnits => 2 * prog,
            _ => prog,
        };
        let end = self.start + self.bytes.len() + added + CHECK_LENGTH;
        let fits = end.next_multiple_of(prog) + behind <= block;
        let compacts = self.start == 0;
        match self.fault {
            WriteFault::ForwardAlways => true,
            WriteFault::ForwardNever => false,
            WriteFault::ForwardUncompacted => fits && !compacts,
            WriteFault::ForwardInCompactions => fits && compacts,
            WriteFault::ForwardOnce => fits && (compacts || self.old.forward == 0),
            _ => fits,
        }
    }

    /// The entry, chained, stored and summed as any other.
    pub(super) fn put_forward(&mut self, geometry: Geometry) {
        let (previous, sum) = (self.previous, self.sum);
        let type_ = match self.fault {
            WriteFault::ForwardIs5fe => FORWARD - 1,
            _ => FORWARD,
        };
        let id = match self.fault {
            WriteFault::ForwardHasId0 => 0,
            _ => NO_SLOT,
        };
        let data = self.forward_data(geometry);
        self.put(type_, id, data.len() as u32, &data);
        match self.fault {
            WriteFault::ForwardUnchained => self.previous = previous,
            WriteFault::ForwardUnsummed => self.sum = sum,
            _ => {}
        }
    }

    /// "the program size, and the checksum [..] over that many erased bytes, both
    /// little-endian"
    fn forward_data(&self, geometry: Geometry) -> Vec<u8> {
        let (prog, block) = (unit(geometry), geometry.block_size as usize);
        let end = self.start + self.bytes.len() + FORWARD_LENGTH + CHECK_LENGTH;
        let size = match self.fault {
            WriteFault::ForwardOfTheRest => block.saturating_sub(end.next_multiple_of(prog)),
            _ => prog,
        };
        let (from, covered) = match self.fault {
            WriteFault::ForwardSumOneMore => (ONES, size + 1),
            WriteFault::ForwardSumOneLess => (ONES, size.saturating_sub(1)),
            WriteFault::ForwardSumFromZero => (0, size),
            _ => (ONES, size),
        };
        let erased = match self.fault {
            WriteFault::ForwardSumOfZeros => 0x00,
            WriteFault::ForwardSumOfOnes => 0xff,
            _ => self.erased,
        };
        let sum = match (self.fault, crc(from, &vec![erased; covered])) {
            (WriteFault::ForwardSumInverted, sum) => !sum,
            (_, sum) => sum,
        };
        let mut words = [(size as u32).to_le_bytes(), sum.to_le_bytes()];
        match self.fault {
            WriteFault::ForwardSizeBigEndian => words[0].reverse(),
            WriteFault::ForwardSumBigEndian => words[1].reverse(),
            WriteFault::ForwardSumFirst => words.swap(0, 1),
            _ => {}
        }
        words.concat()
    }
}

/// Program sizes of the domain only: 0 is taken for 1.
pub(super) fn unit(geometry: Geometry) -> usize {
    geometry.prog_size.max(1) as usize
}
