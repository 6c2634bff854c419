//! "-22: a size or number above is broken", for the images and for a record.
//!
//! Assumes nothing.

use super::{Fault, Model};
use crate::calls::{Blocks, Lookup};

/// "Lookup buffer [..] at most 65,536 bytes"
pub const LONGEST_BUFFER: usize = 65_536;

impl Model {
    /// "Block size 128 to 32,768; program size 4 to 512; block size a multiple
    /// of it. Two images, each exactly one block long. Two block numbers, not
    /// equal."
    pub(super) fn blocks_fit(&self, blocks: &Blocks) -> bool {
        let (block, prog) = (blocks.geometry.block_size, blocks.geometry.prog_size);
        let block_sizes = match self.fault {
            Fault::BlockSize127 => 127..=32_768,
            Fault::BlockSizeAbove => 128..=65_536,
            _ => 128..=32_768,
        };
        let prog_sizes = match self.fault {
            Fault::ProgSize3 => 3..=512,
            Fault::ProgSize513 => 4..=513,
            _ => 4..=512,
        };
        let [b0, b1] = blocks.images.map(|image| image.len() == block as usize);
        let [n0, n1] = blocks.numbers;
        block_sizes.contains(&block)
            && prog_sizes.contains(&prog)
            && (block % prog == 0 || self.has(Fault::NoMultiple))
            && (b0 || self.has(Fault::FirstImageOfAnyLength))
            && (b1 || self.has(Fault::SecondImageOfAnyLength))
            && (n0 != n1 || self.has(Fault::EqualNumbers))
    }

    /// "which also covers a record whose pair isn't the two given numbers in
    /// either order or whose end passes the block"
    pub(super) fn record_fits(&self, input: &Lookup) -> bool {
        let ([n0, n1], end) = (input.blocks.numbers, input.dir.off);
        let block = input.blocks.geometry.block_size;
        let either = input.dir.pair == [n1, n0] && !self.has(Fault::PairInOrder);
        let ends = match self.fault {
            Fault::EndPastBlock => true,
            Fault::EndAtBlock => end < block,
            _ => end <= block,
        };
        let pair = input.dir.pair == [n0, n1] || either || self.has(Fault::AnyPair);
        self.blocks_fit(&input.blocks) && pair && ends
    }

    pub(super) fn buffer_fits(&self, buffer: &[u8]) -> bool {
        let longest = match self.fault {
            Fault::Buffer65537 => LONGEST_BUFFER + 1,
            Fault::Buffer65535 => LONGEST_BUFFER - 1,
            _ => LONGEST_BUFFER,
        };
        buffer.len() <= longest
    }
}
