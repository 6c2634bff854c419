//! What the flash reads as after an erase: what a call that writes asks of the
//! room behind the log, and erases to.

use crate::names::*;

/// The byte that the flash reads as after an erase. A commit goes where the block
/// still reads as that byte, and a compaction erases to it; fetch, find and the
/// lookups do not ask, and read logs of both kinds, also in one block.
///
/// A pair that was moved to a board of the other byte is read as before. A commit
/// to it is [`Refusal::WrongValidity`](crate::Refusal::WrongValidity), or
/// [`Refusal::NotErased`](crate::Refusal::NotErased) where only the room is of the
/// other byte; a compaction with the new board's byte heals it.
///
/// ```
/// use lanolin::{Erased, Geometry, PairMut, Refusal, Rules};
///
/// # let mut image = *include_bytes!(concat!(env!("CARGO_MANIFEST_DIR"), "/../../samples/q212.pair"));
/// # let (b0, b1) = image.split_at_mut(128);
/// # let geometry = Geometry { block_size: 128, prog_size: 16 };
/// # let mut pair = PairMut { geometry, images: [b0, b1], numbers: [0, 1] };
/// // Written on flash that erases to 0xff, and now on flash that erases to 0x00.
/// let (rules, erased) = (Rules::Document, Erased::Zeros);
/// let moved = pair.commit(0, 0, rules, erased, &[], &[]);
/// assert_eq!(moved, Err(Refusal::WrongValidity));
/// pair.compact(0, 0, rules, erased)?;
/// pair.commit(0, 0, rules, erased, &[], &[])?;
/// # Ok::<(), lanolin::Refusal>(())
/// ```
#[derive(Clone, Copy, Debug, Default, PartialEq, Eq)]
pub enum Erased {
    /// 0xff, as most flash.
    #[default]
    Ones,
    /// 0x00.
    Zeros,
}

impl Erased {
    /// The byte that the archive takes: one of the `ERASED_` names.
    pub fn byte(self) -> u8 {
        match self {
            Erased::Ones => ERASED_ONES,
            Erased::Zeros => ERASED_ZEROS,
        }
    }
}
