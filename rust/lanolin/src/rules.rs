//! Which logs are regular: what finding by name, an index, and a call that writes
//! ask of the log that is there.

use crate::names::*;

/// The rules by which the log of a pair is regular. Of any other log a find, an
/// index, a commit or a compaction is
/// [`Refusal::Irregular`](crate::Refusal::Irregular); fetch and the lookups read it.
///
/// Use [`Rules::Document`], the default, for pairs that this library wrote. Use
/// [`Rules::Littlefs`] where littlefs itself wrote to the pair: its compaction
/// writes no creates. Every log that the first takes the second takes too, and
/// the call answers and writes the same.
///
/// The entries of a commit are judged as [`Entry`](crate::Entry) says under both,
/// and what a compaction writes is regular by both.
///
/// There may be more of them one day, so that a `match` needs a last arm.
///
/// ```
/// use lanolin::{Erased, Geometry, PairMut, Refusal, Rules};
///
/// // A pair that a real littlefs wrote.
/// let mut image = *include_bytes!(concat!(
///     env!("CARGO_MANIFEST_DIR"),
///     "/../../samples/real/attrs-512-0-1.pair"
/// ));
/// let (b0, b1) = image.split_at_mut(512);
/// let geometry = Geometry { block_size: 512, prog_size: 16 };
/// let mut pair = PairMut { geometry, images: [b0, b1], numbers: [0, 1] };
/// let mut compact = |rules| pair.compact(0, 0, rules, Erased::Ones);
/// assert_eq!(compact(Rules::Document), Err(Refusal::Irregular));
/// compact(Rules::Littlefs)?;
/// // What was compacted here has its creates.
/// compact(Rules::Document)?;
/// # Ok::<(), lanolin::Refusal>(())
/// ```
#[non_exhaustive]
#[derive(Clone, Copy, Debug, Default, PartialEq, Eq)]
pub enum Rules {
    /// Document 01's: a slot is made by a create alone.
    #[default]
    Document,
    /// littlefs's too: as long as no create and no delete has come in the log, a
    /// name whose id is at or above the number of slots makes its slot first, and
    /// those in between, empty.
    Littlefs,
}

impl Rules {
    /// The number that the archive takes: one of the `RULES_` names.
    pub fn number(self) -> u32 {
        match self {
            Rules::Document => RULES_DOCUMENT,
            Rules::Littlefs => RULES_LITTLEFS,
        }
    }
}
