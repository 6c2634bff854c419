//! Refusals: document 01's numbers as an enum, one case for each line of its
//! table, with what comes back; in the place of its -203 three cases say why
//! there is no room, and one is the index's. The cases and their names are those
//! of `crates/format/src/lib.rt`.
//!
//! That a call gives no other answers than its own is proved (`fetch-possible`,
//! `getslice-possible`, `find-possible`, `commit-possible`, `compact-possible`), of the archive of
//! this repository. A number of another archive is handed on as it is: a
//! controller is not to stop for it.

use crate::names::*;
use crate::{Fetched, Record};
use core::fmt;

/// Why a call was refused. A refused call alters no byte of what it was lent, but
/// for the table of an index: with [`Refusal::TableFull`] it is all zero, and
/// [`PairMut::compact_with`](crate::PairMut::compact_with) has used it also where it
/// then can't write.
///
/// There may be more of them one day, so that a `match` needs a last arm. What
/// is right there is what is right for [`Refusal::Unknown`]: not to repeat the
/// call, and to report [`Refusal::number`].
#[non_exhaustive]
#[derive(Clone, Copy, Debug, PartialEq, Eq)]
pub enum Refusal {
    /// -22: a size or number is broken.
    Invalid,
    /// -84: no block begins with a valid commit, or a block number is too high;
    /// of a lookup, the matched bytes pass the block.
    Corrupt,
    /// -2 of a lookup: no entry.
    NoEntry,
    /// -2 of fetch, find, commit and compaction: a count above 1,023. Record and
    /// seed as read.
    TooMany(Fetched),
    /// -201: an entry is bad; the index from 0 of the first bad one. Commit only.
    BadEntry(u32),
    /// -202: the committed log isn't regular by the [`Rules`](crate::Rules) given.
    /// Find, index, commit and compaction; of an index also where no commit ends at the
    /// record's end.
    Irregular,
    /// -28: the rounded end passes the block. Commit and compaction; of a
    /// compaction also where the creates of a block that littlefs compacted have
    /// no room.
    NoSpace,
    /// -211: the log's end is no multiple of the program size. Commit only.
    Misaligned,
    /// -212: the end tag has the wrong validity bit for the
    /// [`Erased`](crate::Erased) byte given, as in a pair that comes from a board of
    /// the other. Commit only.
    WrongValidity,
    /// -213: a byte behind the end isn't erased; the offset in the block of the
    /// first such byte. Commit only.
    NotErased(u32),
    /// -204: the checksum coincidence, in which a commit cut short could be
    /// taken for a whole one. Commit and compaction.
    Coincidence,
    /// -221: after some entry of the log more are live than the table of an
    /// [`Index`](crate::Index) has places. The table is then all zero. Index only.
    TableFull,
    /// A number that none of these has. The archive of this repository never
    /// answers one; it comes from an archive that is newer than this crate. Of
    /// it nothing is promised here.
    Unknown(i32),
}

impl Refusal {
    /// Document 01's number: one of the `ERR_` names.
    ///
    /// ```
    /// use lanolin::{Refusal, ERR_BADENTRY};
    ///
    /// let refusal = Refusal::BadEntry(3);
    /// assert_eq!(refusal.number(), ERR_BADENTRY);
    /// assert_eq!(refusal.to_string(), "refused, -201: entry 3 is bad");
    /// ```
    pub fn number(self) -> i32 {
        match self {
            Refusal::Invalid => ERR_INVAL,
            Refusal::Corrupt => ERR_CORRUPT,
            Refusal::NoEntry | Refusal::TooMany(_) => ERR_NOENT,
            Refusal::BadEntry(_) => ERR_BADENTRY,
            Refusal::Irregular => ERR_IRREGULAR,
            Refusal::NoSpace => ERR_NOSPC,
            Refusal::Misaligned => ERR_MISALIGNED,
            Refusal::WrongValidity => ERR_VALIDITY,
            Refusal::NotErased(_) => ERR_NOTERASED,
            Refusal::Coincidence => ERR_COINCIDENCE,
            Refusal::TableFull => ERR_TABLE,
            Refusal::Unknown(number) => number,
        }
    }

    /// Whether a compaction makes room for the commit that was refused: compact,
    /// and commit once more.
    ///
    /// ```
    /// use lanolin::Refusal;
    ///
    /// assert!(Refusal::NotErased(48).needs_compaction());
    /// assert!(!Refusal::Irregular.needs_compaction());
    /// ```
    pub fn needs_compaction(self) -> bool {
        matches!(
            self,
            Refusal::NoSpace | Refusal::Misaligned | Refusal::WrongValidity | Refusal::NotErased(_)
        )
    }
}

impl fmt::Display for Refusal {
    fn fmt(&self, f: &mut fmt::Formatter) -> fmt::Result {
        write!(f, "refused, {}: ", self.number())?;
        match self {
            Refusal::Invalid => write!(f, "a size or number is broken"),
            Refusal::Corrupt => write!(f, "nothing valid is there"),
            Refusal::NoEntry => write!(f, "no entry"),
            Refusal::TooMany(_) => write!(f, "more than 1,023 slots"),
            Refusal::BadEntry(index) => write!(f, "entry {index} is bad"),
            Refusal::Irregular => write!(f, "the log isn't regular"),
            Refusal::NoSpace => write!(f, "no space"),
            Refusal::Misaligned => write!(f, "the end is no multiple of the program size"),
            Refusal::WrongValidity => {
                write!(
                    f,
                    "the end tag has the wrong validity bit for the erased byte"
                )
            }
            Refusal::NotErased(offset) => {
                write!(
                    f,
                    "byte {offset} of the block, behind the end, isn't erased"
                )
            }
            Refusal::Coincidence => write!(f, "the checksum coincidence"),
            Refusal::TableFull => write!(f, "the table has too few places"),
            Refusal::Unknown(_) => write!(f, "a number that this crate doesn't know"),
        }
    }
}

impl core::error::Error for Refusal {}

/// The answer of a lookup, or of an index.
pub(crate) fn of_lookup<T>(result: i32, found: T) -> Result<T, Refusal> {
    match result {
        OK => Ok(found),
        ERR_NOENT => Err(Refusal::NoEntry),
        other => Err(refused(other, 0)),
    }
}

/// The answer of fetch, commit or compaction: all three have a record and a
/// seed, and only commit an index or an offset.
pub(crate) fn of_fetch(
    result: i32,
    index: u32,
    record: Record,
    seed: u32,
) -> Result<Fetched, Refusal> {
    let fetched = Fetched { record, seed };
    match result {
        OK => Ok(fetched),
        ERR_NOENT => Err(Refusal::TooMany(fetched)),
        other => Err(refused(other, index)),
    }
}

fn refused(number: i32, index: u32) -> Refusal {
    match number {
        ERR_INVAL => Refusal::Invalid,
        ERR_CORRUPT => Refusal::Corrupt,
        ERR_BADENTRY => Refusal::BadEntry(index),
        ERR_IRREGULAR => Refusal::Irregular,
        ERR_NOSPC => Refusal::NoSpace,
        ERR_MISALIGNED => Refusal::Misaligned,
        ERR_VALIDITY => Refusal::WrongValidity,
        ERR_NOTERASED => Refusal::NotErased(index),
        ERR_COINCIDENCE => Refusal::Coincidence,
        ERR_TABLE => Refusal::TableFull,
        other => Refusal::Unknown(other),
    }
}

#[cfg(test)]
mod tests {
    use super::*;

    /// Every refusal of document 01 comes back under its own number, and a
    /// number that it hasn't is handed on, whatever it is.
    #[test]
    fn numbers_are_kept() {
        for number in [-22, -84, -201, -202, -28, -211, -212, -213, -204, -221] {
            let refusal = refused(number, 0);
            assert_eq!(refusal.number(), number);
            assert!(!matches!(refusal, Refusal::Unknown(_)));
        }
        for number in [-203, -220, -222, -1, 1, i32::MIN, i32::MAX] {
            assert_eq!(refused(number, 0), Refusal::Unknown(number));
            assert_eq!(of_lookup(number, ()), Err(Refusal::Unknown(number)));
            assert_eq!(Refusal::Unknown(number).number(), number);
        }
    }

    /// What comes with a number is its own.
    #[test]
    fn indices_are_kept() {
        assert_eq!(refused(-201, 7), Refusal::BadEntry(7));
        assert_eq!(refused(-213, 7), Refusal::NotErased(7));
    }

    /// A compaction serves what is wanting of room, and nothing else.
    #[test]
    fn compaction_is_for_room() {
        for number in -300..=0 {
            let needs = [-28, -211, -212, -213].contains(&number);
            assert_eq!(refused(number, 7).needs_compaction(), needs, "{number}");
        }
    }
}
