//! What is left in a table: the places, and zeros behind them; or nothing but zeros
//! where there are too many.
//!
//! Assumes nothing.

use super::places::Places;
use super::seats::Seats;
use super::{Indexer, Placed};
use crate::calls::index::{Indexed, TABLE_FULL};
use crate::calls::write::IRREGULAR;
use crate::calls::INVAL;
use crate::model::{tag::*, IndexFault};

/// The places that a log comes to, as words, or that there are too many: then those
/// that were there by then, which only a fault looks at.
pub(super) type Held = Result<Vec<u32>, Vec<u32>>;

impl Indexer {
    /// "-221 exactly when after SOME entry of the log more are live than the table has
    /// places (the peak counts, not the end)": in so many words.
    pub(super) fn built(&self, log: &[Placed], words: usize) -> Held {
        let mut seats = Seats::new(self.fault);
        for (i, entry) in log.iter().enumerate() {
            seats.follow(entry);
            let judged = match self.fault {
                IndexFault::FullAtEnd => i + 1 == log.len(),
                IndexFault::FullAtCommits => type2_of(entry.tag) == CHECK,
                _ => true,
            };
            if judged && self.too_many(2 * seats.live(), words) {
                return Err(seats.words());
            }
        }
        Ok(seats.words())
    }

    fn too_many(&self, live: usize, words: usize) -> bool {
        match self.fault {
            IndexFault::FullAtLastPlace => live > 0 && live + 2 > words,
            IndexFault::OneMoreTaken => live > words + 2,
            IndexFault::OddWordIsPlace => live > words.next_multiple_of(2),
            _ => live > words,
        }
    }

    /// More entries on the places of a table, whatever it is.
    pub(super) fn ran_on(&self, table: &[u32], new: &[Placed]) -> Held {
        let mut places = Places::leading(self.fault, table);
        for (i, entry) in new.iter().enumerate() {
            places.follow(entry);
            let judged = i + 1 == new.len() || !self.has(IndexFault::ExtendFullAtEnd);
            if judged && self.too_many(places.words.len(), table.len()) {
                return Err(places.words);
            }
        }
        Ok(places.words)
    }

    /// "-202 .., table unchanged"; as on -22.
    pub(super) fn refuse(&self, refusal: i32, table: &mut [u32]) -> Indexed {
        match self.fault {
            IndexFault::IrregularZeroes if refusal == IRREGULAR => table.fill(0),
            IndexFault::InvalidZeroes if refusal == INVAL => table.fill(0),
            IndexFault::EmptyTableFirst if refusal == IRREGULAR && table.len() < 2 => {
                return Indexed::refused(TABLE_FULL);
            }
            _ => {}
        }
        Indexed::refused(refusal)
    }

    /// "unused places are zero and stand last, as is an odd last word"; of -221: "and the
    /// table is then all zero".
    pub(super) fn fill(&self, held: Held, table: &mut [u32]) -> Indexed {
        let full = held.is_err();
        let words = match (held, self.fault) {
            (Err(_), IndexFault::FullLeavesTable) => return Indexed::refused(TABLE_FULL),
            (Err(words), IndexFault::FullLeavesPlaces) => words,
            (Err(_), _) => Vec::new(),
            (Ok(words), _) => words,
        };
        let whole_places = table.len() / 2 * 2;
        let unused = match self.fault {
            IndexFault::UnusedLeft if !full => table.len()..table.len(),
            IndexFault::OddWordLeft if !full => words.len()..whole_places,
            IndexFault::FullLeavesOddWord if full => 0..whole_places,
            _ => words.len()..table.len(),
        };
        for (to, from) in table.iter_mut().zip(&words) {
            *to = *from;
        }
        table.get_mut(unused).unwrap_or_default().fill(0);
        match (full, self.fault) {
            (true, IndexFault::FullTellsPlaces) => Indexed {
                result: TABLE_FULL,
                places: table.len() as u32 / 2,
            },
            (true, _) => Indexed::refused(TABLE_FULL),
            (false, IndexFault::PlacesAreWords) => Indexed::of(words.len()),
            (false, IndexFault::PlacesAreRoom) => Indexed::of(table.len() / 2),
            (false, _) => Indexed::of(words.len() / 2),
        }
    }
}
