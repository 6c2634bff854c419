//! What stands behind the end: pairs that come to other boards, bytes that aren't
//! erased, and pairs without room for each of the reasons.
//!
//! Assumes nothing.

use super::history::{read, History};
use super::start;

impl History<'_> {
    /// What stands behind the end of the block that answers.
    fn room(&mut self) -> &mut [u8] {
        let record = self.record();
        let which = usize::from(record.pair[0] == self.case.numbers[1]);
        let image = &mut self.case.images[which];
        image.get_mut(record.off as usize..).unwrap_or_default()
    }

    /// The pair comes to a board of any kind that the history knows. The room behind
    /// the end stays as it is, or is erased anew there.
    pub(super) fn moved(&mut self) {
        let (before, anew) = (self.erased, self.random.below(2) == 0);
        self.erased = self.habits.board(&mut self.random);
        if anew && self.erased != before {
            let erased = self.erased;
            self.room().fill(erased);
            self.directory = read(&self.case);
        }
    }

    /// A byte behind the end that isn't erased: near, far or the last; by one bit, or
    /// erased as on other flash.
    pub(super) fn dirt(&mut self) {
        let length = self.room().len();
        if length == 0 {
            return;
        }
        let place = [0, length - 1, self.random.below(length)][self.random.below(3)];
        let bits = [0xff, 1 << self.random.below(8)][self.random.below(2)];
        self.room()[place] ^= bits;
        self.directory = read(&self.case);
        self.good();
    }

    /// A pair without room for one of the reasons, for several at once or for
    /// none. The history stays where it is.
    pub(super) fn no_room(&mut self) {
        let kept = (self.case.clone(), self.directory.clone(), self.stuck);
        self.case = start::no_room(&mut self.random, self.case.geometry);
        self.directory = read(&self.case);
        match self.random.below(4) {
            0 => self.coincidence(),
            1 => self.filled(),
            _ => self.good(),
        }
        (self.case, self.directory, self.stuck) = kept;
    }
}
