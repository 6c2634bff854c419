//! The stores of an accepted call, and the answers.
//!
//! Assumes nothing.

use super::forward::FORWARD_LENGTH;
use super::writer::{fetch, Plan, Refusal, Writer};
use super::WriteFault;
use crate::calls::write::*;
use crate::calls::{Fetched, Mdir, NOENT};

impl Writer {
    pub(super) fn refuse(&self, task: &Task, refusal: &Refusal) -> Answer {
        let Fetched { result, dir, seed } = refusal.fetched;
        let index = refusal.index;
        if task.stores.is_some() {
            let stores = 0;
            return Answer::Stored(Stored {
                result,
                index,
                stores,
            });
        }
        let zero = result == NOENT && self.has(WriteFault::NoentHasNoRecord);
        Answer::Committed(Committed {
            result,
            index,
            dir: if zero { Mdir::default() } else { dir },
            seed: if zero { task.seed } else { seed },
        })
    }

    /// "exactly the first n of demand 3's list are made (all, if n is larger)
    /// and the number made is the answer"
    pub(super) fn make(&self, task: &Task, plan: &Plan, images: [&mut [u8]; 2]) -> Answer {
        let [b0, b1] = images;
        let before = fetch(task, [&*b0, &*b1]);
        let all = self.stores_of(plan);
        let made = task.stores.map_or(all, |limit| all.min(limit as usize));
        let made = match task.stores {
            Some(0) if plan.erase.is_some() && self.has(WriteFault::ErasedByNoStore) => 1,
            _ => made,
        };
        let block = if plan.which == 0 { &mut *b0 } else { &mut *b1 };
        let unplaced = task.stores.is_some() && made == all && self.has(WriteFault::LastUnplaced);
        self.store(plan, made - usize::from(unplaced), block);
        let Some(limit) = task.stores else {
            let after = match self.fault {
                WriteFault::OldRecord => before,
                _ => fetch(task, [&*b0, &*b1]),
            };
            return self.accepted(task, before, after);
        };
        Answer::Stored(Stored {
            result: 0,
            index: 0,
            stores: match self.fault {
                WriteFault::LimitAnswered => limit,
                WriteFault::AllAnswered => all as u32,
                _ => made as u32,
            },
        })
    }

    fn accepted(&self, task: &Task, before: Fetched, after: Fetched) -> Answer {
        Answer::Committed(Committed {
            result: after.result,
            index: 0,
            dir: match self.fault {
                WriteFault::OldForward => Mdir {
                    forward: before.dir.forward,
                    forward_size: before.dir.forward_size,
                    forward_sum: before.dir.forward_sum,
                    ..after.dir
                },
                WriteFault::OldErasedMark => Mdir {
                    erased: before.dir.erased,
                    ..after.dir
                },
                _ => after.dir,
            },
            seed: match self.fault {
                WriteFault::SeedAsGiven => task.seed,
                _ => after.seed,
            },
        })
    }

    fn stores_of(&self, plan: &Plan) -> usize {
        let erase = plan.erase.is_some() && !self.has(WriteFault::EraseUncounted);
        let bytes = match (self.fault, plan.laid.forward) {
            (WriteFault::TwoAtOnce, _) => plan.laid.bytes.len().div_ceil(2),
            (WriteFault::ForwardUnstored, Some(_)) => plan.laid.bytes.len() - FORWARD_LENGTH,
            _ => plan.laid.bytes.len(),
        };
        bytes + usize::from(erase)
    }

    /// Where the store of this number goes: "single bytes, rising".
    fn place(&self, i: usize, length: usize) -> usize {
        let check = length.saturating_sub(8);
        match self.fault {
            WriteFault::Falling => length - 1 - i,
            WriteFault::ChecksumFirst if i >= check && length >= 8 => check + (i - check + 4) % 8,
            _ => i,
        }
    }

    /// The first `made` stores of a plan.
    fn store(&self, plan: &Plan, made: usize, block: &mut [u8]) {
        let (mut bytes, uncounted) = (made, self.has(WriteFault::EraseUncounted));
        if let Some(erased) = plan.erase.filter(|_| made > 0 || uncounted) {
            match self.fault {
                WriteFault::Unerased => {}
                WriteFault::ErasedToFf => block.fill(0xff),
                _ => block.fill(erased),
            }
            bytes -= usize::from(!uncounted);
        }
        let length = plan.laid.bytes.len();
        if bytes > 0 && self.has(WriteFault::AllAtOnce) {
            bytes = length;
        }
        match (self.fault, plan.laid.forward) {
            (WriteFault::TwoAtOnce, _) => bytes *= 2,
            // It comes with the check tag's first byte.
            (WriteFault::ForwardUnstored, Some(at)) if bytes > at => bytes += FORWARD_LENGTH,
            _ => {}
        }
        for i in 0..bytes.min(length) {
            let place = self.place(i, length);
            let to = block.get_mut(plan.laid.start + place);
            if let (Some(to), Some(&byte)) = (to, plan.laid.bytes.get(place)) {
                *to = byte;
            }
        }
    }
}
