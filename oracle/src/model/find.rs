//! The find: the lowest id whose live name is the one asked for. One pass forward
//! over the committed log, which keeps the set of the ids that have the name: a
//! create or a delete moves those above it, and a name puts its id in or takes it
//! out.
//!
//! It can be given a `FindFault`, a change in one place, for `oracle teeth`.
//!
//! Assumes nothing, and never panics, also with a fault.

use super::committed::{log_of, regular, Logged};
use super::walk::Walk;
use super::{tag::*, Fault, FindFault, WriteFault, FAULTLESS};
use crate::calls::find::{Find, Finds, Named};
use crate::calls::write::{DOCUMENT, IRREGULAR, LITTLEFS};
use crate::calls::{Fetch, Mdir, Voice, INVAL, NOENT};

/// The longest name that a log can hold.
const LONGEST: usize = 1022;
/// Where a set of bits would pass into its next word: only a fault looks at it.
const WORD: u32 = 64;

/// The second implementation of the find, with at most one fault.
#[derive(Clone, Copy)]
pub struct Finder {
    pub fault: FindFault,
}

/// The one without a fault.
pub const FAULTLESS_FINDER: Finder = Finder {
    fault: FindFault::None,
};

impl Finds for Finder {
    fn find(&self, input: &Find) -> Named {
        let log = match self.log(input) {
            Ok(log) => log,
            Err(refusal) if self.unsaid(refusal) => return Named::none(),
            Err(refusal) => return Named::refused(refusal),
        };
        let mut ids = Vec::new();
        for logged in self.followed(&log) {
            self.step(input, logged, &mut ids);
        }
        let id = match self.fault {
            FindFault::Highest => ids.iter().max(),
            FindFault::FirstNamed => ids.first(),
            _ => ids.iter().min(),
        };
        match id {
            Some(&id) if self.has(FindFault::IdOf8Bits) => Named::at(id & 0xff),
            Some(&id) => Named::at(id),
            None if self.has(FindFault::NoneIsNoent) => Named::refused(NOENT),
            None => Named::none(),
        }
    }
}

impl Finder {
    fn has(&self, fault: FindFault) -> bool {
        self.fault == fault
    }

    fn unsaid(&self, refusal: i32) -> bool {
        self.has(FindFault::FetchRefusesNothing) && ![INVAL, IRREGULAR].contains(&refusal)
    }

    /// The log, or the refusal: -22 of the rules and of the name, then fetch's own,
    /// then -202.
    fn log<'a>(&self, input: &Find<'a>) -> Result<Vec<Logged<'a>>, i32> {
        let (named, ruled) = (self.name_fits(input.name), self.rules_fit(input.rules));
        let unread = (!named && !self.has(FindFault::EmptyAfterFetch))
            || (!ruled && !self.has(FindFault::RulesAfterFetch));
        if unread {
            return Err(INVAL);
        }
        let fetched = FAULTLESS.fetch(&input.fetch);
        if fetched.result != 0 {
            return Err(fetched.result);
        }
        if !named || !ruled {
            return Err(INVAL);
        }
        let log = self.read(&input.fetch, &fetched.dir);
        match self.regular(input.rules, &log) {
            true => Ok(log),
            false => Err(IRREGULAR),
        }
    }

    fn name_fits(&self, name: &[u8]) -> bool {
        match self.fault {
            FindFault::EmptyName => true,
            FindFault::LongNameRefused => (1..=LONGEST).contains(&name.len()),
            _ => !name.is_empty(),
        }
    }

    fn rules_fit(&self, rules: u32) -> bool {
        rules <= LITTLEFS || self.has(FindFault::RulesOfAnyNumber)
    }

    fn read<'a>(&self, fetch: &Fetch<'a>, dir: &Mdir) -> Vec<Logged<'a>> {
        let second = dir.pair[0] == fetch.blocks.numbers[1];
        let second = second && !self.has(FindFault::FirstImageAlways);
        let block = fetch.blocks.images[usize::from(second)];
        let end = match self.fault {
            FindFault::UncommittedFollowed => Walk::of(Fault::None, block, 0, None).at,
            _ => dir.off as usize,
        };
        log_of(block, end)
    }

    fn regular(&self, rules: u32, log: &[Logged]) -> bool {
        let rules = match self.fault {
            FindFault::IrregularAccepted => return true,
            FindFault::DocumentIsLittlefs => LITTLEFS,
            FindFault::LittlefsIsDocument => DOCUMENT,
            _ => rules,
        };
        regular(WriteFault::None, rules, log)
    }

    /// The part of the log that the pass goes over: all of it.
    fn followed<'a, 'b>(&self, log: &'b [Logged<'a>]) -> &'b [Logged<'a>] {
        let is_check = |logged: &Logged| type2_of(logged.tag) == CHECK;
        let last = log.iter().rev().skip(1).position(is_check);
        match (self.fault, last) {
            (FindFault::LastCommitOnly, Some(last)) => &log[log.len() - 1 - last..],
            _ => log,
        }
    }

    fn step(&self, input: &Find, logged: &Logged, ids: &mut Vec<u32>) {
        let id = id_of(logged.tag);
        match type_of(logged.tag) {
            CREATE => self.create(id, ids),
            DELETE => self.delete(id, ids),
            _ if type1_of(logged.tag) == NAME => {
                let fits = self.fits(input, logged);
                if fits || !self.has(FindFault::RenameLeavesOld) {
                    ids.retain(|&known| known != id);
                }
                if fits {
                    ids.push(id);
                }
            }
            _ => {}
        }
    }

    fn create(&self, id: u32, ids: &mut Vec<u32>) {
        let from = match self.fault {
            FindFault::CreateMovesNothing => return,
            FindFault::CreateLeavesItsOwn => id + 1,
            _ => id,
        };
        if self.has(FindFault::CreateLosesCarry) {
            ids.retain(|&known| known < from || (known + 1) % WORD != 0);
        }
        for known in ids.iter_mut().filter(|known| **known >= from) {
            *known += 1;
        }
    }

    fn delete(&self, id: u32, ids: &mut Vec<u32>) {
        if self.has(FindFault::DeleteLosesCarry) {
            ids.retain(|&known| known <= id || known % WORD != 0);
        }
        if !self.has(FindFault::DeleteLeavesName) {
            ids.retain(|&known| known != id);
        }
        if self.has(FindFault::DeleteMovesNothing) {
            return;
        }
        for known in ids.iter_mut().filter(|known| **known > id) {
            *known -= 1;
        }
    }

    /// Whether a name that stands in the log is the one asked for: all its bytes,
    /// and its type.
    fn fits(&self, input: &Find, logged: &Logged) -> bool {
        let asked = match self.fault {
            FindFault::TypeUncompared => type_of(logged.tag),
            FindFault::TypeOf11Bits => input.type_ & 0x7ff,
            _ => input.type_,
        };
        asked == type_of(logged.tag) && self.bytes_fit(input.name, logged.data)
    }

    fn bytes_fit(&self, asked: &[u8], stands: &[u8]) -> bool {
        let same_length = asked.len() == stands.len();
        let but_last = |name: &[u8]| name.len().saturating_sub(1);
        match self.fault {
            FindFault::PrefixTaken => stands.starts_with(asked),
            FindFault::LongerTaken => asked.starts_with(stands),
            FindFault::LengthOnly => same_length,
            FindFault::Unfound256 => asked == stands && asked.len() < 256,
            FindFault::LastByteUncompared => {
                same_length && asked[..but_last(asked)] == stands[..but_last(stands)]
            }
            FindFault::LengthOf10Bits => {
                asked.len() & 0x3ff == stands.len() && asked.starts_with(stands)
            }
            _ => asked == stands,
        }
    }
}
