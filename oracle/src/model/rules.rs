//! The rules for one entry, of a commit's list and of a regular log.
//!
//! Where they come from: of a commit's list and of rule 0 from document 01, The
//! added writer, whose sentence stands at each. Rule 1, littlefs's, is that with one
//! thing more, in these words: "as long as no create (0x401) or delete (0x4ff) has
//! come in the log, a name (0x001, 0x002, 0x0ff) with an id at or above the count,
//! and at most 1,022, first raises the count to id + 1; the slots in between are
//! made, empty. Then the name's own rule applies. A struct or attribute never raises
//! it; after the first create or delete in the log no name raises it." And: "A
//! commit's own new entries are judged by document 01's rules from the record's
//! count under both rules." It is there for what littlefs writes: its compaction
//! keeps no types from 0x400 on, and so no creates, and its fetch takes a name's id
//! + 1 for the count where that is more (in the Rust, `dir/fetch.rs`).
//!
//! Assumes nothing.

use super::{tag::*, WriteFault};
use crate::calls::write::{DOCUMENT, LITTLEFS};

/// Whose entries are judged: a log may have two types more.
#[derive(Clone, Copy, PartialEq, Eq)]
pub enum Whose {
    List,
    Log,
}

/// The entries run against a count.
pub struct Rules {
    fault: WriteFault,
    whose: Whose,
    count: u32,
    /// Whether a name above the count raises it.
    grows: bool,
}

/// "c at most 1,022"
const LAST_CREATE: u32 = 1022;
/// "at most 1,022"
const LAST_NAME: u32 = 1022;
const LONGEST: u32 = 1022;

impl Rules {
    /// The entries of a commit, behind a record's count.
    pub fn of_list(fault: WriteFault, which: u32, count: u32) -> Rules {
        Rules {
            fault,
            whose: Whose::List,
            count,
            grows: which == LITTLEFS && fault == WriteFault::ListGrows,
        }
    }

    /// A whole log.
    pub fn of_log(fault: WriteFault, which: u32) -> Rules {
        let grows = match fault {
            WriteFault::DocumentGrows => true,
            WriteFault::LittlefsRefused => false,
            _ => which != DOCUMENT,
        };
        Rules {
            fault,
            whose: Whose::Log,
            count: 0,
            grows,
        }
    }

    fn has(&self, fault: WriteFault) -> bool {
        self.fault == fault
    }

    /// A check between the entries changes nothing of what follows.
    pub fn check(&mut self) -> bool {
        match self.fault {
            WriteFault::GrowsAtFirst => self.grows = false,
            WriteFault::GrowsAgain => self.grows = true,
            _ => {}
        }
        true
    }

    /// "a name .. first raises the count to id + 1"
    fn raise(&mut self, type_: u32, id: u32) {
        let raises = match (type_, self.fault) {
            (FILE, _) => true,
            (DIRECTORY, fault) => fault != WriteFault::OnlyFilesRaise,
            (SUPERBLOCK, fault) => fault != WriteFault::SuperblockRaisesNothing,
            (0x200..=0x2ff, fault) => fault == WriteFault::StructRaises,
            (0x300..=0x3ff, fault) => fault == WriteFault::AttributeRaises,
            _ => false,
        };
        let last = match self.fault {
            WriteFault::Raises1023 => LAST_NAME + 1,
            WriteFault::Raises1021 => LAST_NAME - 1,
            WriteFault::NoGaps => self.count.min(LAST_NAME),
            _ => LAST_NAME,
        };
        if self.grows && raises && id <= last {
            self.count = self.count.max(id + 1);
        }
    }

    /// Whether an entry passes; if so, the count goes on.
    pub fn pass(&mut self, type_: u32, id: u32, length: u32) -> bool {
        let type_ = match self.fault {
            WriteFault::TypeMasked => type_ & 0x7ff,
            _ => type_,
        };
        self.raise(type_, id);
        match type_ {
            CREATE => self.create(id, length),
            DELETE => self.delete(id, length),
            FILE | DIRECTORY => self.name(id, length),
            SUPERBLOCK => self.superblock(id, length),
            DIR_STRUCT | CTZ => self.below(id) && self.eight(length),
            INLINE => self.below(id) && self.inline(length),
            0x300..=0x3ff => self.below(id) && self.attribute(length),
            SOFT_TAIL | HARD_TAIL => self.no_slot(id) && self.tail(length),
            MOVE_STATE => self.no_slot(id) && self.move_state(length),
            FORWARD => self.forward(id, length),
            _ => false,
        }
    }

    /// "Create: id at most c, c at most 1,022, length 0."
    fn create(&mut self, id: u32, length: u32) -> bool {
        let place = match self.fault {
            WriteFault::CreateBelowCount => id < self.count || self.count == 0,
            WriteFault::CreateAnywhere => true,
            _ => id <= self.count,
        };
        let room = self.count <= LAST_CREATE || self.has(WriteFault::CreateWhenFull);
        let last = self.count == LAST_CREATE && self.has(WriteFault::LastCreateRefused);
        let empty = length == 0 || self.has(WriteFault::CreateHasData);
        let passes = place && room && !last && empty;
        if passes && !self.has(WriteFault::CreateRaisesNothing) {
            self.count += 1;
        }
        self.grows &= self.has(WriteFault::GrowsBehindCreate);
        passes
    }

    /// "Delete: id below c, length 0."
    fn delete(&mut self, id: u32, length: u32) -> bool {
        let place = match self.fault {
            WriteFault::DeleteAtCount => id <= self.count,
            _ => id < self.count,
        };
        let empty = length == 0 || self.has(WriteFault::DeleteHasData);
        if place && empty && !self.has(WriteFault::DeleteLowersNothing) {
            self.count = self.count.saturating_sub(1);
        }
        self.grows &= self.has(WriteFault::GrowsBehindDelete);
        place && empty
    }

    /// "Name 0x001 or 0x002: length 1 to 1,022."
    fn name(&mut self, id: u32, length: u32) -> bool {
        let lengths = match self.fault {
            WriteFault::EmptyName => 0..=LONGEST,
            WriteFault::RemovedName => 1..=LONGEST + 1,
            WriteFault::Name1021 => 1..=LONGEST - 1,
            _ => 1..=LONGEST,
        };
        let raises = self.has(WriteFault::NameRaises) && id == self.count;
        let passes = (self.below(id) || raises) && lengths.contains(&length);
        if passes && raises {
            self.count += 1;
        }
        passes
    }

    /// "superblock names (as names)", in a log
    fn superblock(&mut self, id: u32, length: u32) -> bool {
        let allowed = match self.fault {
            WriteFault::SuperblockInList => true,
            WriteFault::SuperblockIrregular => false,
            _ => self.whose == Whose::Log,
        };
        allowed && self.name(id, length)
    }

    /// "These last three need id below c."
    fn below(&self, id: u32) -> bool {
        match self.fault {
            WriteFault::IdAtCount => id <= self.count,
            _ => id < self.count,
        }
    }

    fn eight(&self, length: u32) -> bool {
        length == 8 || (length < 8 && self.has(WriteFault::ShortStruct))
    }

    /// "0x201: 0 to 1,022"
    fn inline(&self, length: u32) -> bool {
        let empty = length == 0 && self.has(WriteFault::EmptyInlineRefused);
        let removed = length == REMOVAL && self.has(WriteFault::RemovedStruct);
        (length <= LONGEST && !empty) || removed
    }

    /// "User attribute: 0 to 1,022, or 1,023 for removal with no data."
    fn attribute(&self, length: u32) -> bool {
        match self.fault {
            WriteFault::RemovalRefused => length <= LONGEST,
            _ => length <= REMOVAL,
        }
    }

    fn no_slot(&self, id: u32) -> bool {
        id == NO_SLOT || self.has(WriteFault::TailOfAnyId)
    }

    fn tail(&self, length: u32) -> bool {
        length == 8 || (length == 12 && self.has(WriteFault::LongTail))
    }

    fn move_state(&self, length: u32) -> bool {
        length == 12 || (length == 0 && self.has(WriteFault::EmptyMoveState))
    }

    /// "forward checks (id 1,023, length 8)", in a log
    fn forward(&self, id: u32, length: u32) -> bool {
        let allowed = match self.fault {
            WriteFault::ForwardInList => true,
            WriteFault::ForwardIrregular => false,
            _ => self.whose == Whose::Log,
        };
        let sized = length == 8 || self.has(WriteFault::ForwardOfAnyLength);
        allowed && self.no_slot(id) && sized
    }
}
