//! Compaction: "erases the block that fetch did not answer from to 0xff and
//! writes revision plus one (wrapping) and one commit"; by document 02, L7, it
//! erases to the byte that it takes as an input.
//!
//! Assumes nothing.

use super::committed::regular;
use super::directory::{Directory, Slot, Typed};
use super::lay::Lay;
use super::writer::{Plan, Read, Writer};
use super::{bytes::*, tag::*, WriteFault};
use crate::calls::write::*;

impl Writer {
    /// "Compaction: the same without -201 and -203."
    pub(super) fn compact(&self, task: &Task, read: &Read) -> Result<Plan, (i32, u32)> {
        let laid = self.compacted(task, read).finish(task.geometry);
        let mut tests = [
            self.irregular(task, read),
            self.full(task, &laid)
                .filter(|_| !self.has(WriteFault::FullOfNames)),
            laid.coincides.then_some((COINCIDENCE, 0)),
        ];
        if self.has(WriteFault::CoincidenceBeforeIrregular) {
            tests.swap(0, 2);
        }
        let which = match self.fault {
            WriteFault::AnsweringBlock => read.which,
            WriteFault::SecondBlock => 1,
            _ => 1 - read.which,
        };
        match tests.into_iter().flatten().next() {
            Some(refusal) => Err(refusal),
            None => Ok(Plan {
                which,
                erase: Some(task.erased),
                laid,
            }),
        }
    }

    fn revision(&self, read: &Read) -> [u8; 4] {
        let revision = match self.fault {
            WriteFault::RevisionStays => read.dir.rev,
            WriteFault::RevisionByTwo => read.dir.rev.wrapping_add(2),
            WriteFault::RevisionSaturates => read.dir.rev.saturating_add(1),
            _ => read.dir.rev.wrapping_add(1),
        };
        match self.fault {
            WriteFault::RevisionBigEndian => revision.to_be_bytes(),
            _ => revision.to_le_bytes(),
        }
    }

    /// "for each id create, newest name (type under 0x700), struct (under
    /// 0x700), user attributes by rising type; then tail unless it is soft and
    /// both 0xffffffff; then move state if found"
    pub(super) fn compacted(&self, task: &Task, read: &Read) -> Lay {
        let revision = self.revision(read);
        let mut lay = Lay {
            fault: self.fault,
            start: 0,
            bytes: revision.to_vec(),
            previous: ONES,
            sum: match self.fault {
                WriteFault::RevisionUnsummed => ONES,
                _ => crc(ONES, &revision),
            },
            erased: task.erased,
            old: read.dir,
        };
        let mut directory = Directory::of(&read.log);
        let wider = !regular(WriteFault::None, DOCUMENT, &read.log);
        if wider && self.has(WriteFault::GapsClosed) {
            directory.slots.retain(|slot| *slot != Slot::default());
        }
        for (id, slot) in directory.slots.iter().enumerate() {
            self.slot(&mut lay, id as u32, slot, wider);
        }
        let first = self.has(WriteFault::MoveStateBeforeTail);
        if first {
            self.move_state(&mut lay, &directory);
        }
        self.tail(&mut lay, read);
        if !first {
            self.move_state(&mut lay, &directory);
        }
        lay
    }

    /// "What compaction writes is always regular by document 01: a create for each
    /// slot". `wider`: the log that is there isn't.
    fn slot(&self, lay: &mut Lay, id: u32, slot: &Slot, wider: bool) {
        let lacks = slot.name.is_none() && self.has(WriteFault::NamelessDropped);
        if lacks {
            return;
        }
        let uncreated = match self.fault {
            WriteFault::Uncreated => true,
            WriteFault::NamedUncreated => wider && slot.name.is_some(),
            WriteFault::FirstUncreated => wider && id == 0 && slot.name.is_some(),
            WriteFault::EmptyUncreated => wider && *slot == Slot::default(),
            _ => false,
        };
        if !uncreated {
            lay.put(CREATE, id, 0, &[]);
        }
        let mut parts = [&slot.name, &slot.structure];
        if self.has(WriteFault::StructFirst) {
            parts.swap(0, 1);
        }
        for (type_, data) in parts.into_iter().flatten() {
            let type_ = match self.fault {
                WriteFault::SuperblockBecomesFile if *type_ == SUPERBLOCK => FILE,
                _ => *type_,
            };
            lay.put(type_, id, data.len() as u32, data);
        }
        for (type_, data) in self.attributes(slot) {
            lay.put(type_, id, data.len() as u32, &data);
        }
    }

    fn attributes(&self, slot: &Slot) -> Vec<Typed> {
        let kept = |(&type_, data): (&u32, &Vec<u8>)| (type_, data.clone());
        let mut attributes: Vec<Typed> = slot.attributes.iter().map(kept).collect();
        match self.fault {
            WriteFault::AttributesFall => attributes.reverse(),
            WriteFault::AttributesSigned => {
                attributes.sort_by_key(|(type_, _)| *type_ as u8 as i8);
            }
            WriteFault::EmptyAttributesDropped => attributes.retain(|(_, data)| !data.is_empty()),
            WriteFault::LastAttributeDropped => attributes.retain(|(type_, _)| *type_ != 0x3ff),
            _ => {}
        }
        attributes
    }

    fn tail(&self, lay: &mut Lay, read: &Read) {
        let hard = read.dir.split != 0;
        let null = read.dir.tail == [ONES; 2];
        let dropped = match self.fault {
            WriteFault::TailDropped => true,
            WriteFault::TailAlways => false,
            WriteFault::HardNullDropped => null,
            WriteFault::SoftDropped => !hard,
            _ => null && !hard,
        };
        if dropped {
            return;
        }
        let mut data = read.dir.tail[0].to_le_bytes().to_vec();
        data.extend(read.dir.tail[1].to_le_bytes());
        let type_ = match hard && !self.has(WriteFault::TailBecomesSoft) {
            true => HARD_TAIL,
            false => SOFT_TAIL,
        };
        lay.put(type_, NO_SLOT, 8, &data);
    }

    fn move_state(&self, lay: &mut Lay, directory: &Directory) {
        let zero = |data: &[u8]| data.iter().all(|&byte| byte == 0);
        if let Some(data) = &directory.move_state {
            let dropped = match self.fault {
                WriteFault::MoveStateDropped => true,
                WriteFault::ZeroMoveStateDropped => zero(data),
                _ => false,
            };
            if !dropped {
                lay.put(MOVE_STATE, NO_SLOT, data.len() as u32, data);
            }
        }
    }
}
