//! The directory machine, with where its entries stand: of each slot the live name,
//! struct and user attributes. The table of a log is read off at its end.
//!
//! Assumes nothing; of a log that isn't regular some entries change nothing.

use super::Placed;
use crate::model::{tag::*, IndexFault};
use std::collections::BTreeMap;

/// One live entry: its type and size, where its first data byte stands, and the id that
/// it was written with.
#[derive(Clone, Copy)]
struct Seat {
    type_: u32,
    size: u32,
    off: u32,
    written_id: u32,
}

/// By rising type, all names as 0x000 and all structs as 0x200: "in a slot name, struct,
/// attributes by rising type".
type Slot = BTreeMap<u32, Seat>;

pub(super) struct Seats {
    fault: IndexFault,
    slots: Vec<Slot>,
    /// How many entries the slots have together.
    live: usize,
    /// What belongs to no slot and was met: only a fault looks at it.
    others: usize,
}

impl Seats {
    pub(super) fn new(fault: IndexFault) -> Seats {
        Seats {
            fault,
            slots: Vec::new(),
            live: 0,
            others: 0,
        }
    }

    fn has(&self, fault: IndexFault) -> bool {
        self.fault == fault
    }

    pub(super) fn follow(&mut self, entry: &Placed) {
        let id = id_of(entry.tag) as usize;
        match type_of(entry.tag) {
            CREATE => self.create(id),
            DELETE if id < self.slots.len() => self.delete(id),
            SOFT_TAIL | HARD_TAIL | MOVE_STATE | FORWARD => self.others += 1,
            _ if [NAME, STRUCT, ATTRIBUTE].contains(&type1_of(entry.tag)) => self.put(id, entry),
            _ => {}
        }
    }

    /// "slots inserted": those from the id on get the next one.
    fn create(&mut self, id: usize) {
        let id = match self.fault {
            IndexFault::CreateRaisesNothing => self.slots.len(),
            IndexFault::CreateLeavesItsOwn => id + 1,
            _ => id,
        };
        let id = id.min(self.slots.len());
        self.slots.insert(id, Slot::new());
    }

    /// "removed": its own entries go, and the slots behind it get the id before.
    fn delete(&mut self, id: usize) {
        let gone = self.slots.remove(id);
        self.live -= gone.len();
        let kept = match self.fault {
            IndexFault::DeletedKept => gone,
            IndexFault::DeletedAttributesKept => {
                let kept = gone.into_iter().filter(|(key, _)| *key >= ATTRIBUTE);
                kept.collect()
            }
            IndexFault::DeleteLowersNothing => return self.slots.insert(id, Slot::new()),
            _ => return,
        };
        if let Some(next) = self.slots.get_mut(id) {
            let before = next.len();
            for (key, seat) in kept {
                next.entry(key).or_insert(seat);
            }
            self.live += next.len() - before;
        }
    }

    /// The slot of this id, with those before it that are missing: littlefs's rule lets
    /// a name make them.
    fn reach(&mut self, id: usize) -> &mut Slot {
        if self.slots.len() <= id {
            self.slots.resize_with(id + 1, Slot::new);
        }
        &mut self.slots[id]
    }

    fn put(&mut self, id: usize, entry: &Placed) {
        let (fault, type_) = (self.fault, type_of(entry.tag));
        let key = match type1_of(entry.tag) {
            NAME if fault == IndexFault::NamesByType => type_,
            STRUCT if fault == IndexFault::StructsByType => type_,
            ATTRIBUTE => type_,
            class => class,
        };
        let slot = self.reach(id);
        let before = slot.len();
        let removed = is_removal(entry.tag) && fault != IndexFault::RemovalIsPlace;
        match (removed, fault) {
            (true, IndexFault::RemovedKept) => {}
            (true, _) => {
                slot.remove(&key);
            }
            (false, _) => {
                let seat = seat(fault, entry, slot.get(&key));
                slot.insert(key, seat);
            }
        }
        self.live = self.live + self.slots[id].len() - before;
    }

    /// How many places they take.
    pub(super) fn live(&self) -> usize {
        let bare = || self.slots.iter().filter(|slot| slot.is_empty()).count();
        match self.fault {
            IndexFault::BareCounted => self.live + bare(),
            IndexFault::OthersCounted => self.live + self.others.min(1),
            _ => self.live,
        }
    }

    /// The places, two words each, sorted by id.
    pub(super) fn words(&self) -> Vec<u32> {
        let mut words = Vec::new();
        for (id, slot) in (0..).zip(&self.slots) {
            if slot.is_empty() && self.has(IndexFault::BarePlaced) {
                words.extend([tag_of(NAME, id, 0), 0]);
            }
            for seat in self.ordered(slot) {
                let id = match self.fault {
                    IndexFault::IdAsWritten => seat.written_id,
                    _ => id,
                };
                words.extend([tag_of(seat.type_, id, seat.size), seat.off]);
            }
        }
        words
    }

    fn ordered(&self, slot: &Slot) -> Vec<Seat> {
        let mut seats: Vec<Seat> = slot.values().copied().collect();
        let is_attribute = |seat: &Seat| seat.type_ >= ATTRIBUTE;
        let first = seats.iter().position(is_attribute).unwrap_or(seats.len());
        match self.fault {
            IndexFault::AttributesFall => seats[first..].reverse(),
            IndexFault::AttributesAsWritten => seats[first..].sort_by_key(|seat| seat.off),
            IndexFault::AttributesSigned => {
                seats[first..].sort_by_key(|seat| seat.type_ as u8 as i8);
            }
            IndexFault::StructFirst => seats.sort_by_key(|seat| seat.type_ & 0x700 != STRUCT),
            IndexFault::AttributesFirst => seats.rotate_left(first),
            _ => {}
        }
        seats
    }
}

/// What an entry leaves under its class. `old` is what stood there: only a fault looks
/// at it.
fn seat(fault: IndexFault, entry: &Placed, old: Option<&Seat>) -> Seat {
    let new = Seat {
        type_: type_of(entry.tag),
        size: size_of(entry.tag),
        off: entry.at + 4,
        written_id: id_of(entry.tag),
    };
    let Seat {
        type_, size, off, ..
    } = *old.unwrap_or(&new);
    match fault {
        IndexFault::OldType => Seat { type_, ..new },
        IndexFault::OldSize => Seat { size, ..new },
        IndexFault::OldOffset => Seat { off, ..new },
        IndexFault::OldStays => Seat {
            type_,
            size,
            off,
            ..new
        },
        IndexFault::OffsetOfTag => Seat {
            off: entry.at,
            ..new
        },
        _ => new,
    }
}
