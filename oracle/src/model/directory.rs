//! The simple directory machine: "slots inserted, removed, attributes set". It
//! keeps the tail and the move state too. It is one machine for both rules: what is
//! set in a slot "at or above the number of slots first makes the missing slots up
//! to it, empty", which in a log that is regular by document 01 never happens.
//!
//! Assumes entries that pass the rules; of others some change nothing.

use super::committed::Logged;
use super::{bytes::*, tag::*};
use std::collections::BTreeMap;

/// A type and its data.
pub type Typed = (u32, Vec<u8>);

#[derive(Clone, Debug, Default, PartialEq, Eq)]
pub struct Slot {
    pub name: Option<Typed>,
    pub structure: Option<Typed>,
    /// By rising type.
    pub attributes: BTreeMap<u32, Vec<u8>>,
}

#[derive(Clone, Debug, PartialEq, Eq)]
pub struct Directory {
    pub slots: Vec<Slot>,
    /// Whether the tail is hard, and its two words.
    pub tail: (bool, [u32; 2]),
    pub move_state: Option<Vec<u8>>,
}

impl Default for Directory {
    /// "Tail begins as two 0xffffffff."
    fn default() -> Directory {
        Directory {
            slots: Vec::new(),
            tail: (false, [ONES; 2]),
            move_state: None,
        }
    }
}

impl Directory {
    pub fn of(log: &[Logged]) -> Directory {
        let mut directory = Directory::default();
        for logged in log {
            directory.follow(logged);
        }
        directory
    }

    /// An entry of a log. A check changes nothing.
    pub fn follow(&mut self, logged: &Logged) {
        if type2_of(logged.tag) == CHECK {
            return;
        }
        let data = match is_removal(logged.tag) {
            true => None,
            false => Some(logged.data),
        };
        self.take(type_of(logged.tag), id_of(logged.tag) as usize, data);
    }

    /// One entry. A removal has no data.
    pub fn take(&mut self, type_: u32, id: usize, data: Option<&[u8]>) {
        match type_ {
            CREATE if id <= self.slots.len() => self.slots.insert(id, Slot::default()),
            DELETE if id < self.slots.len() => {
                self.slots.remove(id);
            }
            MOVE_STATE => self.move_state = data.map(<[u8]>::to_vec),
            SOFT_TAIL | HARD_TAIL => self.point(type_ == HARD_TAIL, data.unwrap_or_default()),
            _ => self.set(type_, id, data),
        }
    }

    fn point(&mut self, hard: bool, data: &[u8]) {
        if let (Some(first), Some(second)) = (le32(data, 0), le32(data, 4)) {
            self.tail = (hard, [first, second]);
        }
    }

    /// The slot of this id, made if it is missing. None has the id of no slot.
    fn reach(&mut self, id: usize) -> Option<&mut Slot> {
        if (self.slots.len()..NO_SLOT as usize).contains(&id) {
            self.slots.resize_with(id + 1, Slot::default);
        }
        self.slots.get_mut(id)
    }

    fn set(&mut self, type_: u32, id: usize, data: Option<&[u8]>) {
        let class = type_ & 0x700;
        if ![NAME, STRUCT, ATTRIBUTE].contains(&class) {
            return;
        }
        let Some(slot) = self.reach(id) else {
            return;
        };
        let typed = data.map(|data| (type_, data.to_vec()));
        match (class, typed) {
            (NAME, typed) => slot.name = typed,
            (STRUCT, typed) => slot.structure = typed,
            (ATTRIBUTE, Some((type_, data))) => {
                slot.attributes.insert(type_, data);
            }
            (ATTRIBUTE, None) => {
                slot.attributes.remove(&type_);
            }
            _ => {}
        }
    }
}
