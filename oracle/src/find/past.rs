//! What becomes of the names of a log: those that slots have at its end, and those
//! that slots had before.
//!
//! Assumes a log that is regular: what it says of another one means nothing.

use super::inputs::Question;
use crate::model::*;

#[derive(Default)]
pub struct Past {
    pub live: Vec<Typed>,
    pub renamed: Vec<Typed>,
    pub deleted: Vec<Typed>,
    /// Those of several slots when the lowest of these was deleted.
    pub left: Vec<Typed>,
}

impl Past {
    pub fn of(log: &[Logged]) -> Past {
        let (mut past, mut directory) = (Past::default(), Directory::default());
        for logged in log {
            let slot = directory.slots.get(id_of(logged.tag) as usize);
            let name = slot.and_then(|slot| slot.name.clone());
            directory.follow(logged);
            match type_of(logged.tag) {
                DELETE => past.delete(id_of(logged.tag) as usize, name, &directory),
                FILE | DIRECTORY | SUPERBLOCK => past.renamed.extend(name),
                _ => {}
            }
        }
        let slots = directory.slots.into_iter();
        past.live = slots.filter_map(|slot| slot.name).collect();
        past
    }

    fn delete(&mut self, id: usize, name: Option<Typed>, left: &Directory) {
        let next = left.slots.iter().position(|slot| slot.name == name);
        if next.is_some_and(|next| next >= id) {
            self.left.extend(name.clone());
        }
        self.deleted.extend(name);
    }

    /// What the log says of the name that is asked for, for the counts.
    pub fn says(&self, question: &Question) -> &'static str {
        let is_asked = |name: &&Typed| name.0 == question.type_ && name.1 == question.name;
        let times = |names: &[Typed]| names.iter().filter(is_asked).count();
        match times(&self.live) {
            0 if times(&self.deleted) > 0 => "deleted",
            0 if times(&self.renamed) > 0 => "renamed away",
            0 => "never there",
            _ if times(&self.left) > 0 => "of a slot, a lower one deleted",
            1 => "of one slot",
            _ => "of several slots",
        }
    }
}
