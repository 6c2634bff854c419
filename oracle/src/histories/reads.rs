//! What the unchanged Rust reads of a pair that was written: fetch, and the
//! directory lookups.
//!
//! Assumes block numbers below 0xfffffffe, as the histories have them.

use super::ask::{fetched, After, Step};
use super::carried::Carried;
use super::flash::Flash;
use crate::calls::write::{Answer, Committed, Work};
use crate::calls::{Blocks, Fetch, Fetched, Gstate, Lookup, Mdir, Query, NOENT};
use crate::device::Rust;
use crate::generate::erased_behind;
use crate::model::*;
use crate::tally::Check;

/// With more slots than these, only the first and last ones are read.
const MOST_READ: usize = 24;
/// The lowest block number with a meaning of its own in the Rust.
const SPECIAL: u32 = 0xffff_fffe;

pub struct Reads {
    rust: Rust,
    pub fetches: Check,
    pub forwards: Check,
    pub lookups: Check,
    pub cuts: Check,
    /// What was met.
    pub flash: Flash,
}

/// A word answered, and the buffer behind it.
type Answered = (u32, Vec<u8>);

impl Default for Reads {
    fn default() -> Reads {
        Reads {
            rust: Rust::default(),
            fetches: Check::rust("fetch of what was written"),
            forwards: Check::rust("erased behind a forward check"),
            lookups: Check::rust("lookups of what was written"),
            cuts: Check::rust("fetch of what was cut short"),
            flash: Flash::default(),
        }
    }
}

/// The slots that are read, with their ids.
pub fn read_of(directory: &Directory) -> impl Iterator<Item = (u32, &Slot)> {
    let (half, all) = (MOST_READ / 2, directory.slots.len());
    let slots = (0..).zip(&directory.slots);
    slots.filter(move |&(id, _)| (id as usize) < half || id as usize + half >= all)
}

impl Reads {
    pub fn read(&mut self, step: &Step, text: &dyn Fn() -> String) {
        if step.task.numbers.iter().any(|&number| number >= SPECIAL) {
            return;
        }
        let images = step.truth.images();
        let fetch = Fetch {
            blocks: Blocks {
                images: [&images[0], &images[1]],
                ..step.case.blocks()
            },
            block_count: step.task.block_count,
            seed: step.task.seed,
        };
        match (&step.after, step.truth.answer) {
            (After::Finished, Answer::Committed(answer)) => {
                self.finished(step, &fetch, &answer, text);
            }
            (
                After::Cut {
                    old,
                    new,
                    finished,
                    goes_on,
                },
                _,
            ) => {
                let read = self.rust.fetch(&fetch);
                self.cut(read, old, new, *finished, text);
                if *goes_on {
                    let left = step.directories[usize::from(*finished)];
                    self.directory(fetch.blocks, read.dir, left, step.types, text);
                }
            }
            _ => self.flash.refused(step),
        }
    }

    /// The answered record, which but for its forward check the Rust has too.
    fn finished(
        &mut self,
        step: &Step,
        fetch: &Fetch,
        answer: &Committed,
        text: &dyn Fn() -> String,
    ) {
        let Fetched { result, dir, seed } = self.rust.fetch(fetch);
        let said = (answer.result, answer.dir.without_forward(), answer.seed);
        self.fetches.same((result, dir, seed), said, text);
        self.fetches.outcome_of("pairs", step.case.kind);
        self.forward(step, &fetch.blocks, dir, text);
        self.directory(fetch.blocks, dir, step.directories[1], step.types, text);
    }

    /// A pair that carries a forward check is erased to who reads it as littlefs does:
    /// the next commit goes behind it, and nothing is compacted for it.
    fn forward(&mut self, step: &Step, blocks: &Blocks, dir: Mdir, text: &dyn Fn() -> String) {
        let which = usize::from(dir.pair[0] == blocks.numbers[1]);
        let carried = Carried::of(blocks.geometry, blocks.images[which], &dir);
        let kind = match (step.task.work, carried.carried, dir.erased) {
            (Work::Commit { .. }, true, _) => "carried by a commit",
            (Work::Compact, true, _) => "carried by a compaction",
            (Work::Compact, false, _) => "not by a compaction",
            (Work::Commit { .. }, false, 0) => "not by a commit",
            (Work::Commit { .. }, false, _) => "not by a commit, but an earlier one fits",
        };
        self.forwards.outcome_of("forward check", kind);
        self.forwards.outcome_of("room for it", carried.room());
        if carried.carried {
            self.forwards.same(1, dir.erased, text);
        }
        let for_both = match step.task.work {
            Work::Commit { .. } => carried.both,
            Work::Compact => {
                let old = fetched(step.case, &step.case.images).dir;
                erased_behind(old.etag) != step.task.erased
            }
        };
        self.flash.accepted(&step.task, for_both);
    }

    /// The finished record if the finished bytes are there, else the old one;
    /// only the erased mark may differ.
    fn cut(
        &mut self,
        read: Fetched,
        old: &Fetched,
        new: &Fetched,
        finished: bool,
        text: &dyn Fn() -> String,
    ) {
        let expected = if finished { new } else { old };
        let compared = |fetched: &Fetched| {
            let mut dir = fetched.dir.without_forward();
            dir.erased &= u8::from(finished);
            Fetched { dir, ..*fetched }
        };
        self.cuts.same(compared(&read), compared(expected), text);
        let kind = match (finished, read.dir.erased == old.dir.erased) {
            (true, _) => "the new record",
            (false, true) => "the old record",
            (false, false) => "the old record, another erased mark",
        };
        self.cuts.outcome(kind);
    }

    fn directory(
        &mut self,
        blocks: Blocks,
        dir: Mdir,
        directory: &Directory,
        types: &[u32],
        text: &dyn Fn() -> String,
    ) {
        let lookup = Lookup {
            blocks,
            dir,
            gdisk: Gstate::default(),
        };
        let count = (dir.count as usize, directory.slots.len());
        self.lookups.same(count.0, count.1, text);
        let state = directory.move_state.clone().map(|data| (MOVE_STATE, data));
        self.one(&lookup, (0x7ff, 0), (MOVE_STATE, 0), NO_SLOT, state, text);
        for (id, slot) in read_of(directory) {
            self.slot(&lookup, id, slot, types, text);
        }
    }

    fn slot(
        &mut self,
        lookup: &Lookup,
        id: u32,
        slot: &Slot,
        types: &[u32],
        text: &dyn Fn() -> String,
    ) {
        let ids = ID_BITS;
        let name = slot.name.clone();
        self.one(lookup, (0x700, ids), (NAME, id), id, name, text);
        let structure = slot.structure.clone();
        self.one(lookup, (0x700, ids), (STRUCT, id), id, structure, text);
        let more = slot
            .attributes
            .keys()
            .filter(|type_| !types.contains(type_));
        for &type_ in types.iter().chain(more) {
            let data = slot.attributes.get(&type_);
            let typed = data.map(|data| (type_, data.clone()));
            self.one(lookup, (0x7ff, ids), (type_, id), id, typed, text);
        }
    }

    /// One lookup: the Rust's word and bytes against the machine's.
    fn one(
        &mut self,
        lookup: &Lookup,
        (mask, ids): (u32, u32),
        (type_, id): (u32, u32),
        found_id: u32,
        said: Option<Typed>,
        text: &dyn Fn() -> String,
    ) {
        let query = Query {
            mask: mask << 20 | ids,
            key: tag_of(type_, id, 0),
            offset: 0,
        };
        let length = said.as_ref().map_or(0, |(_, data)| data.len()) + 4;
        let mut buffer = vec![0xa5; length];
        let word = self.rust.getslice(lookup, query, &mut buffer);
        let expected: Answered = match said {
            None => (NOENT as u32, vec![0xa5; length]),
            Some((type_, data)) => {
                let tag = tag_of(type_, found_id, data.len() as u32);
                let mut data = data;
                data.extend([0; 4]);
                (tag, data)
            }
        };
        let kind = if word == NOENT as u32 {
            "none"
        } else {
            "found"
        };
        self.lookups.outcome(kind);
        self.lookups.same((word, buffer), expected, text);
    }
}
