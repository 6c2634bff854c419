//! The index: tables that are built and extended, against the second implementation, word
//! for word; what is answered from them, against the lookups of the unchanged Rust and of
//! the port; and compactions with a lent table, against those without.
//!
//! Assumes what `device` assumes of the Rust, and `truth` of the second implementation.

mod busy;
pub mod compactions;
pub mod inputs;
mod looks;
mod met;
mod records;
mod start;
mod tables;
pub mod truth;

use crate::calls::index::Indexes;
use crate::calls::write::{Work, Writes};
use crate::calls::Voice;
use crate::device::Rust;
use crate::dirs::{text, Comparison};
use crate::histories::{ask, real};
use crate::model::*;
use crate::port::Port;
use crate::tally::{Check, Subject};
use compactions::Compacted;
use inputs::{Asked, Making};
use met::Met;
use truth::{askings, looked, Beside, LookTruth, Made};

/// How many histories from a made pair, and how many from pairs that a real littlefs
/// wrote, in turn; what is asked of each is in `inputs`.
const HISTORIES: u64 = 12_000;
const REAL: u64 = 700;
/// How many histories of the writer are compacted with a table, from made pairs and from
/// real ones, and how many logs of the wider kind.
const COMPACTED: u64 = 1_500;
const COMPACTED_REAL: u64 = 140;
const COMPACTED_WIDER: u64 = 2_000;

/// Who is asked for tables, who looks up, and who compacts without a table.
pub struct Voices<'a, I, R, W> {
    pub indexer: &'a I,
    pub reader: &'a R,
    pub writer: &'a W,
}

pub const PORT: Voices<Port, Port, Port> = Voices {
    indexer: &Port,
    reader: &Port,
    writer: &Port,
};

/// The second implementation in its place.
pub const STAND_IN: Voices<Indexer, Model, Writer> = Voices {
    indexer: &FAULTLESS_INDEXER,
    reader: &FAULTLESS,
    writer: &FAULTLESS_WRITER,
};

struct Indexing {
    rust: Rust,
    build: Check,
    extend: Check,
    afresh: Check,
    look: Comparison,
    own: Check,
    met: Met,
}

/// One pass over the first of so many parts of the inputs of the three calls of the
/// index.
pub fn compare<I: Indexes, R: Voice, W: Writes>(
    voices: &Voices<I, R, W>,
    parts: u64,
) -> Vec<Subject> {
    let mut all = Indexing {
        rust: Rust::default(),
        build: Check::ours("lanolin_index"),
        extend: Check::ours("lanolin_index_extend"),
        afresh: Check::ours("extended, as built afresh"),
        look: Comparison::new(
            "index: lanolin_index_get, as lookups",
            "lookups of the Rust",
        ),
        own: Check::ours("lookups of the port"),
        met: Met::default(),
    };
    for number in 0..HISTORIES.div_ceil(parts) {
        inputs::ask(number, &mut |asked| all.judge(voices, asked));
    }
    let real = real::cases();
    for number in 0..REAL.div_ceil(parts) {
        let case = &real[number as usize % real.len()].case;
        inputs::ask_of(case, number, &mut |asked| all.judge(voices, asked));
    }
    let mut tables = Subject::new("index: the tables, by the second implementation");
    for check in [all.build, all.extend, all.afresh, all.met.demand_tables()] {
        tables.add(check);
    }
    let mut looks = all.look.subject();
    looks.add(all.own);
    vec![tables, looks]
}

impl Indexing {
    fn judge<I: Indexes, R: Voice, W: Writes>(&mut self, voices: &Voices<I, R, W>, asked: &Asked) {
        let truth = Made::of(&FAULTLESS_INDEXER, asked);
        let made = Made::of(voices.indexer, asked);
        let weight = || text::weight_of(&asked.case.blocks()) + asked.table.len();
        let say = || said(asked);
        match asked.making {
            Making::Build => self.build.same_by_weight(&truth, &made, weight, say),
            Making::Extend { .. } => self.extend.same_by_weight(&truth, &made, weight, say),
            Making::Given => {}
        }
        if let Making::Extend { grown: true, .. } = asked.making {
            let afresh = Made::afresh(voices.indexer, asked);
            self.afresh.same_by_weight(&afresh, &made, weight, say);
        }
        self.met.table(asked, &truth);
        for asking in askings(asked, &truth) {
            let truth = LookTruth::of(&mut self.rust, asked, &truth, asking);
            let answer = looked(voices.indexer, asked, &made, asking);
            let weight = || weight() + asking.length;
            let say = || format!("{}\n    {asking:x?}", said(asked));
            self.look.judge(&truth, &answer, asked.kind, weight, say);
            self.met.look(asked, &truth, asking, &mut self.look.rust);
            if let Some(beside) = Beside::of(asked, &made, asking) {
                let own = beside.looked(voices.reader);
                self.own.same_by_weight(&own, &answer, weight, say);
            }
        }
    }
}

/// A question's inputs as text.
fn said(asked: &Asked) -> String {
    let making = match asked.making {
        Making::Build => String::from("a build"),
        Making::Extend { old, .. } => format!("an extension from {old:?}"),
        Making::Given => String::from("a table as given"),
    };
    let index = text::index(&asked.input());
    format!("{index}\n    {making}, words {:x?}", asked.table)
}

/// One pass over the first of so many parts of the compactions.
pub fn compare_compactions<I: Indexes, R: Voice, W: Writes>(
    voices: &Voices<I, R, W>,
    parts: u64,
) -> Vec<Subject> {
    let mut check = Check::ours("lanolin_compact_with");
    let mut own = Check::ours("lanolin_compact of the port");
    let mut met = Met::default();
    let mut judge = |asked: &compactions::Asked| {
        let truth = Compacted::of(&FAULTLESS_INDEXER, asked);
        let answer = Compacted::of(voices.indexer, asked);
        let weight = || asked.step.case.images[0].len() + asked.table.len();
        let say = || format!("{}, words {:x?}", ask::text(asked.step), asked.table);
        check.same_by_weight(&truth, &answer, weight, say);
        met.compaction(asked);
        if voices.writer.can(&Work::Compact) {
            let (task, images) = (&asked.step.task, &asked.step.case.images);
            let without = ask::Outcome::of(voices.writer, task, images);
            own.same_by_weight(&without, &answer.outcome, weight, say);
        }
    };
    for number in 0..COMPACTED.div_ceil(parts) {
        compactions::ask(number, &mut judge);
    }
    let real = real::cases();
    for number in 0..COMPACTED_REAL.div_ceil(parts) {
        let pair = &real[number as usize % real.len()];
        compactions::ask_of(pair, number, &mut judge);
    }
    for number in 0..COMPACTED_WIDER.div_ceil(parts) {
        compactions::ask_wider(number, &mut judge);
    }
    let mut subject = Subject::new("index: lanolin_compact_with, as without a table");
    for check in [check, own, met.demand_compactions()] {
        subject.add(check);
    }
    vec![subject]
}
