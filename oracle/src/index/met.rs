//! What is met of the index: every kind of table and record, every answer, and logs by
//! each rule. A kind that is never met would leave its place untried: it is a fault.
//!
//! Assumes nothing.

use super::inputs::{Asked, Making};
use super::looks::Asking;
use super::tables::{FOREIGN, ROOMS};
use super::truth::{LookTruth, Made};
use super::{compactions, records};
use crate::calls::index::TABLE_FULL;
use crate::calls::write::{COINCIDENCE, IRREGULAR, NO_SPACE};
use crate::calls::{CORRUPT, INVAL, NOENT};
use crate::dirs::truth::Truth;
use crate::tally::Check;

const BUILD: &str = "a build";
const EXTENSION: &str = "an extension";
const RESULTS: [&str; 4] = ["0", "-22", "-202", "-221"];
const LOOKS: [&str; 4] = ["found", "-2", "-84", "-22"];
const COMPACTIONS: [&str; 7] = ["0", "-22", "-84", "-2", "-202", "-28", "-204"];

const OF_BUILD: &str = "a build's table";
const OF_EXTENSION: &str = "an extension's table";
const OF_LOOK: &str = "a table looked up in";
const OF_COMPACTION: &str = "a compaction's table";
const RECORD: &str = "a record";
const OLD_RECORD: &str = "an old record";
const LOOK: &str = "a lookup";
const LOG: &str = "a log";
const COMPACTION: &str = "a compaction";

pub struct Met {
    met: Check,
}

impl Default for Met {
    fn default() -> Met {
        Met {
            met: Check::ours("every kind is met"),
        }
    }
}

impl Met {
    pub fn table(&mut self, asked: &Asked, truth: &Made) {
        let result = named(truth.result());
        match asked.making {
            Making::Build => {
                self.met.outcome_of(BUILD, result);
                self.met.outcome_of(RECORD, asked.kind);
                self.met.outcome_of(LOG, asked.log_kind);
                if truth.is_read() {
                    self.met.outcome_of(OF_BUILD, asked.table_kind);
                }
            }
            Making::Extend { from, .. } => {
                self.met.outcome_of(EXTENSION, result);
                self.met.outcome_of(OLD_RECORD, from);
                if truth.is_read() {
                    self.met.outcome_of(OF_EXTENSION, asked.table_kind);
                }
            }
            Making::Given => self.met.outcome_of(OF_LOOK, asked.table_kind),
        }
    }

    /// What the lookups of the Rust decided is counted with them.
    pub fn look(&mut self, asked: &Asked, truth: &LookTruth, asking: &Asking, rust: &mut Check) {
        let result = match truth.model().got.result {
            0 => "found",
            refusal => named(refusal),
        };
        self.met.outcome_of(LOOK, result);
        if truth.rust().is_none() {
            return;
        }
        rust.outcome_of("result", result);
        let asked_for = match asking.look.type_ {
            0x000..=0x0ff => "a name",
            0x200..=0x2ff => "a struct",
            _ => "an attribute",
        };
        rust.outcome_of("asked for", asked_for);
        let from = match asked.making {
            Making::Extend { .. } => "an extended table",
            _ => "a built table",
        };
        rust.outcome_of("from", from);
        rust.outcome_of("record", asked.kind);
        rust.outcome_of("log", asked.log_kind);
    }

    pub fn compaction(&mut self, asked: &compactions::Asked) {
        let result = asked.step.truth.answer.result();
        self.met.outcome_of(COMPACTION, named(result));
        if result == 0 {
            self.met.outcome_of(OF_COMPACTION, asked.table_kind);
        }
    }

    pub fn demand_tables(self) -> Check {
        let mut kinds = Vec::new();
        for (group, of_group) in [
            (BUILD, &RESULTS[..]),
            (EXTENSION, &RESULTS),
            (LOOK, &LOOKS),
            (LOG, &records::LOGS),
            (RECORD, &records::KINDS),
            (OLD_RECORD, &records::OLDER),
            (OF_BUILD, &ROOMS),
            (OF_EXTENSION, &ROOMS),
            (OF_EXTENSION, &FOREIGN),
            (OF_LOOK, &FOREIGN),
        ] {
            kinds.extend(of_group.iter().map(|&kind| (group, kind)));
        }
        self.demand(&kinds)
    }

    pub fn demand_compactions(self) -> Check {
        let results = COMPACTIONS.map(|kind| (COMPACTION, kind));
        let tables = ROOMS.map(|kind| (OF_COMPACTION, kind));
        self.demand(&[&results[..], &tables].concat())
    }

    fn demand(mut self, kinds: &[(&str, &str)]) -> Check {
        for (group, kind) in kinds {
            let met = self.met.met(group, kind);
            self.met.same(true, met, || format!("{group}: {kind}"));
        }
        self.met
    }
}

/// A result by its number.
fn named(result: i32) -> &'static str {
    match result {
        0 => "0",
        INVAL => "-22",
        CORRUPT => "-84",
        NOENT => "-2",
        IRREGULAR => "-202",
        TABLE_FULL => "-221",
        NO_SPACE => "-28",
        COINCIDENCE => "-204",
        _ => "another",
    }
}
