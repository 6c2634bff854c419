//! A second implementation of fetch, refetch, lookups, the find, the index and the
//! added writer, written from document 01 and not from the Rust: a third voice beside
//! the port and the Rust, and the one that decides where document 01 leaves the Rust
//! (what it marks Ours) and where there is no Rust (the writer).
//!
//! It can be given a `Fault`, a `RefetchFault`, a `FindFault`, an `IndexFault` or a
//! `WriteFault`, a change in one place. `oracle teeth` runs each one through the
//! comparison, to show that it is seen.
//!
//! Assumes nothing, and never panics, also with a fault: a slice is read by
//! `get`, never by an index.

mod bytes;
mod committed;
mod compact;
mod directory;
mod erased;
mod fault;
mod fetch;
mod find;
mod find_fault;
mod forward;
mod index;
mod index_fault;
mod info;
mod lay;
mod lookup;
mod refetch;
mod refetch_fault;
mod room;
mod rules;
mod sizes;
mod stores;
mod tag;
mod walk;
mod write_fault;
mod writer;

pub use bytes::{be32, crc, le32, ONES};
pub use committed::{fetched_log, log_of, regular, Logged};
pub use directory::{Directory, Slot, Typed};
pub use fault::{Fault, Seen, FAULTS};
pub use fetch::Met;
pub use find::{Finder, FAULTLESS_FINDER};
pub use find_fault::{FindFault, FIND_FAULTS};
pub use index::{commit_at, needed, Indexer, Needed, FAULTLESS_INDEXER};
pub use index_fault::{IndexFault, INDEX_FAULTS};
pub use lay::Laid;
pub use refetch::{known_to, Refetcher, FAULTLESS_REFETCHER};
pub use refetch_fault::{RefetchFault, REFETCH_FAULTS};
pub use tag::*;
pub use write_fault::{WriteFault, WRITE_FAULTS};
pub use writer::{bytes_of, Plan, Writer, FAULTLESS_WRITER};

use crate::calls::{Fetch, Fetched, Got, Gstate, Info, Lookup, Query, Voice};

/// The second implementation, with at most one fault.
#[derive(Clone, Copy)]
pub struct Model {
    pub fault: Fault,
}

/// The one without a fault.
pub const FAULTLESS: Model = Model { fault: Fault::None };

impl Model {
    fn has(&self, fault: Fault) -> bool {
        self.fault == fault
    }
}

impl Voice for Model {
    fn fetch(&self, input: &Fetch) -> Fetched {
        self.fetch_and_say(input).0
    }

    fn getslice(&self, input: &Lookup, query: Query, buffer: &mut [u8]) -> Got {
        self.slice(input, query, buffer)
    }

    fn get(&self, input: &Lookup, query: Query, buffer: &mut [u8]) -> Got {
        self.sized(input, query, buffer)
    }

    fn getinfo(&self, input: &Lookup, name_max: u32, id: u32) -> Info {
        self.info_and_say(input, name_max, id).0
    }

    fn getgstate(&self, input: &Lookup, state: &mut Gstate) -> i32 {
        self.gstate_and_say(input, state).0
    }
}
