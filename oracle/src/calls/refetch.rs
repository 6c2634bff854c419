//! The call that fetches again from a known end, as values: what goes in, and who
//! can be asked. What comes out is what a fetch answers.
//!
//! Assumes nothing.

use super::{Fetch, Fetched, Mdir};

/// What a fetch takes, and a record. The seed is the one that came with the record.
#[derive(Clone, Copy)]
pub struct Refetch<'a> {
    pub fetch: Fetch<'a>,
    pub dir: Mdir,
}

/// Who answers the call: the port, or the second implementation.
pub trait Refetches {
    fn refetch(&self, input: &Refetch) -> Fetched;
}
