//! What a refetch must answer: what the unchanged Rust's fetch answers, where nothing
//! has changed that the record was read from, and always what the second
//! implementation does.
//!
//! Assumes that the second implementation is right where something has changed: then
//! it alone says what is expected.

use super::inputs::Asked;
use crate::calls::refetch::Refetches;
use crate::calls::{Fetched, CORRUPT, INVAL};
use crate::device::Rust;
use crate::dirs::truth::{FetchTruth, Truth, REFUSED};
use crate::model::FAULTLESS_REFETCHER;

/// Why an answer is Ours: the Rust has no refetch, and this one is no fetch.
pub const CHANGED: &str = "record or images changed";

pub struct RefetchTruth {
    /// The fetch of the images now, where the answer must be its.
    fetch: Option<FetchTruth>,
    model: Fetched,
}

impl RefetchTruth {
    pub fn of(rust: &mut Rust, asked: &Asked) -> RefetchTruth {
        let model = FAULTLESS_REFETCHER.refetch(&asked.input());
        let fetch = asked.fetch(refuses(&model));
        RefetchTruth {
            fetch: asked.unchanged.then(|| FetchTruth::of(rust, &fetch)),
            model,
        }
    }
}

/// Whether an answer is one without a record.
pub fn refuses(answer: &Fetched) -> bool {
    [INVAL, CORRUPT].contains(&answer.result)
}

impl Truth for RefetchTruth {
    type Answer = Fetched;

    fn rust(&self) -> Option<&Fetched> {
        self.fetch.as_ref().and_then(FetchTruth::rust)
    }

    fn model(&self) -> &Fetched {
        &self.model
    }

    fn ours(&self) -> Option<&'static str> {
        match &self.fetch {
            Some(fetch) => fetch.ours(),
            None if self.model.result == INVAL => Some(REFUSED),
            None => Some(CHANGED),
        }
    }

    fn compared(&self, answer: &Fetched) -> Fetched {
        match &self.fetch {
            Some(fetch) => fetch.compared(answer),
            None => *answer,
        }
    }
}
