//! A find slot by slot: the names that the directory lookups show, and of these the
//! first that is the one asked for.
//!
//! The lookups have the record that fetch answers and a global state without a
//! pending move.
//!
//! Assumes that the second implementation is right about what is -22, and about
//! which logs are regular.

use super::inputs::Asked;
use crate::calls::find::{Find, Finds, Named};
use crate::calls::write::IRREGULAR;
use crate::calls::{Fetched, Gstate, Lookup, Query, Voice, INVAL, NOENT};
use crate::device::Rust;
use crate::dirs::truth::{special, Truth, REFUSED, SPECIAL};
use crate::model::*;

/// Why an answer is Ours: the Rust has no such refusal either.
pub const IRREGULAR_LOG: &str = "-202";
/// No name has more bytes.
const LONGEST: u32 = 1022;

pub struct Slots {
    /// Fetch's.
    result: i32,
    /// The name of each slot, by rising id.
    names: Vec<Option<Typed>>,
}

impl Slots {
    /// By the Rust, where its fetch is compared.
    pub fn of_rust(rust: &mut Rust, asked: &Asked) -> Option<Slots> {
        let fetch = asked.case.fetch();
        let refused = FAULTLESS.fetch(&fetch).result == INVAL;
        if refused || special(fetch.blocks.numbers) {
            return None;
        }
        let fetched = rust.fetch(&fetch);
        let ask = |input: &Lookup, query, buffer: &mut [u8]| rust.getslice(input, query, buffer);
        Some(Slots::looked_up(asked, fetched, ask))
    }

    pub fn of(voice: &impl Voice, asked: &Asked) -> Slots {
        let fetched = voice.fetch(&asked.case.fetch());
        let ask = |input: &Lookup, query, buffer: &mut [u8]| {
            let got = voice.getslice(input, query, buffer);
            got.word()
        };
        Slots::looked_up(asked, fetched, ask)
    }

    /// Where fetch refuses, or the log is regular by neither rule, no slot is looked
    /// up: no find answers from there.
    fn looked_up(
        asked: &Asked,
        fetched: Fetched,
        mut ask: impl FnMut(&Lookup, Query, &mut [u8]) -> u32,
    ) -> Slots {
        let Fetched { result, dir, .. } = fetched;
        let count = match (result, asked.regular) {
            (0, true) => dir.count.into(),
            _ => 0,
        };
        let (blocks, gdisk) = (asked.case.blocks(), Gstate::default());
        let input = Lookup { blocks, dir, gdisk };
        let mut buffer = vec![0; blocks.geometry.block_size.min(LONGEST) as usize];
        let name = |id| {
            let word = ask(&input, name_of(id), &mut buffer);
            let bytes = buffer.get(..size_of(word) as usize).unwrap_or_default();
            (word != NOENT as u32).then(|| (type_of(word), bytes.to_vec()))
        };
        Slots {
            result,
            names: (0..count).map(name).collect(),
        }
    }

    /// "the lowest id whose live name has exactly these bytes and exactly this type"
    fn find(&self, input: &Find) -> Named {
        let is_asked = |(type_, bytes): &Typed| *type_ == input.type_ && bytes == input.name;
        let named = |name: &Option<Typed>| name.as_ref().is_some_and(is_asked);
        match (self.result, self.names.iter().position(named)) {
            (0, Some(id)) => Named::at(id as u32),
            (result, _) => Named::refused(result),
        }
    }
}

/// The name of a slot, as a directory lookup asks for it.
pub fn name_of(id: u32) -> Query {
    Query {
        mask: 0x700 << 20 | ID_BITS,
        key: tag_of(NAME, id, 0),
        offset: 0,
    }
}

pub struct FindTruth<'a> {
    input: Find<'a>,
    rust: Option<Named>,
    model: Named,
}

impl<'a> FindTruth<'a> {
    pub fn of(rust: Option<&Slots>, input: Find<'a>) -> FindTruth<'a> {
        let model = FAULTLESS_FINDER.find(&input);
        let truth = FindTruth {
            input,
            rust: None,
            model,
        };
        FindTruth {
            rust: rust.and_then(|slots| truth.by(slots)),
            ..truth
        }
    }

    /// What lookups slot by slot say: they know fetch's refusals, and no others.
    pub fn by(&self, slots: &Slots) -> Option<Named> {
        let ours = [INVAL, IRREGULAR].contains(&self.model.result);
        (!ours).then(|| slots.find(&self.input))
    }
}

impl Truth for FindTruth<'_> {
    type Answer = Named;

    fn rust(&self) -> Option<&Named> {
        self.rust.as_ref()
    }

    fn model(&self) -> &Named {
        &self.model
    }

    fn ours(&self) -> Option<&'static str> {
        match self.model.result {
            INVAL => Some(REFUSED),
            IRREGULAR => Some(IRREGULAR_LOG),
            _ if self.rust.is_none() => Some(SPECIAL),
            _ => None,
        }
    }

    fn compared(&self, answer: &Named) -> Named {
        *answer
    }
}
