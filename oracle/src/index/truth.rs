//! What the calls of the index must answer: of an answer from a table, what the unchanged
//! Rust looks up, where the table is one of a regular log; and always what the second
//! implementation does.
//!
//! Assumes that the second implementation is right about which logs are regular, about
//! the refusals, and about the tables themselves.

use super::inputs::{Asked, Making};
use super::looks::Asking;
use crate::calls::index::{Indexed, Indexes, TABLE_FULL};
use crate::calls::{Gstate, Lookup, Query, Voice, INVAL};
use crate::device::{Rust, FILL};
use crate::dirs::truth::{special, Sliced, Slicer, Truth, MARGIN, PLACE, REFUSED, SPECIAL};
use crate::model::*;
use std::fmt::{self, Debug, Formatter};

/// Why an answer is Ours: the lookups need not show what this table says.
pub const NO_TABLE_OF_ITS_LOG: &str = "a table that no build of the record made";
/// Why an answer is Ours: at or above the count the lookups may find a deleted slot.
pub const NO_SLOT_THERE: &str = "an id or type that no slot has";

const AFTER_REFUSAL: usize = 3;
/// Words on either side of a lent table: one altered there is seen too.
const WORDS_BESIDE: usize = 4;
const FILL_WORD: u32 = 0xa5a5_a5a5;

/// What was answered, if something was asked, and the table with what is beside it.
#[derive(Clone, PartialEq)]
pub struct Made {
    pub answer: Option<Indexed>,
    memory: Vec<u32>,
}

impl Made {
    /// The table that is asked for, made in a copy of the one lent.
    pub fn of(voice: &impl Indexes, asked: &Asked) -> Made {
        let input = asked.input();
        Made::lent(&asked.table, |table| match &asked.making {
            Making::Build => Some(voice.index(&input, table)),
            Making::Extend { old, .. } => Some(voice.extend(&input, old, table)),
            Making::Given => None,
        })
    }

    /// A build in place of an extension, over the same words.
    pub fn afresh(voice: &impl Indexes, asked: &Asked) -> Made {
        Made::lent(&asked.table, |table| {
            Some(voice.index(&asked.input(), table))
        })
    }

    fn lent(table: &[u32], make: impl FnOnce(&mut [u32]) -> Option<Indexed>) -> Made {
        let beside = [FILL_WORD; WORDS_BESIDE];
        let mut memory = [&beside[..], table, &beside].concat();
        let answer = make(&mut memory[WORDS_BESIDE..WORDS_BESIDE + table.len()]);
        Made { answer, memory }
    }

    pub fn table(&self) -> &[u32] {
        &self.memory[WORDS_BESIDE..self.memory.len() - WORDS_BESIDE]
    }

    pub fn result(&self) -> i32 {
        self.answer.map_or(0, |indexed| indexed.result)
    }

    /// Whether the log was read: what the table holds says how it was.
    pub fn is_read(&self) -> bool {
        [0, TABLE_FULL].contains(&self.result())
    }
}

impl Debug for Made {
    fn fmt(&self, f: &mut Formatter) -> fmt::Result {
        write!(f, "{:?}, words {:x?}", self.answer, self.memory)
    }
}

/// The lookups that are made: a few, where the table was refused.
pub fn askings<'a>(asked: &'a Asked, made: &Made) -> &'a [Asking] {
    let most = match made.result() {
        0 => asked.askings.len(),
        _ => asked.askings.len().min(AFTER_REFUSAL),
    };
    &asked.askings[..most]
}

/// What is answered from a table, and the whole buffer with what is beside it.
pub fn looked(voice: &impl Indexes, asked: &Asked, made: &Made, asking: &Asking) -> Sliced {
    let mut buffer = vec![FILL; asking.length + 2 * MARGIN];
    let lent = &mut buffer[MARGIN..MARGIN + asking.length];
    let got = voice.look(&asked.input(), made.table(), asking.look, lent);
    Sliced { got, buffer }
}

/// The directory lookup that a question of a table is; none where its type takes no place.
pub fn query(asking: &Asking) -> Option<Query> {
    let (type_, id) = (asking.look.type_, asking.look.id);
    let (types, type_) = match type_ {
        0x000..=0x0ff => (0x700, NAME),
        0x200..=0x2ff => (0x700, STRUCT),
        0x300..=0x3ff => (0x7ff, type_),
        _ => return None,
    };
    Some(Query {
        mask: types << 20 | ID_BITS,
        key: tag_of(type_, id, 0),
        offset: 0,
    })
}

/// The lookup beside a question, where both must answer the same.
pub struct Beside<'a> {
    input: Lookup<'a>,
    query: Query,
    length: usize,
}

impl<'a> Beside<'a> {
    /// "for ids below the count, no pending move, and a log regular by the rule"
    pub fn of(asked: &'a Asked, made: &Made, asking: &Asking) -> Option<Beside<'a>> {
        let dir = asked.known.filter(|_| made.result() == 0)?;
        let below = asking.look.id < dir.count.into();
        let (blocks, gdisk) = (asked.case.blocks(), Gstate::default());
        let query = query(asking).filter(|_| below)?;
        Some(Beside {
            input: Lookup { blocks, dir, gdisk },
            query,
            length: asking.length,
        })
    }

    pub fn looked(&self, voice: &impl Voice) -> Sliced {
        Slicer::Getslice.ask(voice, &self.input, self.query, self.length)
    }
}

pub struct LookTruth {
    rust: Option<Sliced>,
    model: Sliced,
    reason: Option<&'static str>,
}

impl LookTruth {
    /// `made` is the second implementation's table.
    pub fn of(rust: &mut Rust, asked: &Asked, made: &Made, asking: &Asking) -> LookTruth {
        let model = looked(&FAULTLESS_INDEXER, asked, made, asking);
        let beside = Beside::of(asked, made, asking);
        let unread = special(asked.case.numbers) || model.got.result == INVAL;
        let reason = match (model.got.result, &beside) {
            (INVAL, _) => Some(REFUSED),
            (_, Some(_)) if unread => Some(SPECIAL),
            (0, Some(_)) => Some(PLACE),
            (_, Some(_)) => None,
            (_, None) if asked.known.is_some() && made.result() == 0 => Some(NO_SLOT_THERE),
            (_, None) => Some(NO_TABLE_OF_ITS_LOG),
        };
        let beside = beside.filter(|_| !unread);
        LookTruth {
            rust: beside.map(|beside| {
                let Beside {
                    input,
                    query,
                    length,
                } = beside;
                Slicer::Getslice.ask_rust(rust, &input, query, length)
            }),
            model,
            reason,
        }
    }
}

impl Truth for LookTruth {
    type Answer = Sliced;

    fn rust(&self) -> Option<&Sliced> {
        self.rust.as_ref()
    }

    fn model(&self) -> &Sliced {
        &self.model
    }

    fn ours(&self) -> Option<&'static str> {
        self.reason
    }

    fn compared(&self, answer: &Sliced) -> Sliced {
        answer.in_a_word()
    }
}
