//! The directory lookups, and what they answer on a directory: "for ids below
//! count and no pending move, lookup with these masks equals a simple directory
//! machine".
//!
//! The machine holds data and knows no places, so it tells word and buffer.
//!
//! Assumes nothing.

use crate::calls::{Got, Query, NOENT};
use crate::device::FILL;
use crate::dirs::truth::{Sliced, MARGIN};
use crate::histories::reads::read_of;
use crate::model::*;
use crate::tally::Check;

/// Attribute types that no history uses.
const ABSENT: [u32; 3] = [0x302, 0x3aa, 0x3fe];

/// One lookup into a buffer, and what must come out.
pub struct Question {
    pub query: Query,
    pub length: usize,
    pub expected: Sliced,
}

/// The answers against the machine's.
pub fn hold(
    check: &mut Check,
    questions: &[Question],
    answers: &[Sliced],
    weight: impl Fn() -> usize,
    say: impl Fn() -> String,
) {
    for (question, answer) in questions.iter().zip(answers) {
        check.same_by_weight(&question.expected, &answer.without_place(), &weight, &say);
    }
}

/// Name and struct under 0x700 and each attribute type under 0x7ff, of each id, or
/// of very many the first and last; the move state under 0x7ff without ids. Of the
/// attribute types all 256, or those that are set, those that the history uses, and
/// some that it does not.
pub fn questions(directory: &Directory, types: &[u32], every_type: bool) -> Vec<Question> {
    let state = directory.move_state.as_ref();
    let state = state.map(|data| (MOVE_STATE, NO_SLOT, &data[..]));
    let mut asked = vec![question(0x7ff << 20, tag_of(MOVE_STATE, 0, 0), state)];
    for (id, slot) in read_of(directory) {
        for (type_, typed) in [(NAME, &slot.name), (STRUCT, &slot.structure)] {
            let said = typed.as_ref().map(|(type_, data)| (*type_, id, &data[..]));
            asked.push(question(0x700f_fc00, tag_of(type_, id, 0), said));
        }
        for type_ in attribute_types(slot, types, every_type) {
            let data = slot.attributes.get(&type_);
            let said = data.map(|data| (type_, id, &data[..]));
            asked.push(question(0x7fff_fc00, tag_of(type_, id, 0), said));
        }
    }
    asked
}

fn attribute_types(slot: &Slot, types: &[u32], every_type: bool) -> Vec<u32> {
    if every_type {
        return (0x300..=0x3ff).collect();
    }
    let mut all: Vec<u32> = slot.attributes.keys().copied().collect();
    all.extend(types);
    all.extend(ABSENT);
    all.sort_unstable();
    all.dedup();
    all
}

/// Found: the tag as it stands now, its data, and zeros behind them. Not found:
/// -2, and no byte of the buffer altered.
fn question(mask: u32, key: u32, said: Option<(u32, u32, &[u8])>) -> Question {
    let length = said.map_or(0, |(_, _, data)| data.len()) + 4;
    let mut buffer = vec![FILL; length + 2 * MARGIN];
    let got = match said {
        None => Got::refused(NOENT),
        Some((type_, id, data)) => {
            let lent = &mut buffer[MARGIN..MARGIN + length];
            lent.fill(0);
            lent[..data.len()].copy_from_slice(data);
            Got::tagged(tag_of(type_, id, data.len() as u32))
        }
    };
    Question {
        query: Query {
            mask,
            key,
            offset: 0,
        },
        length,
        expected: Sliced { got, buffer },
    }
}
