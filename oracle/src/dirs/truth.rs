//! What the answers to one input must be: the Rust's, where it is compared, and
//! the second implementation's, which also decides what document 01 marks Ours.
//!
//! The port and every fault of the second implementation are held against the
//! same truths, so that `oracle teeth` tries the comparison that is made.
//!
//! Assumes that the second implementation is right where it is Ours.

use crate::calls::{hex, Fetch, Fetched, Got, Gstate, Info, Lookup, Mdir, Query, Voice};
use crate::calls::{CORRUPT, INVAL, NOENT};
use crate::device::{Rust, FILL};
use crate::model::{Met, Seen, FAULTLESS, INVALID, NO_SLOT};
use std::fmt::{self, Debug, Formatter};

/// The highest offset at which lookups are compared.
const LAST_OFFSET: u32 = 65_536;
/// The lowest block number with a meaning of its own in the Rust.
const SPECIAL_NUMBERS: u32 = 0xffff_fffe;

pub trait Truth {
    type Answer: PartialEq + Debug + Clone;
    /// The Rust's answer, if the input is in the compared domain.
    fn rust(&self) -> Option<&Self::Answer>;
    fn model(&self) -> &Self::Answer;
    /// Why something of the answer is Ours, if it is.
    fn ours(&self) -> Option<&'static str>;
    /// The part that is compared with the Rust; the rest is blanked.
    fn compared(&self, answer: &Self::Answer) -> Self::Answer;

    /// Where an answer is seen to be wrong.
    fn wrong(&self, answer: &Self::Answer) -> Option<Seen> {
        if let Some(rust) = self.rust() {
            if self.compared(rust) != self.compared(answer) {
                return Some(Seen::Rust);
            }
        }
        (self.model() != answer).then_some(Seen::Ours)
    }
}

/// Why an answer is Ours: the Rust has no such refusal.
pub const REFUSED: &str = "-22";
/// Why an answer is Ours: the block number has a meaning of its own in the Rust.
pub const SPECIAL: &str = "block number from 0xfffffffe";
/// Why an answer is Ours: of what is found the Rust tells the tag alone.
pub const PLACE: &str = "length and place";
/// Why an answer is Ours: the Rust's record has no forward check.
pub const FORWARD_CHECK: &str = "forward check of the record";

pub fn special(numbers: [u32; 2]) -> bool {
    numbers.iter().any(|&number| number >= SPECIAL_NUMBERS)
}

pub struct FetchTruth {
    rust: Option<Fetched>,
    model: Fetched,
    pub met: Met,
}

impl FetchTruth {
    pub fn of(rust: &mut Rust, input: &Fetch) -> FetchTruth {
        let (model, met) = FAULTLESS.fetch_and_say(input);
        let compared = model.result != INVAL && !special(input.blocks.numbers);
        FetchTruth {
            rust: compared.then(|| rust.fetch(input)),
            model,
            met,
        }
    }
}

impl Truth for FetchTruth {
    type Answer = Fetched;

    fn rust(&self) -> Option<&Fetched> {
        self.rust.as_ref()
    }

    fn model(&self) -> &Fetched {
        &self.model
    }

    fn ours(&self) -> Option<&'static str> {
        match self.model.result {
            INVAL => Some(REFUSED),
            _ if self.rust.is_none() => Some(SPECIAL),
            CORRUPT => Some("record of a refusal"),
            _ if self.met.forward_past => Some("forward length past the block"),
            _ if self.model.dir.forward != 0 => Some(FORWARD_CHECK),
            _ => None,
        }
    }

    fn compared(&self, answer: &Fetched) -> Fetched {
        let mut answer = *answer;
        answer.dir = match answer.result {
            CORRUPT => Mdir::default(),
            _ => answer.dir.without_forward(),
        };
        if self.met.forward_past {
            answer.dir.erased = 0;
        }
        answer
    }
}

/// The answer of a slice, and the whole buffer afterwards.
#[derive(Clone, PartialEq)]
pub struct Sliced {
    pub got: Got,
    pub buffer: Vec<u8>,
}

impl Sliced {
    /// Without length and place, for a comparison with who tells neither.
    pub fn without_place(&self) -> Sliced {
        Sliced {
            got: self.got.without_place(),
            buffer: self.buffer.clone(),
        }
    }

    /// One word, as the Rust answers, and the buffer.
    pub fn in_a_word(&self) -> Sliced {
        Sliced {
            got: got_of(self.got.word()),
            buffer: self.buffer.clone(),
        }
    }
}

impl Debug for Sliced {
    fn fmt(&self, f: &mut Formatter) -> fmt::Result {
        let (before, rest) = self.buffer.split_at(MARGIN);
        let (lent, behind) = rest.split_at(rest.len() - MARGIN);
        write!(f, "{:?}, buffer {}, ", self.got, hex(lent))?;
        write!(f, "beside it {} and {}", hex(before), hex(behind))
    }
}

/// Which of the two calls with a mask and a key.
#[derive(Clone, Copy, Debug, PartialEq, Eq)]
pub enum Slicer {
    Getslice,
    Get,
}

/// Bytes on either side of a lent buffer: one altered there is seen too.
pub const MARGIN: usize = 8;

impl Slicer {
    /// Asks for `length` bytes, inside a larger buffer that has other bytes.
    pub fn ask(self, voice: &impl Voice, input: &Lookup, query: Query, length: usize) -> Sliced {
        let mut buffer = vec![FILL; length + 2 * MARGIN];
        let lent = &mut buffer[MARGIN..MARGIN + length];
        let got = match self {
            Slicer::Getslice => voice.getslice(input, query, lent),
            Slicer::Get => voice.get(input, query, lent),
        };
        Sliced { got, buffer }
    }

    pub fn ask_rust(self, rust: &mut Rust, input: &Lookup, query: Query, length: usize) -> Sliced {
        let mut buffer = vec![FILL; length + 2 * MARGIN];
        let lent = &mut buffer[MARGIN..MARGIN + length];
        let word = match self {
            Slicer::Getslice => rust.getslice(input, query, lent),
            Slicer::Get => rust.get(input, query, lent),
        };
        let got = got_of(word);
        Sliced { got, buffer }
    }
}

pub struct SliceTruth {
    rust: Option<Sliced>,
    model: Sliced,
    special: bool,
}

impl SliceTruth {
    pub fn of(
        rust: &mut Rust,
        slicer: Slicer,
        input: &Lookup,
        query: Query,
        length: usize,
    ) -> SliceTruth {
        let model = slicer.ask(&FAULTLESS, input, query, length);
        let special = special(input.blocks.numbers);
        let far = slicer == Slicer::Getslice && query.offset > LAST_OFFSET;
        let compared = model.got.result != INVAL && !special && !far;
        SliceTruth {
            rust: compared.then(|| slicer.ask_rust(rust, input, query, length)),
            model,
            special,
        }
    }
}

impl Truth for SliceTruth {
    type Answer = Sliced;

    fn rust(&self) -> Option<&Sliced> {
        self.rust.as_ref()
    }

    fn model(&self) -> &Sliced {
        &self.model
    }

    fn ours(&self) -> Option<&'static str> {
        let got = self.model.got;
        match got.result {
            INVAL => Some(REFUSED),
            _ if self.special => Some(SPECIAL),
            _ if self.rust.is_none() => Some("offset above 65,536"),
            0 if got.tag & INVALID != 0 => Some("found word with bit 31"),
            0 => Some(PLACE),
            _ => None,
        }
    }

    fn compared(&self, answer: &Sliced) -> Sliced {
        answer.in_a_word()
    }
}

/// The word as a reader takes it: one of the two refusals, or a tag.
fn got_of(word: u32) -> Got {
    match word as i32 {
        refusal @ (NOENT | CORRUPT) => Got::refused(refusal),
        _ => Got::tagged(word),
    }
}

pub struct InfoTruth {
    rust: Option<Info>,
    model: Info,
    bit_31: bool,
    /// The bytes of the name that are read or zeroed by a lookup.
    named: usize,
}

impl InfoTruth {
    pub fn of(rust: &mut Rust, input: &Lookup, name_max: u32, id: u32) -> InfoTruth {
        let (model, bit_31) = FAULTLESS.info_and_say(input, name_max, id);
        let compared = model.result != INVAL && !special(input.blocks.numbers) && !bit_31;
        InfoTruth {
            rust: compared.then(|| rust.getinfo(input, name_max, id)),
            model,
            bit_31,
            named: if id == NO_SLOT {
                2
            } else {
                name_max as usize + 1
            },
        }
    }

    /// The Rust left the size alone: the struct is neither inline nor CTZ.
    fn size_left(&self) -> bool {
        let fill = u32::from_le_bytes([FILL; 4]);
        self.rust.is_some_and(|rust| rust.size == fill)
    }
}

impl Truth for InfoTruth {
    type Answer = Info;

    fn rust(&self) -> Option<&Info> {
        self.rust.as_ref()
    }

    fn model(&self) -> &Info {
        &self.model
    }

    fn ours(&self) -> Option<&'static str> {
        match self.model.result {
            INVAL => Some(REFUSED),
            _ if self.bit_31 => Some("found word with bit 31"),
            _ if self.rust.is_none() => Some(SPECIAL),
            0 if self.size_left() => Some("size of a directory"),
            0 => None,
            _ => Some("info of a refusal"),
        }
    }

    fn compared(&self, answer: &Info) -> Info {
        let mut answer = *answer;
        if answer.result != 0 {
            return Info::refused(answer.result);
        }
        answer.name[self.named..].fill(0);
        if self.size_left() {
            answer.size = 0;
        }
        answer
    }
}

/// The result, and the state afterwards.
pub type Stated = (i32, Gstate);

pub struct GstateTruth {
    rust: Option<Stated>,
    model: Stated,
    bit_31: bool,
}

impl GstateTruth {
    pub fn of(rust: &mut Rust, input: &Lookup, state: Gstate) -> GstateTruth {
        let mut of_model = state;
        let (result, bit_31) = FAULTLESS.gstate_and_say(input, &mut of_model);
        let compared = result != INVAL && !special(input.blocks.numbers) && !bit_31;
        GstateTruth {
            rust: compared.then(|| {
                let mut of_rust = state;
                (rust.getgstate(input, &mut of_rust), of_rust)
            }),
            model: (result, of_model),
            bit_31,
        }
    }
}

/// The result of a `getgstate`, and the state afterwards.
pub fn stated(voice: &impl Voice, input: &Lookup, state: Gstate) -> Stated {
    let mut state = state;
    (voice.getgstate(input, &mut state), state)
}

impl Truth for GstateTruth {
    type Answer = Stated;

    fn rust(&self) -> Option<&Stated> {
        self.rust.as_ref()
    }

    fn model(&self) -> &Stated {
        &self.model
    }

    fn ours(&self) -> Option<&'static str> {
        match self.model.0 {
            INVAL => Some(REFUSED),
            _ if self.bit_31 => Some("found word with bit 31"),
            _ if self.rust.is_none() => Some(SPECIAL),
            _ => None,
        }
    }

    fn compared(&self, answer: &Stated) -> Stated {
        *answer
    }
}

/// A result by its number, for the counts.
pub fn number(result: i32) -> &'static str {
    match result {
        0 => "0",
        INVAL => "-22",
        CORRUPT => "-84",
        NOENT => "-2",
        _ => "another",
    }
}
