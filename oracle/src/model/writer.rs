//! The added writer: what a call refuses and what bytes it lays. Compaction's
//! own part is in `compact`, the stores and the answers are in `stores`.
//!
//! It can be given a `WriteFault`, a change in one place, for `oracle teeth`.
//!
//! Assumes nothing, and never panics, also with a fault.

use super::committed::{log_of, regular, Logged};
use super::lay::{Laid, Lay};
use super::rules::Rules;
use super::{tag::*, WriteFault, FAULTLESS};
use crate::calls::write::*;
use crate::calls::{Blocks, Fetch, Fetched, Mdir, Voice, INVAL};

/// "Lookup buffer and entry data at most 65,536 bytes each; at most 8,192
/// entries"
const MOST_DATA: usize = 65_536;
const MOST_ENTRIES: usize = 8_192;

/// The second implementation of the writer, with at most one fault.
#[derive(Clone, Copy)]
pub struct Writer {
    pub fault: WriteFault,
}

/// The one without a fault.
pub const FAULTLESS_WRITER: Writer = Writer {
    fault: WriteFault::None,
};

/// What an accepted call stores: at first the erase, if there is one, then the
/// bytes, rising.
pub struct Plan {
    /// Which of the two images.
    pub which: usize,
    /// The byte that the block is erased to.
    pub erase: Option<u8>,
    pub laid: Laid,
}

/// A refusal: its number, record and seed, and -201's index.
pub struct Refusal {
    pub fetched: Fetched,
    pub index: u32,
}

/// A test's refusal: its number, and -201's index.
pub type Refused = Option<(i32, u32)>;

/// What fetch says of the pair: the record, which image answered, its log.
pub struct Read<'a> {
    pub dir: Mdir,
    pub which: usize,
    pub block: &'a [u8],
    pub log: Vec<Logged<'a>>,
}

impl<'a> Read<'a> {
    fn of(task: &Task, images: [&'a [u8]; 2]) -> Result<Read<'a>, Refusal> {
        let fetched = fetch(task, images);
        if fetched.result != 0 {
            return Err(Refusal { fetched, index: 0 });
        }
        let which = usize::from(fetched.dir.pair[0] == task.numbers[1]);
        Ok(Read {
            dir: fetched.dir,
            which,
            block: images[which],
            log: log_of(images[which], fetched.dir.off as usize),
        })
    }
}

impl Writes for Writer {
    fn can(&self, _work: &Work) -> bool {
        true
    }

    fn write(&self, task: &Task, images: [&mut [u8]; 2]) -> Answer {
        let before = [&*images[0], &*images[1]];
        match self.plan(task, before) {
            Err(refusal) => self.refuse(task, &refusal),
            Ok(plan) => self.make(task, &plan, images),
        }
    }
}

impl Writer {
    pub(super) fn has(&self, fault: WriteFault) -> bool {
        self.fault == fault
    }

    /// What the call would store, or why it is refused.
    pub fn plan(&self, task: &Task, images: [&[u8]; 2]) -> Result<Plan, Refusal> {
        let erased = self.erased_byte(task.erased);
        let tests = [
            (self.lengths_fit(&task.work), WriteFault::LengthsAfterFetch),
            (self.rules_fit(task.rules), WriteFault::RulesAfterFetch),
            (erased.is_some(), WriteFault::ErasedAfterFetch),
        ];
        let invalid = || refused((INVAL, 0), task.seed);
        if tests.iter().any(|&(fits, late)| !fits && !self.has(late)) {
            return Err(invalid());
        }
        let read = Read::of(task, images)?;
        let fits = tests.iter().all(|test| test.0);
        let erased = erased.filter(|_| fits).ok_or_else(invalid)?;
        let task = &Task { erased, ..*task };
        let planned = match task.work {
            Work::Commit { entries, data } => self.commit(task, &read, entries, data),
            Work::Compact => self.compact(task, &read),
        };
        planned.map_err(|refusal| refused(refusal, task.seed))
    }

    /// The bytes that the call would lay, though it be refused behind fetch.
    pub fn laid(&self, task: &Task, images: [&[u8]; 2]) -> Option<Laid> {
        let read = Read::of(task, images).ok()?;
        let lay = match task.work {
            Work::Commit { entries, data } => self.append(task, &read, entries, data),
            Work::Compact => self.compacted(task, &read),
        };
        Some(lay.finish(task.geometry))
    }

    fn lengths_fit(&self, work: &Work) -> bool {
        let Work::Commit { entries, data } = work else {
            return true;
        };
        let most = match self.fault {
            WriteFault::Entries8193 => MOST_ENTRIES + 1,
            WriteFault::Entries8191 => MOST_ENTRIES - 1,
            _ => MOST_ENTRIES,
        };
        let longest = match self.fault {
            WriteFault::Data65537 => MOST_DATA + 1,
            WriteFault::Data65535 => MOST_DATA - 1,
            _ => MOST_DATA,
        };
        entries.len() <= most && data.len() <= longest
    }

    /// "0 = document 01's, 1 = littlefs's too, any other number is -22 (tested with
    /// the sizes and numbers, before fetch's own -84/-2)"
    fn rules_fit(&self, rules: u32) -> bool {
        match self.fault {
            WriteFault::Rules2 => rules <= LITTLEFS + 1,
            WriteFault::RulesOfAnyNumber => true,
            WriteFault::RulesOfOneByte => rules & 0xff <= LITTLEFS,
            _ => rules <= LITTLEFS,
        }
    }

    /// "Take the erased byte, 0xff or 0x00, as an input [..]. Any other erased byte is
    /// -22.": the byte that the call goes by, or none.
    fn erased_byte(&self, given: u8) -> Option<u8> {
        match (self.fault, given) {
            (WriteFault::ErasedUnread, _) => Some(0xff),
            (_, 0xff | 0x00) => Some(given),
            (WriteFault::Erased01, 0x01) => Some(0x00),
            (WriteFault::ErasedFe, 0xfe) => Some(0xff),
            (WriteFault::ErasedByTopBit, _) => Some([0x00, 0xff][usize::from(given >> 7)]),
            (WriteFault::ErasedOfAnyByte, _) => Some(given),
            _ => None,
        }
    }

    /// "-202, -201, -28, -203, -204", and for -203 "-211 misaligned end, -212 top
    /// bit, -213 byte with offset"; "L1's second reason is now 'wrong validity bit'"
    fn commit(
        &self,
        task: &Task,
        read: &Read,
        entries: &[Entry],
        data: &[u8],
    ) -> Result<Plan, (i32, u32)> {
        let laid = self.append(task, read, entries, data).finish(task.geometry);
        let mut tests = [
            self.irregular(task, read),
            self.bad_entry(task, read, entries, data),
            self.full(task, &laid),
            self.misaligned(task, read),
            self.wrong_validity(task, read),
            self.not_erased(task, read, &laid),
            laid.coincides.then_some((COINCIDENCE, 0)),
        ];
        match self.fault {
            WriteFault::BadBeforeIrregular => tests.swap(0, 1),
            WriteFault::SpaceBeforeBad => tests.swap(1, 2),
            WriteFault::RoomBeforeSpace => tests[2..6].rotate_left(1),
            WriteFault::BitBeforeMisaligned => tests.swap(3, 4),
            WriteFault::ByteBeforeMisaligned => tests[3..6].rotate_right(1),
            WriteFault::ByteBeforeBit => tests.swap(4, 5),
            WriteFault::CoincidenceBeforeRoom => tests[3..7].rotate_right(1),
            WriteFault::CoincidenceBeforeSpace => tests.swap(2, 6),
            _ => {}
        }
        match tests.into_iter().flatten().next() {
            Some(refusal) => Err(refusal),
            None => Ok(Plan {
                which: read.which,
                erase: None,
                laid,
            }),
        }
    }

    pub(super) fn irregular(&self, task: &Task, read: &Read) -> Refused {
        (!regular(self.fault, task.rules, &read.log)).then_some((IRREGULAR, 0))
    }

    /// The entries' bytes, behind the old end.
    fn append(&self, task: &Task, read: &Read, entries: &[Entry], data: &[u8]) -> Lay {
        let mut lay = Lay {
            fault: self.fault,
            start: read.dir.off as usize,
            bytes: Vec::new(),
            previous: match self.fault {
                WriteFault::ChainedFromOnes => super::ONES,
                WriteFault::ChainedWithoutBit31 => read.dir.etag & !INVALID,
                _ => read.dir.etag,
            },
            sum: super::ONES,
            erased: task.erased,
            old: read.dir,
        };
        for entry in entries {
            let bytes = bytes_of(entry, data).unwrap_or_default();
            lay.put(entry.type_.into(), entry.id.into(), entry.len, bytes);
        }
        lay
    }

    /// "index from 0 of the first bad one"
    fn bad_entry(&self, task: &Task, read: &Read, entries: &[Entry], data: &[u8]) -> Refused {
        let count = match self.fault {
            WriteFault::CountFromZero => 0,
            _ => read.dir.count.into(),
        };
        let mut rules = Rules::of_list(self.fault, task.rules, count);
        let bad = entries.iter().position(|entry| {
            let placed = self.placed(entry, data);
            !(rules.pass(entry.type_.into(), entry.id.into(), entry.len) && placed)
        })?;
        match self.fault {
            WriteFault::IndexFromOne => Some((BAD_ENTRY, bad as u32 + 1)),
            WriteFault::NoIndex => Some((BAD_ENTRY, 0)),
            _ => Some((BAD_ENTRY, bad as u32)),
        }
    }

    /// "offset plus length past the buffer, also for length 0; a removal's
    /// offset isn't read"
    fn placed(&self, entry: &Entry, data: &[u8]) -> bool {
        let end = match self.fault {
            WriteFault::OffsetWraps => u64::from(entry.off.wrapping_add(entry.len)),
            WriteFault::RemovalReadsOffset if entry.len == REMOVAL => entry.off.into(),
            _ => u64::from(entry.off) + u64::from(entry.len),
        };
        let empty = entry.len == 0 && self.has(WriteFault::EmptyOffsetUnread);
        let removal = entry.len == REMOVAL && !self.has(WriteFault::RemovalReadsOffset);
        match self.fault {
            WriteFault::EndOfDataRefused => removal || end < data.len() as u64,
            _ => removal || empty || end <= data.len() as u64,
        }
    }

    /// "the rounded end passes the block". The block size is a multiple of the
    /// program size, so the end that is not rounded would pass it just as often.
    pub(super) fn full(&self, task: &Task, laid: &Laid) -> Refused {
        let end = match self.fault {
            WriteFault::EndAtBlockRefused => laid.end + 1,
            WriteFault::ForwardNeedsRoom => laid.end_with_forward(task.geometry),
            _ => laid.end,
        };
        (end > task.geometry.block_size as usize).then_some((NO_SPACE, 0))
    }
}

/// An entry's data, or none if they are not there. A removal has none.
pub fn bytes_of<'a>(entry: &Entry, data: &'a [u8]) -> Option<&'a [u8]> {
    let start = entry.off as usize;
    match entry.len {
        REMOVAL => Some(&[]),
        length => data.get(start..start.checked_add(length as usize)?),
    }
}

pub(super) fn fetch(task: &Task, images: [&[u8]; 2]) -> Fetched {
    FAULTLESS.fetch(&Fetch {
        blocks: Blocks {
            geometry: task.geometry,
            images,
            numbers: task.numbers,
        },
        block_count: task.block_count,
        seed: task.seed,
    })
}

/// A refusal of the writer's own: zero record, seed as given.
fn refused((result, index): (i32, u32), seed: u32) -> Refusal {
    let dir = Mdir::default();
    Refusal {
        fetched: Fetched { result, dir, seed },
        index,
    }
}
