//! A fixed list of inputs with the Rust's answers, for a program that replays
//! it without the Rust and without a heap. `RECORDED.md` has the layout.
//!
//! What is Ours is left out, but for what is 0 by document 01: what a refusal
//! hands back, the size of a directory, name bytes that were not read.
//!
//! Assumes nothing of the port: it is not asked.

use crate::calls::{Blocks, Fetch, Gstate, Info, Lookup, Mdir, Query, CORRUPT, NOENT};
use crate::device::{Rust, FILL};
use crate::dirs::inputs::{self, Question};
use crate::dirs::truth::{FetchTruth, GstateTruth, InfoTruth, SliceTruth, Slicer, Truth};
use crate::dirs::truth::{FORWARD_CHECK, MARGIN, PLACE};
use crate::generate::Sizes;
use crate::model::NO_SLOT;
use std::io::{self, Write};

/// The words of a header.
const WORDS: usize = 32;
/// The longest buffer that is recorded.
const LONGEST: usize = 512;
/// So many cases are asked before the list is given up as too long.
const CASES: u64 = 1_000_000;

/// The kinds of answers, and how many of a hundred records have each.
const SHARES: [(&str, usize); 12] = [
    ("fetch 0", 20),
    ("fetch -2", 4),
    ("fetch -84", 6),
    ("getslice found", 30),
    ("getslice -2", 15),
    ("getslice -84", 6),
    ("getinfo file", 8),
    ("getinfo directory", 1),
    ("getinfo root", 1),
    ("getinfo -2", 4),
    ("getgstate altered", 3),
    ("getgstate stays", 2),
];

/// One record: what it counts as, its header, and the expected buffer.
struct Entry {
    share: &'static str,
    words: [u32; WORDS],
    buffer: Vec<u8>,
}

/// Writes `number` records. The counts of each kind come back.
pub fn write(out: &mut impl Write, number: usize) -> io::Result<Vec<(&'static str, usize)>> {
    let mut counts = SHARES.map(|(share, _)| (share, 0));
    let mut written = 0;
    let mut rust = Rust::default();
    let mut failed = Ok(());
    for case in 0..CASES {
        if written == number || failed.is_err() {
            break;
        }
        inputs::ask(case, Sizes::Small, &mut |_, question| {
            let Some(entry) = entry(&mut rust, &question) else {
                return;
            };
            if written < number && wanted(&mut counts, entry.share, number) && failed.is_ok() {
                written += 1;
                failed = put(out, &blocks_of(&question), entry);
            }
        });
    }
    failed?;
    if written < number {
        return Err(io::Error::other("the list is too long for the generators"));
    }
    out.write_all(&[0; 4 * WORDS])?;
    Ok(counts.to_vec())
}

/// Counts one more of a kind, unless its share is used up.
fn wanted(counts: &mut [(&'static str, usize)], share: &str, number: usize) -> bool {
    for ((name, count), (_, percent)) in counts.iter_mut().zip(SHARES) {
        if *name == share && *count < (number * percent).div_ceil(100) {
            *count += 1;
            return true;
        }
    }
    false
}

fn blocks_of<'a>(question: &Question<'a>) -> Blocks<'a> {
    match question {
        Question::Fetch(input) => input.blocks,
        Question::Slice { input, .. } => input.blocks,
        Question::Info { input, .. } => input.blocks,
        Question::Gstate { input, .. } => input.blocks,
    }
}

/// The header's words, the images, the expected buffer.
fn put(out: &mut impl Write, blocks: &Blocks, entry: Entry) -> io::Result<()> {
    let Entry { words, buffer, .. } = entry;
    let mut words = words;
    words[1] = blocks.geometry.block_size;
    words[2] = blocks.geometry.prog_size;
    [words[3], words[4]] = blocks.numbers;
    let images = blocks.images.map(<[u8]>::len).iter().sum::<usize>();
    words[30] = buffer.len() as u32;
    words[31] = (4 * WORDS + images + buffer.len()) as u32;
    for word in words {
        out.write_all(&word.to_le_bytes())?;
    }
    for image in blocks.images {
        out.write_all(image)?;
    }
    out.write_all(&buffer)
}

/// The record of a question, if the Rust decides all of its answer.
fn entry(rust: &mut Rust, question: &Question) -> Option<Entry> {
    match *question {
        Question::Fetch(ref input) => fetch(rust, input),
        Question::Slice {
            slicer: Slicer::Getslice,
            ref input,
            query,
            length,
            ..
        } if length <= LONGEST => slice(rust, input, query, length),
        Question::Slice { .. } => None,
        Question::Info {
            ref input,
            name_max,
            id,
        } => info(rust, input, name_max, id),
        Question::Gstate { ref input, state } => gstate(rust, input, state),
    }
}

fn fetch(rust: &mut Rust, input: &Fetch) -> Option<Entry> {
    let truth = FetchTruth::of(rust, input);
    let answer = *truth.rust()?;
    // The forward check of the record is not recorded.
    let decided = matches!(truth.ours(), None | Some(FORWARD_CHECK));
    let (share, dir) = match answer.result {
        CORRUPT => ("fetch -84", Mdir::default()),
        _ if !decided => return None,
        NOENT => ("fetch -2", answer.dir),
        _ => ("fetch 0", answer.dir),
    };
    let mut words = [0; WORDS];
    words[0] = 1;
    words[5] = input.block_count;
    words[6] = input.seed;
    words[7..17].copy_from_slice(&record(&dir));
    words[17] = answer.seed;
    words[26] = answer.result as u32;
    Some(Entry {
        share,
        words,
        buffer: Vec::new(),
    })
}

/// The ten fields of a record.
fn record(dir: &Mdir) -> [u32; 10] {
    [
        dir.pair[0],
        dir.pair[1],
        dir.rev,
        dir.off,
        dir.etag,
        dir.count.into(),
        dir.erased.into(),
        dir.split.into(),
        dir.tail[0],
        dir.tail[1],
    ]
}

/// What the header of each lookup has.
fn lookup(kind: u32, input: &Lookup) -> [u32; WORDS] {
    let mut words = [0; WORDS];
    words[0] = kind;
    words[7..17].copy_from_slice(&record(&input.dir));
    words[17] = input.gdisk.tag;
    [words[18], words[19]] = input.gdisk.pair;
    words
}

fn slice(rust: &mut Rust, input: &Lookup, query: Query, length: usize) -> Option<Entry> {
    let truth = SliceTruth::of(rust, Slicer::Getslice, input, query, length);
    let answer = truth.rust()?;
    // Length and place are not recorded.
    if !matches!(truth.ours(), None | Some(PLACE)) {
        return None;
    }
    let share = match answer.got.result {
        CORRUPT => "getslice -84",
        NOENT => "getslice -2",
        _ => "getslice found",
    };
    let mut words = lookup(2, input);
    words[20] = query.mask;
    words[21] = query.key;
    words[22] = query.offset;
    words[23] = length as u32;
    words[26] = answer.got.result as u32;
    words[27] = answer.got.tag;
    Some(Entry {
        share,
        words,
        buffer: answer.buffer[MARGIN..MARGIN + length].to_vec(),
    })
}

fn info(rust: &mut Rust, input: &Lookup, name_max: u32, id: u32) -> Option<Entry> {
    let truth = InfoTruth::of(rust, input, name_max, id);
    let answer = truth.compared(truth.rust()?);
    let Info {
        result,
        type_,
        size,
        name,
    } = answer;
    let share = match result {
        NOENT => "getinfo -2",
        _ if id == NO_SLOT => "getinfo root",
        _ if truth.ours().is_some() => "getinfo directory",
        _ => "getinfo file",
    };
    let mut words = lookup(3, input);
    words[24] = name_max;
    words[25] = id;
    words[26] = result as u32;
    words[27] = type_.into();
    words[28] = size;
    Some(Entry {
        share,
        words,
        buffer: name.to_vec(),
    })
}

fn gstate(rust: &mut Rust, input: &Lookup, state: Gstate) -> Option<Entry> {
    let truth = GstateTruth::of(rust, input, state);
    let (result, after) = *truth.rust()?;
    if truth.ours().is_some() {
        return None;
    }
    let mut words = lookup(4, input);
    words[20] = state.tag;
    [words[21], words[22]] = state.pair;
    words[26] = result as u32;
    words[27] = after.tag;
    [words[28], words[29]] = after.pair;
    Some(Entry {
        share: if after == state {
            "getgstate stays"
        } else {
            "getgstate altered"
        },
        words,
        buffer: Vec::new(),
    })
}

/// What a replaying program fills a buffer with before the call: what the call
/// leaves alone must still be that.
pub const FILLED_WITH: u8 = FILL;
