//! Inputs as text, so that a difference can be made again from what is printed.
//!
//! Assumes nothing.

use super::inputs::Question;
use crate::calls::find::Find;
use crate::calls::index::Index;
use crate::calls::refetch::Refetch;
use crate::calls::{hex, Blocks, Fetch, Lookup};

/// What a difference's input weighs: the smallest one is printed.
pub fn weight(question: &Question) -> usize {
    let (blocks, more) = match question {
        Question::Fetch(input) => (&input.blocks, 0),
        Question::Slice { input, length, .. } => (&input.blocks, *length),
        Question::Info { input, .. } => (&input.blocks, 0),
        Question::Gstate { input, .. } => (&input.blocks, 0),
    };
    weight_of(blocks) + more
}

pub fn weight_of(blocks: &Blocks) -> usize {
    let bytes: usize = blocks.images.iter().map(|image| written(image)).sum();
    1000 * bytes + blocks.images[0].len()
}

/// The bytes up to the last one that is not as the very last: behind it, all is erased.
fn written(image: &[u8]) -> usize {
    let last = image.iter().rposition(|byte| Some(byte) != image.last());
    last.map_or(0, |last| last + 1)
}

pub fn text(question: &Question) -> String {
    match question {
        Question::Fetch(input) => fetch(input),
        Question::Slice {
            slicer,
            input,
            query,
            length,
            ..
        } => format!(
            "{slicer:?}, {}\n    mask {:#010x}, key {:#010x}, offset {}, buffer {length}",
            lookup(input),
            query.mask,
            query.key,
            query.offset
        ),
        Question::Info {
            input,
            name_max,
            id,
        } => format!("{}\n    longest name {name_max}, id {id}", lookup(input)),
        Question::Gstate { input, state } => {
            format!("{}\n    state {state:x?}", lookup(input))
        }
    }
}

/// `first` is the seed of the fetch that it is held against.
pub fn refetch(input: &Refetch, first: u32) -> String {
    format!(
        "{}\n    {:?}\n    first seed {first:#010x}",
        fetch(&input.fetch),
        input.dir
    )
}

pub fn find(input: &Find) -> String {
    format!(
        "{}\n    rules {}, name {}, type {:#x}",
        fetch(&input.fetch),
        input.rules,
        hex(input.name),
        input.type_
    )
}

pub fn index(input: &Index) -> String {
    format!(
        "{}\n    {:?}\n    rules {}",
        blocks(&input.blocks),
        input.dir,
        input.rules
    )
}

fn fetch(input: &Fetch) -> String {
    format!(
        "{}\n    block count {:#x}, seed {:#010x}",
        blocks(&input.blocks),
        input.block_count,
        input.seed
    )
}

fn lookup(input: &Lookup) -> String {
    format!(
        "{}\n    {:?}\n    on disk {:x?}",
        blocks(&input.blocks),
        input.dir,
        input.gdisk
    )
}

fn blocks(blocks: &Blocks) -> String {
    let [first, second] = blocks.images.map(hex);
    format!(
        "block size {}, program size {}, numbers {:#x} {:#x}\n    \
         image {first}\n    image {second}",
        blocks.geometry.block_size, blocks.geometry.prog_size, blocks.numbers[0], blocks.numbers[1]
    )
}
