//! One call on its way: the task, the images before it, what must come out, and
//! what the pair is afterwards.
//!
//! Assumes nothing.

use crate::calls::write::{Answer, Task, Work, Writes};
use crate::calls::{hex, Blocks, Fetch, Fetched, Voice};
use crate::generate::Case;
use crate::model::{Directory, FAULTLESS};
use std::fmt::{self, Debug, Formatter};

/// Bytes beside each image: one altered there is seen too.
const MARGIN: usize = 8;
const FILL: u8 = 0xa5;

/// The answer, and the memory afterwards: both images with what is beside them.
#[derive(Clone, PartialEq)]
pub struct Outcome {
    pub answer: Answer,
    memory: Vec<u8>,
    lengths: [usize; 2],
}

impl Outcome {
    /// Asks for one call, on a copy of the images.
    pub fn of(voice: &impl Writes, task: &Task, images: &[Vec<u8>; 2]) -> Outcome {
        let lengths = [images[0].len(), images[1].len()];
        let mut memory = vec![FILL; lengths[0] + lengths[1] + 3 * MARGIN];
        let (first, second) = memory.split_at_mut(MARGIN + lengths[0]);
        let b0 = &mut first[MARGIN..];
        let b1 = &mut second[MARGIN..MARGIN + lengths[1]];
        b0.copy_from_slice(&images[0]);
        b1.copy_from_slice(&images[1]);
        let answer = voice.write(task, [b0, b1]);
        Outcome {
            answer,
            memory,
            lengths,
        }
    }

    /// What must come out: an answer, and the images with the margins as they
    /// were.
    pub fn expected(answer: Answer, images: &[Vec<u8>; 2]) -> Outcome {
        let margin = [FILL; MARGIN];
        let [b0, b1] = images;
        Outcome {
            answer,
            memory: [&margin[..], b0, &margin, b1, &margin].concat(),
            lengths: [b0.len(), b1.len()],
        }
    }

    pub fn images(&self) -> [Vec<u8>; 2] {
        let [len0, len1] = self.lengths;
        let second = 2 * MARGIN + len0;
        [
            self.memory[MARGIN..MARGIN + len0].to_vec(),
            self.memory[second..second + len1].to_vec(),
        ]
    }
}

impl Debug for Outcome {
    fn fmt(&self, f: &mut Formatter) -> fmt::Result {
        let [b0, b1] = self.images();
        write!(f, "{:?}, images {} and {}", self.answer, hex(&b0), hex(&b1))
    }
}

/// What the pair is after a call.
pub enum After {
    /// As before.
    Refused,
    Finished,
    /// Cut short, or not: fetched before and at the end, and whether the
    /// finished bytes are there already. If the history goes on from there, the
    /// directory is read too.
    Cut {
        old: Fetched,
        new: Fetched,
        finished: bool,
        goes_on: bool,
    },
}

pub struct Step<'a> {
    /// Why the call is made, for the counts.
    pub kind: &'static str,
    pub task: Task<'a>,
    pub case: &'a Case,
    /// What must come out.
    pub truth: &'a Outcome,
    pub after: After,
    /// The directory before the call, and with its entries applied: kept by the
    /// machine, from the lists alone.
    pub directories: [&'a Directory; 2],
    /// The user attributes that the history uses.
    pub types: &'a [u32],
}

pub fn task<'a>(
    case: &Case,
    rules: u32,
    erased: u8,
    work: Work<'a>,
    stores: Option<u32>,
) -> Task<'a> {
    Task {
        geometry: case.geometry,
        numbers: case.numbers,
        block_count: case.block_count,
        seed: case.seed,
        rules,
        erased,
        work,
        stores,
    }
}

/// What the second implementation's fetch says of the case with other images.
pub fn fetched(case: &Case, images: &[Vec<u8>; 2]) -> Fetched {
    FAULTLESS.fetch(&Fetch {
        blocks: Blocks {
            images: [&images[0], &images[1]],
            ..case.blocks()
        },
        block_count: case.block_count,
        seed: case.seed,
    })
}

/// The step's inputs as text.
pub fn text(step: &Step) -> String {
    let Task {
        geometry, numbers, ..
    } = step.task;
    let [b0, b1] = &step.case.images;
    let work = match step.task.work {
        Work::Commit { entries, data } => format!("commit {entries:x?} over {}", hex(data)),
        Work::Compact => String::from("compaction"),
    };
    format!(
        "{geometry:?}, numbers {numbers:x?}, block count {:#x}, seed {:#x}, rules {}, \
         erased byte {:#04x}, stores {:?}, {work}, images {} and {}",
        step.task.block_count,
        step.task.seed,
        step.task.rules,
        step.task.erased,
        step.task.stores,
        hex(b0),
        hex(b1)
    )
}
