//! The timer wheel of a controller's restart, rebuilt from an index: one build and
//! one pass over its table, where `restart.rs` asks slot by slot and each lookup
//! walks the block. Prints each instruction's slot, name and deadline in the order
//! in which they come due; then those that lack a deadline or a payload, so that
//! none is dropped in silence. `examples/c/wheel.c` does the same in C.
//!
//!     wheel FILE     FILE has both blocks of the pair, one behind the other: one
//!                    that this library wrote, or littlefs
//!
//! Its rule is `restart.rs`'s. A deadline is the user attribute 0x74 of four bytes;
//! of another length it can't be read, and beside a payload it counts as missing.
//! Exits 2 if it is no such file, 1 if its pair is refused.

use lanolin::{
    Geometry, Index, Pair, Refusal, Rules, Slot, TYPE_CTZSTRUCT, TYPE_DIR, TYPE_INLINESTRUCT,
    TYPE_SUPERBLOCK,
};
use std::collections::VecDeque;
use std::path::{Path, PathBuf};
use std::process::ExitCode;
use std::{array, env, fs};

const PROG_SIZE: u32 = 16;
const MOST_BLOCK: usize = 32768;
const BUCKETS: usize = 64;
/// The user attribute that this controller chose.
const DEADLINE: u8 = 0x74;

/// An instruction, as its slot has it.
struct Instruction<'a> {
    slot: Slot<'a, 'a>,
    payload: bool,
    deadline: Option<&'a [u8]>,
}

impl<'a> Instruction<'a> {
    /// Directories and the superblock are none.
    fn of(slot: Slot<'a, 'a>) -> Option<Instruction<'a>> {
        let type_ = slot.name().map(|name| name.tag.type3());
        if matches!(type_, Some(TYPE_DIR | TYPE_SUPERBLOCK)) {
            return None;
        }
        let payload = slot.struct_().is_some_and(|it| match it.tag.type3() {
            TYPE_CTZSTRUCT => true,
            TYPE_INLINESTRUCT => !it.bytes.is_empty(),
            _ => false,
        });
        let deadline = slot.attr(DEADLINE).map(|deadline| deadline.bytes);
        Some(Instruction {
            slot,
            payload,
            deadline,
        })
    }

    /// Its deadline, where it can be read.
    fn seconds(&self) -> Option<u32> {
        let bytes = self.deadline?.try_into().ok()?;
        Some(u32::from_le_bytes(bytes))
    }

    fn print(&self, mark: &str) {
        let name = self.slot.name().map_or(String::from("-"), |name| {
            name.bytes.iter().map(shown).collect()
        });
        let deadline = match (self.seconds(), self.deadline) {
            (Some(seconds), _) => seconds.to_string(),
            (None, Some(bytes)) => format!("of {} bytes", bytes.len()),
            (None, None) => String::from("-"),
        };
        println!("{mark} {} {name} deadline {deadline}", self.slot.id());
    }
}

/// A byte of a name: as it is, where it is plain text.
fn shown(byte: &u8) -> String {
    match byte {
        b'\\' => String::from("\\x5c"),
        0x21..=0x7e => char::from(*byte).to_string(),
        _ => format!("\\x{byte:02x}"),
    }
}

/// The timer wheel: an instruction's bucket is its deadline modulo their number, and
/// each bucket has its earliest first. Equal deadlines share a bucket and keep the
/// order of their slots.
struct Wheel<'a>([VecDeque<(u32, Instruction<'a>)>; BUCKETS]);

impl<'a> Wheel<'a> {
    fn new() -> Wheel<'a> {
        Wheel(array::from_fn(|_| VecDeque::new()))
    }

    fn hang(&mut self, seconds: u32, instruction: Instruction<'a>) {
        let bucket = &mut self.0[seconds as usize % BUCKETS];
        let before = bucket.partition_point(|other| other.0 <= seconds);
        bucket.insert(before, (seconds, instruction));
    }

    /// Takes the next one to come due off the wheel: the earliest of the heads.
    fn next_due(&mut self) -> Option<Instruction<'a>> {
        let buckets = self.0.iter_mut().filter(|bucket| !bucket.is_empty());
        let first = buckets.min_by_key(|bucket| bucket[0].0)?;
        first.pop_front().map(|due| due.1)
    }
}

/// The file's bytes, if they can be two blocks.
fn read(file: &Path) -> Result<Vec<u8>, String> {
    let image = fs::read(file).map_err(|error| error.to_string())?;
    match image.len() {
        0 => Err(String::from("empty")),
        size if size % 2 == 1 || size > 2 * MOST_BLOCK => Err(String::from(
            "not two blocks of equal size, of 32,768 bytes at most",
        )),
        _ => Ok(image),
    }
}

fn rebuild(image: &[u8]) -> Result<(), Refusal> {
    let (b0, b1) = image.split_at(image.len() / 2);
    let geometry = Geometry {
        block_size: b0.len() as u32,
        prog_size: PROG_SIZE,
    };
    let pair = Pair {
        geometry,
        images: [b0, b1],
        numbers: [0, 1],
    };
    let record = pair.fetch(0, 0)?.record;

    // Where the table is too short, one of twice its length is lent; `block_size / 2`
    // words always do. The pair may be one that littlefs itself compacted.
    let mut table = vec![0; 32];
    let index = loop {
        match Index::build(&pair, record, Rules::Littlefs, &mut table) {
            Err(Refusal::TableFull) => table.resize(2 * table.len(), 0),
            built => break built?,
        }
    };

    let (mut wheel, mut undated, mut empty) = (Wheel::new(), vec![], vec![]);
    for instruction in index.slots(&pair)?.filter_map(Instruction::of) {
        match (instruction.payload, instruction.seconds()) {
            (true, Some(seconds)) => wheel.hang(seconds, instruction),
            (true, None) => undated.push(instruction),
            (false, _) if instruction.deadline.is_some() => empty.push(instruction),
            _ => {}
        }
    }
    while let Some(due) = wheel.next_due() {
        due.print("due");
    }
    undated.iter().for_each(|it| it.print("NO DEADLINE"));
    empty.iter().for_each(|it| it.print("NO PAYLOAD"));
    // A hard tail: the rest of the directory is in another pair.
    if record.split {
        let [first, second] = record.tail;
        println!("goes on in blocks {first} and {second}");
    }
    Ok(())
}

fn main() -> ExitCode {
    let arguments: Vec<PathBuf> = env::args_os().skip(1).map(PathBuf::from).collect();
    let [file] = &arguments[..] else {
        eprintln!("usage: wheel FILE   (both blocks of a pair, as in samples/q212.pair)");
        return ExitCode::from(2);
    };
    let image = match read(file) {
        Ok(image) => image,
        Err(why) => {
            eprintln!("{}: {why}", file.display());
            return ExitCode::from(2);
        }
    };
    match rebuild(&image) {
        Ok(()) => ExitCode::SUCCESS,
        Err(refusal) => {
            eprintln!("{}: {refusal}", file.display());
            ExitCode::from(1)
        }
    }
}
