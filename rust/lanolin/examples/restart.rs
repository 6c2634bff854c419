//! A controller's restart: reads a metadata pair, finds every instruction's
//! payload and deadline, hangs the instructions on a timer wheel and prints them
//! in the order in which they come due; then those that lack a deadline or a
//! payload, so that none is dropped in silence. `examples/c/restart.c` does the
//! same in C.
//!
//!     restart FILE     FILE has both blocks of the pair, one behind the other.
//!
//! Exits 2 if it is no such file, 1 if its pair is refused.

use lanolin::{
    Found, Geometry, Gstate, Pair, Record, Refusal, Tag, ATTR_MAX, MASK_CLASS, MASK_TYPE,
    SLOTS_MAX, TYPE_CTZSTRUCT, TYPE_DIR, TYPE_INLINESTRUCT, TYPE_NAME, TYPE_STRUCT,
    TYPE_SUPERBLOCK, TYPE_USERATTR,
};
use std::path::{Path, PathBuf};
use std::process::ExitCode;
use std::{env, fs};

const PROG_SIZE: u32 = 16;
const MOST_BLOCK: usize = 32768;
const BUCKETS: usize = 64;
/// The byte that this controller chose.
const DEADLINE: u32 = TYPE_USERATTR + 0x74;

#[derive(Clone, Copy)]
enum Deadline {
    None,
    Seconds(u32),
    /// Of another length than four bytes: it is there, and can't be read.
    OfBytes(usize),
}

#[derive(Clone, Copy)]
struct Slot {
    payload: Option<u32>, // its length
    deadline: Deadline,
}

const EMPTY: Slot = Slot {
    payload: None,
    deadline: Deadline::None,
};

/// One directory, read.
struct Directory<'a> {
    pair: Pair<'a>,
    record: Record,
}

impl Directory<'_> {
    /// The newest entry of a slot, and as many of its bytes as are asked for. The
    /// global state is zero, no pending move: one pair alone can't tell. A
    /// controller with several pairs XORs the move states of all of them
    /// (`get_gstate`) and hands in the sum.
    fn look(
        &self,
        mask: u32,
        type_: u32,
        id: u16,
        buffer: &mut [u8],
    ) -> Result<Option<Found>, Refusal> {
        let key = Tag::new(type_, id.into(), 0);
        match self
            .pair
            .get_slice(self.record, Gstate::default(), mask, key, 0, buffer)
        {
            Ok(found) => Ok(Some(found)),
            Err(Refusal::NoEntry) => Ok(None),
            Err(other) => Err(other),
        }
    }

    /// What the slot has. Directories and the superblock are no instructions.
    fn slot(&self, id: u16) -> Result<Slot, Refusal> {
        let name = self.look(MASK_CLASS, TYPE_NAME, id, &mut [])?;
        if name.is_some_and(|name| matches!(name.tag.type3(), TYPE_DIR | TYPE_SUPERBLOCK)) {
            return Ok(EMPTY);
        }
        let mut ctz = [0; 8];
        let found = self.look(MASK_CLASS, TYPE_STRUCT, id, &mut ctz)?;
        let payload = found.and_then(|found| match (found.tag.type3(), found.size()) {
            (TYPE_CTZSTRUCT, _) => Some(le32(&ctz[4..])), // last block, then length
            (TYPE_INLINESTRUCT, size) if size > 0 => Some(size as u32),
            _ => None,
        });
        let mut seconds = [0; 4];
        let found = self.look(MASK_TYPE, DEADLINE, id, &mut seconds)?;
        let deadline = match found.map(Found::size) {
            None => Deadline::None,
            Some(4) => Deadline::Seconds(u32::from_le_bytes(seconds)),
            Some(size) => Deadline::OfBytes(size),
        };
        Ok(Slot { payload, deadline })
    }

    fn name(&self, id: u16) -> Result<String, Refusal> {
        let mut name = [0; ATTR_MAX];
        let Some(found) = self.look(MASK_CLASS, TYPE_NAME, id, &mut name)? else {
            return Ok(String::from("-"));
        };
        let shown = |byte: &u8| match byte {
            b'\\' => String::from("\\x5c"),
            0x21..=0x7e => char::from(*byte).to_string(),
            _ => format!("\\x{byte:02x}"),
        };
        Ok(name[..found.size()].iter().map(shown).collect())
    }

    fn print(&self, mark: &str, id: u16, slot: &Slot) -> Result<(), Refusal> {
        let payload = slot
            .payload
            .map_or(String::from("-"), |length| length.to_string());
        let deadline = match slot.deadline {
            Deadline::None => String::from("-"),
            Deadline::Seconds(seconds) => seconds.to_string(),
            Deadline::OfBytes(size) => format!("of {size} bytes"),
        };
        println!(
            "{mark} {id} {} payload {payload} deadline {deadline}",
            self.name(id)?
        );
        Ok(())
    }
}

fn le32(bytes: &[u8]) -> u32 {
    u32::from_le_bytes([bytes[0], bytes[1], bytes[2], bytes[3]])
}

/// The timer wheel: fixed arrays, no heap. A slot's bucket is its deadline
/// modulo their number, and each bucket has its earliest first: a tick looks at
/// one head. Equal deadlines share a bucket and keep the order of their slots.
struct Wheel {
    heads: [Option<u16>; BUCKETS],
    next: [Option<u16>; SLOTS_MAX],
    due: [u32; SLOTS_MAX],
}

impl Wheel {
    fn new() -> Wheel {
        Wheel {
            heads: [None; BUCKETS],
            next: [None; SLOTS_MAX],
            due: [0; SLOTS_MAX],
        }
    }

    fn hang(&mut self, id: u16, seconds: u32) {
        let bucket = seconds as usize % BUCKETS;
        let (mut before, mut behind) = (None, self.heads[bucket]);
        while let Some(other) = behind.filter(|&other| self.due[usize::from(other)] <= seconds) {
            before = behind;
            behind = self.next[usize::from(other)];
        }
        self.due[usize::from(id)] = seconds;
        self.next[usize::from(id)] = behind;
        match before {
            None => self.heads[bucket] = Some(id),
            Some(other) => self.next[usize::from(other)] = Some(id),
        }
    }

    /// Takes the next one to come due off the wheel. It may be years off, so no
    /// tick is counted: it is the earliest of the heads.
    fn next_due(&mut self) -> Option<u16> {
        let heads = self.heads.iter_mut().filter(|head| head.is_some());
        let first = heads.min_by_key(|head| head.map(|id| self.due[usize::from(id)]))?;
        let id = (*first)?;
        *first = self.next[usize::from(id)];
        Some(id)
    }
}

/// The file's bytes, if they can be two blocks.
fn read(file: &Path) -> Result<Vec<u8>, String> {
    let image = fs::read(file).map_err(|error| error.to_string())?;
    match image.len() {
        0 => Err(String::from("empty")),
        size if size % 2 == 1 || size > 2 * MOST_BLOCK => Err(String::from(
            "not two blocks of equal size, of 32,768 bytes at most",
        )),
        _ => Ok(image),
    }
}

fn restart(image: &[u8]) -> Result<(), Refusal> {
    let (b0, b1) = image.split_at(image.len() / 2);
    let geometry = Geometry {
        block_size: b0.len() as u32,
        prog_size: PROG_SIZE,
    };
    let pair = Pair {
        geometry,
        images: [b0, b1],
        numbers: [0, 1],
    };
    let record = pair.fetch(0, 0)?.record;
    let directory = Directory { pair, record };

    let mut slots = [EMPTY; SLOTS_MAX];
    let mut wheel = Wheel::new();
    for (id, slot) in (0..record.count).zip(&mut slots) {
        *slot = directory.slot(id)?;
        if let Slot {
            payload: Some(_),
            deadline: Deadline::Seconds(seconds),
        } = *slot
        {
            wheel.hang(id, seconds);
        }
    }
    while let Some(id) = wheel.next_due() {
        directory.print("due", id, &slots[usize::from(id)])?;
    }
    for (id, slot) in (0..record.count).zip(&slots) {
        if slot.payload.is_some() && !matches!(slot.deadline, Deadline::Seconds(_)) {
            directory.print("NO DEADLINE", id, slot)?;
        }
    }
    for (id, slot) in (0..record.count).zip(&slots) {
        if slot.payload.is_none() && !matches!(slot.deadline, Deadline::None) {
            directory.print("NO PAYLOAD", id, slot)?;
        }
    }
    // A hard tail: the rest of the directory is in another pair.
    if record.split {
        println!(
            "goes on in blocks {} and {}",
            record.tail[0], record.tail[1]
        );
    }
    Ok(())
}

fn main() -> ExitCode {
    let arguments: Vec<PathBuf> = env::args_os().skip(1).map(PathBuf::from).collect();
    let [file] = &arguments[..] else {
        eprintln!("usage: restart FILE   (both blocks of a pair, as in samples/q212.pair)");
        return ExitCode::from(2);
    };
    let image = match read(file) {
        Ok(image) => image,
        Err(why) => {
            eprintln!("{}: {why}", file.display());
            return ExitCode::from(2);
        }
    };
    match restart(&image) {
        Ok(()) => ExitCode::SUCCESS,
        Err(refusal) => {
            eprintln!("{}: {refusal}", file.display());
            ExitCode::from(1)
        }
    }
}
