//! Prints the deadline of a slot, in seconds: the four bytes of its user
//! attribute 0x74. `examples/c/deadline.c` does the same in C.
//!
//!     deadline FILE [SLOT]     FILE has both blocks of a pair, one behind the
//!                              other; without SLOT it is slot 0.
//!
//! Exits 1 if the pair is refused or the slot has no deadline or one of another
//! length, which can't be read; 2 if it is used wrongly or the file can't be read.

use lanolin::{Geometry, Gstate, Pair, Refusal, Tag, MASK_TYPE, TYPE_USERATTR};
use std::path::PathBuf;
use std::process::ExitCode;
use std::{env, fs};

/// The deadline, or why there is none.
fn deadline(image: &[u8], slot: u32) -> Result<u32, String> {
    let (b0, b1) = image.split_at(image.len() / 2);
    let geometry = Geometry {
        block_size: b0.len() as u32,
        prog_size: 16,
    };
    let pair = Pair {
        geometry,
        images: [b0, b1],
        numbers: [0, 1],
    };
    let record = match pair.fetch(0, 0) {
        Ok(fetched) => fetched.record,
        Err(refusal) => return Err(format!("the pair is {refusal}")),
    };
    if slot >= record.count.into() {
        return Err(format!("there is no slot {slot}"));
    }

    let mut seconds = [0; 4];
    let key = Tag::new(TYPE_USERATTR + 0x74, slot, 0);
    match pair.get_slice(record, Gstate::default(), MASK_TYPE, key, 0, &mut seconds) {
        Ok(found) if found.size() == seconds.len() => Ok(u32::from_le_bytes(seconds)),
        Ok(found) => Err(format!(
            "slot {slot} has a deadline of {} bytes",
            found.size()
        )),
        Err(Refusal::NoEntry) => Err(format!("slot {slot} has no deadline")),
        Err(refusal) => Err(format!("the lookup is {refusal}")),
    }
}

fn main() -> ExitCode {
    let arguments: Vec<PathBuf> = env::args_os().skip(1).map(PathBuf::from).collect();
    let (file, slot) = match &arguments[..] {
        [file] => (file, Some(0)),
        [file, slot] => (file, slot.to_str().and_then(|slot| slot.parse().ok())),
        _ => return usage(),
    };
    let Some(slot) = slot else { return usage() };
    match fs::read(file).map(|image| deadline(&image, slot)) {
        Ok(Ok(seconds)) => {
            println!("{seconds}");
            ExitCode::SUCCESS
        }
        Ok(Err(why)) => {
            eprintln!("{why}");
            ExitCode::from(1)
        }
        Err(error) => {
            eprintln!("{}: {error}", file.display());
            ExitCode::from(2)
        }
    }
}

fn usage() -> ExitCode {
    eprintln!("usage: deadline FILE [SLOT]   (both blocks of a pair, as in samples/q212.pair)");
    ExitCode::from(2)
}
