//! Prints the slot and the deadline of a file, asked for by its name: what a clerk
//! at the gate wants to know of an instruction. The deadline, in seconds, is the
//! four bytes of its user attribute 0x74. `examples/c/find.c` does the same in C.
//!
//!     find FILE NAME     FILE has both blocks of a pair, one behind the other: one
//!                        that this library wrote, or littlefs
//!
//! It looks in this pair alone; a directory may go on in another one. A deadline of
//! another length can't be read: its length is told. Exits 1 if no file has the
//! name or it is refused; 2 if it is used wrongly or the file can't be read.

use lanolin::{Geometry, Gstate, Pair, Refusal, Rules, Tag, MASK_TYPE, TYPE_REG, TYPE_USERATTR};
use std::io::{self, Write};
use std::path::PathBuf;
use std::process::ExitCode;
use std::{env, fs};

/// Slot and deadline of the file, as they are told; none if no file has the name.
fn found(image: &[u8], name: &[u8]) -> Result<Option<String>, Refusal> {
    let (b0, b1) = image.split_at(image.len() / 2);
    let geometry = Geometry {
        block_size: b0.len() as u32,
        prog_size: 16,
    };
    let pair = Pair {
        geometry,
        images: [b0, b1],
        numbers: [0, 1],
    };
    let rules = Rules::Littlefs; // the pair may be one that littlefs itself compacted
    let Some(slot) = pair.find(0, 0, rules, name, TYPE_REG)? else {
        return Ok(None);
    };

    let mut seconds = [0; 4];
    let key = Tag::new(TYPE_USERATTR + 0x74, slot, 0);
    let record = pair.fetch(0, 0)?.record;
    let deadline = match pair.get_slice(record, Gstate::default(), MASK_TYPE, key, 0, &mut seconds)
    {
        Ok(found) if found.size() == seconds.len() => {
            format!("deadline {}", u32::from_le_bytes(seconds))
        }
        Ok(found) => format!("deadline of {} bytes", found.size()),
        Err(Refusal::NoEntry) => "no deadline".into(),
        Err(refusal) => return Err(refusal),
    };
    Ok(Some(format!("slot {slot} {deadline}")))
}

fn main() -> ExitCode {
    let arguments: Vec<PathBuf> = env::args_os().skip(1).map(PathBuf::from).collect();
    let [file, name] = &arguments[..] else {
        let usage = "usage: find FILE NAME   (both blocks of a pair, as in samples/q212.pair)";
        return exit(2, usage.as_bytes());
    };
    // A name may have any bytes, and is printed as it is.
    let name = name.as_os_str().as_encoded_bytes();
    match fs::read(file).map(|image| found(&image, name)) {
        Ok(Ok(Some(told))) => {
            let line = [name, b" ", told.as_bytes(), b"\n"].concat();
            io::stdout()
                .write_all(&line)
                .map_or(ExitCode::from(2), |()| ExitCode::SUCCESS)
        }
        Ok(Ok(None)) => exit(1, &[b"no file named ", name].concat()),
        Ok(Err(refusal)) => exit(1, format!("refused: {}", refusal.number()).as_bytes()),
        Err(error) => exit(2, format!("{}: {error}", file.display()).as_bytes()),
    }
}

fn exit(status: u8, said: &[u8]) -> ExitCode {
    let _ = io::stderr().write_all(&[said, b"\n"].concat());
    ExitCode::from(status)
}
