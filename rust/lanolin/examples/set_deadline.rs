//! Gives a slot a new deadline, in seconds: a commit of its user attribute 0x74.
//! Where there is no room for it, says why, compacts the pair and commits once
//! more. `examples/c/set_deadline.c` does the same in C.
//!
//!     set_deadline FILE SLOT SECONDS [PROG_SIZE [ERASED]]
//!
//! FILE has both blocks of a pair, one behind the other, and is written anew: one
//! that this library wrote, or littlefs itself. Without PROG_SIZE it is 16. ERASED is
//! what the flash reads as after an erase, ff or 00; without it ff. A pair that comes
//! from a board of the other byte is compacted first. Exits 1 if it is refused, with
//! FILE as it was; 2 if it is used wrongly or the file can't be read or written.

use lanolin::{Entry, Erased, Fetched, Geometry, PairMut, Refusal, Rules};
use std::path::PathBuf;
use std::process::ExitCode;
use std::{env, fs};

/// What the service desk is told. `end` is where the log ends: there a commit
/// begins, and there a torn one shows.
fn why(refusal: Refusal, end: u32) -> String {
    match refusal {
        Refusal::NoSpace => "the block is full".into(),
        Refusal::Misaligned => "the log's end is no multiple of the program size".into(),
        Refusal::WrongValidity => "the end tag has the wrong validity bit".into(),
        Refusal::NotErased(at) if at == end => {
            format!("byte {at} isn't erased, as after a commit that was cut short")
        }
        Refusal::NotErased(at) => format!("byte {at} isn't erased, which no commit of ours left"),
        other => other.to_string(),
    }
}

fn set_deadline(
    pair: &mut PairMut,
    erased: Erased,
    slot: u16,
    seconds: u32,
) -> Result<Fetched, Refusal> {
    let deadline = [Entry::user_attr(0x74, slot, 0, 4)];
    let data = seconds.to_le_bytes();
    let rules = Rules::Littlefs; // the pair may be one that littlefs itself compacted
    let mut known = pair.as_pair().fetch(0, 0)?;
    if let Err(refusal) = pair.commit(0, 0, rules, erased, &deadline, &data) {
        if !refusal.needs_compaction() {
            return Err(refusal);
        }
        let said = why(refusal, known.record.off);
        println!("no room, {}: {said}", refusal.number());
        // Behind a compaction the old record serves no more; this is a fetch's answer.
        known = pair.compact(0, 0, rules, erased)?;
        println!("compacted");
        pair.commit(0, 0, rules, erased, &deadline, &data)?;
    }
    // Behind a commit only what it wrote is walked again.
    pair.as_pair().refetch(0, known)
}

/// The erased byte: ff or 00.
fn erased_byte(text: &str) -> Option<Erased> {
    [("ff", Erased::Ones), ("00", Erased::Zeros)]
        .into_iter()
        .find_map(|(digits, erased)| (digits == text).then_some(erased))
}

fn main() -> ExitCode {
    let arguments: Vec<PathBuf> = env::args_os().skip(1).map(PathBuf::from).collect();
    let given = |at: usize| arguments.get(at)?.to_str();
    let number = |at: usize| given(at)?.parse::<u32>().ok();
    let prog_size = if arguments.len() > 3 {
        number(3)
    } else {
        Some(16)
    };
    let erased = if arguments.len() > 4 {
        given(4).and_then(erased_byte)
    } else {
        Some(Erased::Ones)
    };
    let slot = number(1).and_then(|slot| u16::try_from(slot).ok());
    let (3..=5, Some(slot), Some(seconds), Some(prog_size), Some(erased)) =
        (arguments.len(), slot, number(2), prog_size, erased)
    else {
        return exit(
            2,
            "usage: set_deadline FILE SLOT SECONDS [PROG_SIZE [ERASED]]   (both blocks of a pair)",
        );
    };
    let file = &arguments[0];
    let unusable = |why: &dyn std::fmt::Display| exit(2, &format!("{}: {why}", file.display()));
    let mut image = match fs::read(file) {
        Ok(image) => image,
        Err(error) => return unusable(&error),
    };
    if image.len() % 2 != 0 {
        return unusable(&"not two blocks of one size");
    }
    let half = image.len() / 2;
    let (b0, b1) = image.split_at_mut(half);
    let mut pair = PairMut {
        geometry: Geometry {
            block_size: half as u32,
            prog_size,
        },
        images: [b0, b1],
        numbers: [0, 1],
    };
    match set_deadline(&mut pair, erased, slot, seconds) {
        Ok(done) => println!(
            "committed: revision {}, end {}",
            done.record.rev, done.record.off
        ),
        Err(refusal) => return exit(1, &refusal.to_string()),
    }
    match fs::write(file, &image) {
        Ok(()) => ExitCode::SUCCESS,
        Err(error) => unusable(&error),
    }
}

fn exit(status: u8, said: &str) -> ExitCode {
    eprintln!("{said}");
    ExitCode::from(status)
}
