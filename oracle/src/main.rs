//! The comparison of the port with the unchanged Rust, as a program.
//!
//! Exit: 0 if nothing differed, or if the Rust was not there (the line begins
//! with `SKIPPED:`, and no count is printed); 1 on a difference, on a fault that
//! is not seen, or if a file cannot be written; 2 on a wrong argument.
//!
//! Assumes nothing beyond what `build.rs` found.

#[cfg(lfs_rust)]
mod there;

#[cfg(lfs_rust)]
use std::iter::once_with;
use std::process::ExitCode;
#[cfg(lfs_rust)]
use there::{finding, indexing, refetching, some_write, writing};

const USAGE: &str = "usage: oracle [--one-in N] | oracle refetch [stand-in] [--one-in N]
       oracle find [stand-in] [--one-in N] | oracle index [stand-in] [--one-in N]
       oracle histories [stand-in] [--one-in N] | oracle stopped [stand-in] [--one-in N]
       oracle teeth | oracle record FILE N
Compares the port with the unchanged Rust. `refetch` compares fetching again from a
known end alone, `find` finding a name alone, `index` the tables in memory and the
compaction with one alone, `histories` writing alone, and `stopped` stops accepted calls
after every number of stores: of the port or, with `stand-in`, of the second
implementation. `teeth` instead runs every fault of the second implementation through
the comparisons, and `record` writes N inputs with the Rust's answers to a file. With
--one-in N only the first of N equal parts of the random pairs and histories is taken.
What is compared is fixed when the program is built, by LFS_RUST_SRC and LANOLIN_LIB.";

fn main() -> ExitCode {
    let arguments: Vec<String> = std::env::args_os()
        .skip(1)
        .map(|argument| argument.to_string_lossy().into_owned())
        .collect();
    let words: Vec<&str> = arguments.iter().map(String::as_str).collect();
    // How many parts the random inputs have; the first one is taken.
    let (asked, parts) = match words[..] {
        [ref asked @ .., "--one-in", number] => match number.parse() {
            Ok(parts @ 1..) => (asked, parts),
            _ => return wrong(&format!("not a number from 1: {number}")),
        },
        ref asked => (asked, 1),
    };
    match (asked, parts) {
        ([], _) => compare(parts),
        (["refetch"], _) => refetch(false, parts),
        (["refetch", "stand-in"], _) => refetch(true, parts),
        (["find"], _) => find(false, parts),
        (["find", "stand-in"], _) => find(true, parts),
        (["index"], _) => index(false, parts),
        (["index", "stand-in"], _) => index(true, parts),
        (["histories"], _) => histories(false, parts),
        (["histories", "stand-in"], _) => histories(true, parts),
        (["stopped"], _) => stopped(false, parts),
        (["stopped", "stand-in"], _) => stopped(true, parts),
        (["teeth"], 1) => teeth(),
        (["record", file, number], 1) => match number.parse() {
            Ok(number) => record(file, number),
            Err(_) => wrong(&format!("not a number: {number}")),
        },
        _ => wrong(&format!("no such arguments: {}", words.join(" "))),
    }
}

fn wrong(why: &str) -> ExitCode {
    eprintln!("oracle: {why}");
    eprintln!("{USAGE}");
    ExitCode::from(2)
}

#[cfg(not(lfs_rust))]
fn compare(_parts: u64) -> ExitCode {
    skip()
}

#[cfg(not(lfs_rust))]
use {alone as find, alone as histories, alone as index, alone as refetch, alone as stopped};

#[cfg(not(lfs_rust))]
fn alone(_stand_in: bool, _parts: u64) -> ExitCode {
    skip()
}

#[cfg(not(lfs_rust))]
fn teeth() -> ExitCode {
    skip()
}

#[cfg(not(lfs_rust))]
fn record(_file: &str, _number: usize) -> ExitCode {
    skip()
}

#[cfg(not(lfs_rust))]
fn skip() -> ExitCode {
    println!(
        "SKIPPED: the directory of the unchanged Rust was not found (looked for {}; \
         LFS_RUST_SRC names another), and nothing was compared.",
        oracle::LOOKED_FOR
    );
    ExitCode::SUCCESS
}

#[cfg(lfs_rust)]
fn compare(parts: u64) -> ExitCode {
    println!("The port against the unchanged Rust.");
    say_parts(parts);
    let leaves = oracle::leaves::SUBJECTS
        .iter()
        .map(|subject| vec![subject()]);
    let dirs = once_with(|| oracle::dirs::compare(parts));
    let refetch = once_with(|| refetching(parts));
    let find = once_with(|| finding(parts));
    let index = once_with(|| indexing(parts));
    let histories = once_with(|| writing(parts));
    let reads = dirs.chain(refetch).chain(find).chain(index);
    print_all(leaves.chain(reads).chain(histories))
}

/// The subjects as they come, and the last lines.
#[cfg(lfs_rust)]
fn print_all(subjects: impl Iterator<Item = Vec<oracle::tally::Subject>>) -> ExitCode {
    let start = std::time::Instant::now();
    let mut totals = oracle::tally::Totals::default();
    for subject in subjects.flatten() {
        subject.print();
        totals.add(subject.totals());
    }
    println!("time: {:.2} s", start.elapsed().as_secs_f64());
    conclude(totals)
}

/// Fetching again alone; with `stand-in`, that of the second implementation, to try it
/// against the Rust's fetch.
#[cfg(lfs_rust)]
fn refetch(stand_in: bool, parts: u64) -> ExitCode {
    println!("Fetching again from a known end, and what the unchanged Rust fetches.");
    say_parts(parts);
    print_all(once_with(|| match stand_in {
        true => {
            say_stand_in();
            oracle::refetch::compare(&oracle::refetch::STAND_IN, parts)
        }
        false => refetching(parts),
    }))
}

/// Finding a name alone; with `stand-in`, that of the second implementation, to try
/// it against the Rust's slots.
#[cfg(lfs_rust)]
fn find(stand_in: bool, parts: u64) -> ExitCode {
    use oracle::find::{compare, Voices};
    use oracle::model::{FAULTLESS, FAULTLESS_FINDER};

    println!("Finding a name, and what the unchanged Rust shows slot by slot.");
    say_parts(parts);
    print_all(once_with(|| match stand_in {
        true => {
            say_stand_in();
            let (finder, reader) = (&FAULTLESS_FINDER, &FAULTLESS);
            compare(&Voices { finder, reader }, parts)
        }
        false => finding(parts),
    }))
}

/// The index alone; with `stand-in`, that of the second implementation, to try it
/// against the Rust's lookups.
#[cfg(lfs_rust)]
fn index(stand_in: bool, parts: u64) -> ExitCode {
    use oracle::index::{compare, compare_compactions, STAND_IN};

    println!("The index in memory, and what the unchanged Rust looks up.");
    say_parts(parts);
    print_all(once_with(|| match stand_in {
        true => {
            say_stand_in();
            let mut subjects = compare(&STAND_IN, parts);
            subjects.extend(compare_compactions(&STAND_IN, parts));
            subjects
        }
        false => indexing(parts),
    }))
}

/// Writing alone; with `stand-in`, that of the second implementation, to try it
/// against what the Rust reads.
#[cfg(lfs_rust)]
fn histories(stand_in: bool, parts: u64) -> ExitCode {
    println!("Writing, and what the unchanged Rust reads of it.");
    say_parts(parts);
    print_all(once_with(|| match stand_in {
        true => {
            say_stand_in();
            oracle::histories::compare(&oracle::model::FAULTLESS_WRITER, parts)
        }
        false => writing(parts),
    }))
}

/// Every stop of accepted calls.
#[cfg(lfs_rust)]
fn stopped(stand_in: bool, parts: u64) -> ExitCode {
    use oracle::model::{FAULTLESS, FAULTLESS_WRITER};
    use oracle::port::Port;
    use oracle::stopped::{compare, Asked};

    println!("Accepted calls, stopped after every number of stores.");
    say_parts(parts);
    let start = std::time::Instant::now();
    let (subject, line) = match stand_in {
        true => {
            say_stand_in();
            let (writer, reader) = (&FAULTLESS_WRITER, &FAULTLESS);
            compare(&Asked { writer, reader }, parts)
        }
        false if some_write() => {
            let (writer, reader) = (&Port, &Port);
            compare(&Asked { writer, reader }, parts)
        }
        false => return ExitCode::SUCCESS,
    };
    subject.print();
    println!("time: {:.2} s", start.elapsed().as_secs_f64());
    match subject.totals().differences {
        0 => println!("{line}, no difference"),
        differences => println!("{line}, {differences} DIFFERENCES"),
    }
    ExitCode::from(u8::from(subject.totals().differences > 0))
}

/// Says it where not all is compared.
#[cfg(lfs_rust)]
fn say_parts(parts: u64) {
    if parts > 1 {
        println!("SHORTENED: of the random pairs and histories one in {parts}.");
    }
}

#[cfg(lfs_rust)]
fn say_stand_in() {
    println!("NOT THE PORT: the second implementation stands in for it.");
}

/// The last lines. In the very last the count has plain digits, for scripts.
#[cfg(lfs_rust)]
fn conclude(totals: oracle::tally::Totals) -> ExitCode {
    use oracle::tally::grouped;

    println!(
        "of ours, with no Rust behind them: {} checks",
        grouped(totals.ours)
    );
    println!(
        "by the second implementation, beside the Rust: {} checks",
        grouped(totals.model)
    );
    if totals.differences == 0 {
        println!("oracle: {} comparisons, no difference", totals.comparisons);
        return ExitCode::SUCCESS;
    }
    println!(
        "oracle: {} comparisons, {} DIFFERENCES, in {} of the lines above",
        totals.comparisons, totals.differences, totals.differing
    );
    ExitCode::from(1)
}

#[cfg(lfs_rust)]
fn teeth() -> ExitCode {
    println!("The faults of the second implementation, in the comparison.");
    let start = std::time::Instant::now();
    let all = oracle::teeth::bite();
    println!("time: {:.2} s", start.elapsed().as_secs_f64());
    ExitCode::from(u8::from(!all))
}

#[cfg(lfs_rust)]
fn record(file: &str, number: usize) -> ExitCode {
    let mut list = Vec::new();
    let written = oracle::record::write(&mut list, number)
        .and_then(|counts| std::fs::write(file, &list).map(|()| counts));
    match written {
        Ok(counts) => {
            for (kind, count) in counts {
                println!("  {kind:<20}{count:>8}");
            }
            println!("{number} records, {} bytes, in {file}", list.len());
            ExitCode::SUCCESS
        }
        Err(error) => {
            eprintln!("oracle: {file}: {error}");
            ExitCode::from(1)
        }
    }
}
