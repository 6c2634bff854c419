//! The speed of the port beside the unchanged Rust, both measured in one run.
//!
//! Exit: 0; 1 if a compaction takes more fetches than it may, with `--goal` also
//! if the port misses the goal, and with `--unjudged` never; 2 on a wrong argument.
//! Without the Rust it measures nothing and says so (`SKIPPED:`).
//!
//! Assumes that nothing else of weight runs meanwhile.

#[cfg(lfs_rust)]
mod counts;
#[cfg(lfs_rust)]
mod directory;
#[cfg(lfs_rust)]
mod finding;
#[cfg(lfs_rust)]
mod index_lines;
#[cfg(lfs_rust)]
mod indexing;
#[cfg(lfs_rust)]
mod measure;
#[cfg(lfs_rust)]
mod orders;
#[cfg(lfs_rust)]
mod refetching;
#[cfg(lfs_rust)]
mod writing;

#[cfg(lfs_rust)]
use directory::{Directory, SPREAD};
#[cfg(lfs_rust)]
use std::hint::black_box;
use std::process::ExitCode;

const USAGE: &str = "usage: bench [--goal | --unjudged]
Measures the port beside the unchanged Rust, and finding, fetching again, building a
table and writing beside one fetch of the same pair. It exits 1 if a compaction of 1,000
slots takes more than 300 fetches; with --goal also if lfs_crc of 4,096 bytes takes more
than 1.10 times the Rust's time, finding a name more than 1.5 fetches, a refetch behind
one commit in a block of 32,768 bytes more than 0.05 of a fetch, all deadlines of 1,000
slots by a table more than 0.02 of the Rust's lookups, a build of 1,000 slots written in
order more than 4 fetches, a commit more than 1.3 fetches, or a compaction of 1,000 slots
with a table more than 30. With --unjudged, for an emulator, no time makes it fail.";

/// Which figures make the program fail.
#[derive(Clone, Copy, PartialEq)]
enum Judged {
    Nothing,
    Writing,
    WritingAndGoal,
}

fn main() -> ExitCode {
    let arguments: Vec<_> = std::env::args_os().skip(1).collect();
    let words: Vec<_> = arguments.iter().map(|word| word.to_str()).collect();
    match words[..] {
        [] => measure(Judged::Writing),
        [Some("--goal")] => measure(Judged::WritingAndGoal),
        [Some("--unjudged")] => measure(Judged::Nothing),
        _ => {
            eprintln!("{USAGE}");
            ExitCode::from(2)
        }
    }
}

#[cfg(not(lfs_rust))]
fn measure(_judged: Judged) -> ExitCode {
    println!(
        "SKIPPED: the directory of the unchanged Rust was not found (looked for {}; \
         LFS_RUST_SRC names another), and nothing was measured.",
        oracle::LOOKED_FOR
    );
    ExitCode::SUCCESS
}

/// The most that the port may take of the Rust's time, and the length at which
/// the goal is asked.
#[cfg(lfs_rust)]
const GOAL: (f64, usize) = (1.10, 4096);

#[cfg(lfs_rust)]
fn measure(judged: Judged) -> ExitCode {
    let read = (read_lines(), format!("{:.2} at {} bytes", GOAL.0, GOAL.1));
    let find = (find_lines(), format!("{} fetches", finding::MOST_FETCHES));
    let again = (
        refetch_lines(),
        format!("{} of a fetch", refetching::MOST_OF_A_FETCH),
    );
    let (slow_table, slow_build) = index_lines::print();
    let table = format!("{} of the Rust's lookups", indexing::MOST_OF_LOOKUPS);
    let build = format!("{} fetches, of a build", indexing::MOST_FETCHES);
    let (long, slow, slow_with) = write_lines(judged);
    let commit = (slow, format!("{} fetches", writing::MOST_OF_A_COMMIT));
    let with = format!("{} fetches, with a table", writing::MOST_WITH_A_TABLE);
    let index = [(slow_table, table), (slow_build, build), (slow_with, with)];
    let goals = [&[read, find, again, commit][..], &index].concat();
    if judged == Judged::WritingAndGoal {
        for (missed, goal) in &goals {
            let end = if *missed { "missed" } else { "met" };
            println!("goal {end}: at most {goal}");
        }
    }
    let failed = match judged {
        Judged::Nothing => false,
        Judged::Writing => long,
        Judged::WritingAndGoal => long || goals.iter().any(|(missed, _)| *missed),
    };
    ExitCode::from(u8::from(failed))
}

/// The lines of reading. True if the port misses the goal.
#[cfg(lfs_rust)]
fn read_lines() -> bool {
    print_head_beside_rust("");
    let mut missed = false;
    for len in [4096, 512, 64] {
        let bytes: Vec<u8> = oracle::random::Random::new(len as u64).bytes(len);
        let times = measure::side_by_side(
            |crc| oracle::port::crc(crc, black_box(&bytes)),
            |crc| rust_crc(crc, black_box(&bytes)),
        );
        print_line("lfs_crc", len, Some(len), &times);
        missed |= len == GOAL.1 && times.ratio() > GOAL.0;
    }
    for (name, times) in counts::lines() {
        print_line(name, 4, None, &times);
    }
    for (block_size, slots, in_a_commit, looked_up) in DIRECTORIES {
        let directory = made(block_size, slots, in_a_commit);
        let found = finding::asked(&directory).map(|asked| asked.beside_rust());
        for line in directory.lines(looked_up).into_iter().chain(found) {
            print_line(
                line.name,
                directory.dir.off as usize,
                line.bytes,
                &line.times,
            );
        }
    }
    missed
}

/// The lines of finding a name beside a fetch. True if the longest misses the goal.
#[cfg(lfs_rust)]
fn find_lines() -> bool {
    print_head_beside("finding a name", "fetch");
    let mut most: f64 = 0.0;
    for (block_size, slots, in_a_commit, _) in DIRECTORIES {
        let directory = made(block_size, slots, in_a_commit);
        for asked in finding::asked(&directory) {
            let line = asked.beside_fetch();
            print_line_beside(&line, &directory);
            most = most.max(line.beside.fetches());
        }
    }
    let goal = finding::MOST_FETCHES;
    println!("finding a name takes up to {most:.2} fetches; the goal: at most {goal}");
    most > goal
}

/// The lines of fetching again beside a fetch. True if the first of the largest block
/// misses the goal.
#[cfg(lfs_rust)]
fn refetch_lines() -> bool {
    print_head_beside("fetching again", "fetch");
    let mut first = 0.0;
    for (block_size, slots, in_a_commit) in HALF_FULL {
        let directory = made(block_size, slots, in_a_commit);
        let lines = refetching::lines(&directory);
        for line in &lines {
            print_beside("lanolin_refetch", line.behind, &line.beside);
        }
        first = lines[0].beside.fetches();
    }
    let goal = refetching::MOST_OF_A_FETCH;
    println!("behind one commit a refetch takes {first:.4} of a fetch; the goal: at most {goal}");
    first > goal
}

/// The lines of writing. Whether the last compaction takes too long, and whether a
/// commit, and the last compaction with a table, miss their goals.
#[cfg(lfs_rust)]
fn write_lines(judged: Judged) -> (bool, bool, bool) {
    print_head_beside("writing", "fetch");
    let (mut fetches, mut slowest) = (0.0, 0.0_f64);
    for (block_size, slots, in_a_commit) in HALF_FULL.into_iter().chain([LARGE]) {
        let directory = made(block_size, slots, in_a_commit);
        let lines = [writing::commit(&directory), writing::compact(&directory)];
        for line in &lines {
            print_line_beside(line, &directory);
        }
        slowest = slowest.max(lines[0].beside.fetches());
        fetches = lines[1].beside.fetches();
    }
    let with = index_lines::compactions();
    let goal = writing::MOST_OF_A_COMMIT;
    println!("a commit takes up to {slowest:.2} fetches; the goal: at most {goal}");
    let (most, long) = (writing::MOST_FETCHES, fetches > writing::MOST_FETCHES);
    let holds = match judged {
        Judged::Nothing => "not judged",
        _ if long => "DOES NOT HOLD",
        _ => "holds",
    };
    println!("a compaction of 1,000 slots takes {fetches:.1} fetches; at most {most}: {holds}");
    let most = writing::MOST_WITH_A_TABLE;
    println!("with a table it takes up to {with:.1} fetches; the goal: at most {most}");
    (long, slowest > goal, with > most)
}

/// A directory, and the line above those that are measured on it.
#[cfg(lfs_rust)]
fn made(block_size: u32, slots: u32, in_a_commit: u32) -> Directory {
    println!("a block of {block_size} bytes, {slots} slots:");
    Directory::new(SPREAD, block_size, slots, in_a_commit)
}

#[cfg(lfs_rust)]
fn print_head_beside_rust(what: &str) {
    println!(
        "{what:<26}{:>7}{:>12}{:>12}{:>12}{:>12}{:>12}",
        "bytes", "port ns", "port MB/s", "Rust ns", "Rust MB/s", "port/Rust"
    );
}

/// `other` is the call that the others stand beside.
#[cfg(lfs_rust)]
fn print_head_beside(what: &str, other: &str) {
    let (time, ratio) = (format!("{other} ns"), format!("port/{other}"));
    println!(
        "\n{what:<26}{:>7}{:>12}{time:>12}{ratio:>12}",
        "bytes", "port ns"
    );
}

#[cfg(lfs_rust)]
fn print_line_beside(line: &writing::Line, directory: &Directory) {
    print_beside(line.name, directory.dir.off, &line.beside);
}

#[cfg(lfs_rust)]
fn print_beside(name: &str, bytes: u32, beside: &measure::Beside) {
    // A refetch is so small a part of a fetch that two digits would not show it.
    let digits = if beside.fetches() < 0.05 { 4 } else { 2 };
    println!(
        "{name:<26}{bytes:>7}{:>12.1}{:>12.1}{:>12.digits$}",
        beside.call,
        beside.fetch,
        beside.fetches()
    );
}

/// Block size, slots, slots in each commit: blocks that are half full, and the larger
/// directory of below.
#[cfg(lfs_rust)]
const HALF_FULL: [(u32, u32, u32); 2] = [(4096, 64, 4), (32_768, 540, 8)];
#[cfg(lfs_rust)]
const LARGE: (u32, u32, u32) = (32_768, 1000, 8);

/// Block size, slots, slots in each commit, and slots that are looked up: all of
/// the smaller directory, and some of the larger one, spread evenly, so that a
/// slice stays short.
#[cfg(lfs_rust)]
const DIRECTORIES: [(u32, u32, u32, u32); 2] = [(4096, 100, 4, 100), (32_768, 1000, 8, 40)];

/// The Rust's function is `inline(always)`: it is called through this one, which
/// is not, so that it pays for a call as the port does.
#[cfg(lfs_rust)]
#[inline(never)]
fn rust_crc(crc: u32, bytes: &[u8]) -> u32 {
    oracle::rust::crc::lfs_crc(crc, bytes.as_ptr(), bytes.len())
}

/// `read` is what a call reads of the `len` bytes, where that is the same for
/// every call.
#[cfg(lfs_rust)]
fn print_line(name: &str, len: usize, read: Option<usize>, times: &measure::Times) {
    // Bytes in a nanosecond are thousands of MB in a second.
    let speed = |time: f64| match read {
        Some(read) => format!("{:.1}", read as f64 * 1000.0 / time),
        None => String::from("-"),
    };
    // A find is so small a part of the lookups that two digits would not show it.
    let digits = if times.ratio() < 0.05 { 4 } else { 2 };
    println!(
        "{name:<26}{len:>7}{:>12.1}{:>12}{:>12.1}{:>12}{:>12.digits$}",
        times.port,
        speed(times.port),
        times.rust,
        speed(times.rust),
        times.ratio()
    );
}
