//! The tables of the index: all deadlines and single answers beside the Rust's lookups,
//! builds beside a fetch and how they grow, extensions beside a build.
//!
//! Assumes nothing.

use crate::directory::{Directory, Order, ALWAYS_FIRST, IN_ORDER, SPREAD};
use crate::indexing::{extension, Table, MOST_FETCHES, MOST_OF_LOOKUPS};
use crate::orders::{attributes_down, names_down};
use crate::writing::compact_with;
use crate::{print_beside, print_head_beside, print_head_beside_rust, print_line};
use crate::{print_line_beside, DIRECTORIES, LARGE};

const ORDERS: [(&str, Order); 2] = [("in order", IN_ORDER), ("in no order", SPREAD)];

/// How many slots, to see how a build grows.
const GROWING: [u32; 3] = [64, 256, 1000];

/// Whether all deadlines of 1,000 slots miss their goal, and whether a build does.
pub fn print() -> (bool, bool) {
    let missed = (deadlines(), builds());
    extensions();
    missed
}

/// The goal is asked of 1,000 slots, in whatever order they were written.
fn deadlines() -> bool {
    println!();
    print_head_beside_rust("the index");
    let mut of_lookups = [0.0; 2];
    for (block_size, slots, in_a_commit, looked_up) in DIRECTORIES {
        for (i, (order, place)) in ORDERS.into_iter().enumerate() {
            println!("a block of {block_size} bytes, {slots} slots, written {order}:");
            let directory = Directory::new(place, block_size, slots, in_a_commit);
            let mut table = Table::of(&directory);
            let all = table.beside_lookups();
            let one = table.beside_lookup(looked_up);
            for line in [&all, &one] {
                let bytes = directory.dir.off as usize;
                print_line(line.name, bytes, line.bytes, &line.times);
            }
            of_lookups[i] = all.times.ratio();
        }
    }
    let [in_order, spread] = of_lookups;
    println!(
        "all deadlines of 1,000 slots take {in_order:.4} of the Rust's lookups where the slots \
         were written in order, {spread:.4} where they were not; the goal: at most {MOST_OF_LOOKUPS}"
    );
    in_order.max(spread) > MOST_OF_LOOKUPS
}

/// The goal is asked of 1,000 slots in order. In the other orders all that comes moves
/// the places that are there.
fn builds() -> bool {
    print_head_beside("building a table", "fetch");
    let (block_size, _, in_a_commit) = LARGE;
    let mut in_order = 0.0;
    for slots in GROWING {
        let directory = Directory::new(IN_ORDER, block_size, slots, in_a_commit);
        in_order = build(&directory, &format!("{slots} slots, written in order"));
    }
    let mut worst: f64 = 0.0;
    for slots in GROWING {
        let directory = Directory::new(ALWAYS_FIRST, block_size, slots, in_a_commit);
        worst = worst.max(build(
            &directory,
            &format!("{slots} slots, each made at id 0"),
        ));
    }
    let directory = names_down(block_size, LARGE.1, in_a_commit);
    let said = format!("{} slots, names alone, from the last id down", LARGE.1);
    worst = worst.max(build(&directory, &said));
    let directory = attributes_down(block_size);
    let said = "32 slots full of attributes of no bytes, from the last down";
    worst = worst.max(build(&directory, said));
    println!(
        "a build of 1,000 slots written in order takes {in_order:.2} fetches; \
         the goal: at most {MOST_FETCHES}"
    );
    println!("a build in the worst order that was found takes {worst:.0} fetches; no goal");
    in_order > MOST_FETCHES
}

/// How many fetches it takes.
fn build(directory: &Directory, said: &str) -> f64 {
    let block_size = directory.geometry.block_size;
    println!("a block of {block_size} bytes, {said}:");
    let line = Table::of(directory).beside_fetch();
    print_line_beside(&line, directory);
    line.beside.fetches()
}

fn extensions() {
    print_head_beside("extending a table", "build");
    for (block_size, slots, in_a_commit, _) in DIRECTORIES {
        println!(
            "a block of {block_size} bytes, {slots} slots, written in order, and one attribute:"
        );
        let directory = Directory::new(IN_ORDER, block_size, slots, in_a_commit);
        let (behind, beside) = extension(&directory);
        print_beside("lanolin_index_extend", behind, &beside);
    }
}

/// Compactions of 1,000 slots with a table: how many fetches they take at most.
pub fn compactions() -> f64 {
    let (block_size, slots, in_a_commit) = LARGE;
    let mut most: f64 = 0.0;
    for (order, place) in ORDERS {
        println!("a block of {block_size} bytes, {slots} slots, written {order}:");
        let directory = Directory::new(place, block_size, slots, in_a_commit);
        let line = compact_with(&directory);
        print_line_beside(&line, &directory);
        most = most.max(line.beside.fetches());
    }
    most
}
