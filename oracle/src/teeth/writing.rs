//! The writer's faults, through the histories: each one is asked for every step
//! until its answer, or an image, is another one than it must be.
//!
//! Assumes nothing.

use super::grouped;
use crate::histories::ask::{Outcome, Step};
use crate::histories::{history, STEPS};
use crate::model::{WriteFault, Writer, WRITE_FAULTS};

/// So many histories are tried before a fault counts as not seen.
const HISTORIES: u64 = 4_000;

/// One fault on its way through the histories.
struct Tried {
    fault: WriteFault,
    text: &'static str,
    /// After how many calls it was seen, and why that call was made.
    caught: Option<(u64, &'static str)>,
}

/// Tries every fault of the writer; says each one. How many were seen, and of
/// how many.
pub fn bite() -> (usize, usize) {
    let new = |&(fault, text)| Tried {
        fault,
        text,
        caught: None,
    };
    let mut tried: Vec<Tried> = WRITE_FAULTS.iter().map(new).collect();
    let mut asked = 0;
    for number in 0..HISTORIES {
        if tried.iter().all(|tried| tried.caught.is_some()) {
            break;
        }
        history::run(number, STEPS, &mut |step| {
            asked += 1;
            ask_all(step, asked, &mut tried);
        });
    }
    for tried in &tried {
        println!("  {:<58}{}", tried.text, said(tried));
    }
    let caught = tried.iter().filter(|tried| tried.caught.is_some());
    (caught.count(), tried.len())
}

fn said(tried: &Tried) -> String {
    match tried.caught {
        Some((calls, why)) => format!("caught after {} calls, by: {why}", grouped(calls)),
        None => String::from("NOT CAUGHT"),
    }
}

/// One call to every fault that is not caught yet.
fn ask_all(step: &Step, asked: u64, tried: &mut [Tried]) {
    for tried in tried.iter_mut().filter(|tried| tried.caught.is_none()) {
        let writer = Writer { fault: tried.fault };
        if Outcome::of(&writer, &step.task, &step.case.images) != *step.truth {
            tried.caught = Some((asked, step.kind));
        }
    }
}
