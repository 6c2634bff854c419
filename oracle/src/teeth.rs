//! The teeth of the comparison: every fault of the second implementation goes
//! through it, on the same inputs in the same order, until it is seen.
//!
//! A fault that the Rust decides must be seen against the Rust; one that is
//! Ours, against the second implementation without a fault. The refetch's faults are
//! in `refetching`, the find's in `finding`, the index's in `indexing`, the writer's in
//! `writing`; those of them that break demand 3 go through its stops too, in `stopped`.
//!
//! Assumes nothing.

mod finding;
mod indexing;
mod refetching;
mod stopped;
mod writing;

use crate::calls::Voice;
use crate::device::Rust;
use crate::dirs::inputs::{self, Question};
use crate::dirs::truth::{stated, FetchTruth, GstateTruth, InfoTruth, SliceTruth, Truth};
use crate::generate::Sizes;
use crate::model::{Fault, Model, Seen, FAULTS};
use crate::tally::grouped;

/// So many pairs of blocks are tried before a fault counts as not seen.
const CASES: u64 = 200_000;

/// One fault on its way through the inputs.
struct Tried<F> {
    fault: F,
    must: Seen,
    text: &'static str,
    /// After how many questions it was seen, and by which call.
    caught: Option<(u64, &'static str)>,
}

/// Tries every fault; says each one. True if all were seen.
pub fn bite() -> bool {
    let parts = [
        reading(),
        refetching::bite(),
        finding::bite(),
        indexing::bite(),
        writing::bite(),
    ];
    let caught: usize = parts.iter().map(|part| part.0).sum();
    let all: usize = parts.iter().map(|part| part.1).sum();
    println!("of these, at the stops of accepted calls, by demand 3 alone:");
    let (caught_stopped, stopped) = stopped::bite();
    println!("teeth: {caught} of {all} faults caught; at the stops {caught_stopped} of {stopped}");
    caught == all && caught_stopped == stopped
}

/// Tries every fault of fetch and lookups; says each one. How many were seen, and of
/// how many.
fn reading() -> (usize, usize) {
    let mut rust = Rust::default();
    let mut asked = 0;
    run(FAULTS, CASES, |case, tried| {
        inputs::ask(case, Sizes::Any, &mut |_, question| {
            asked += 1;
            ask_all(&mut rust, &question, asked, tried);
        });
    })
}

/// Every fault through so many cases, until all are seen; says each one.
fn run<F: Copy>(
    faults: &[(F, Seen, &'static str)],
    cases: u64,
    mut ask: impl FnMut(u64, &mut [Tried<F>]),
) -> (usize, usize) {
    let new = |&(fault, must, text)| Tried {
        fault,
        must,
        text,
        caught: None,
    };
    let mut tried: Vec<Tried<F>> = faults.iter().map(new).collect();
    for case in 0..cases {
        if tried.iter().all(|tried| tried.caught.is_some()) {
            break;
        }
        ask(case, &mut tried);
    }
    for tried in &tried {
        println!("  {:<58}{}", tried.text, said(tried));
    }
    let caught = tried.iter().filter(|tried| tried.caught.is_some());
    (caught.count(), tried.len())
}

fn said<F>(tried: &Tried<F>) -> String {
    let whose = match tried.must {
        Seen::Rust => "",
        Seen::Ours => " (ours)",
    };
    match tried.caught {
        Some((inputs, call)) => {
            format!("caught after {} inputs, by {call}{whose}", grouped(inputs))
        }
        None => format!("NOT CAUGHT{whose}"),
    }
}

/// One question to every fault that is not caught yet.
fn ask_all(rust: &mut Rust, question: &Question, asked: u64, tried: &mut [Tried<Fault>]) {
    let model = |fault| Model { fault };
    match *question {
        Question::Fetch(ref input) => {
            let truth = FetchTruth::of(rust, input);
            hold(&truth, "fetch", asked, tried, |fault| {
                model(fault).fetch(input)
            });
        }
        Question::Slice {
            slicer,
            ref input,
            query,
            length,
            ..
        } => {
            let truth = SliceTruth::of(rust, slicer, input, query, length);
            hold(&truth, "getslice or get", asked, tried, |fault| {
                slicer.ask(&model(fault), input, query, length)
            });
        }
        Question::Info {
            ref input,
            name_max,
            id,
        } => {
            let truth = InfoTruth::of(rust, input, name_max, id);
            hold(&truth, "getinfo", asked, tried, |fault| {
                model(fault).getinfo(input, name_max, id)
            });
        }
        Question::Gstate { ref input, state } => {
            let truth = GstateTruth::of(rust, input, state);
            hold(&truth, "getgstate", asked, tried, |fault| {
                stated(&model(fault), input, state)
            });
        }
    }
}

/// The answers of all faults against one truth.
fn hold<F: Copy, T: Truth>(
    truth: &T,
    call: &'static str,
    asked: u64,
    tried: &mut [Tried<F>],
    answer: impl Fn(F) -> T::Answer,
) {
    for tried in tried.iter_mut().filter(|tried| tried.caught.is_none()) {
        if truth.wrong(&answer(tried.fault)) == Some(tried.must) {
            tried.caught = Some((asked, call));
        }
    }
}
