//! What was met, for the printed counts: each way in which inputs and answers are
//! told apart, by the Rust's answers.
//!
//! Assumes nothing.

use super::truth::{number, FetchTruth, GstateTruth, InfoTruth, SliceTruth, Sliced, Truth, MARGIN};
use crate::calls::{Gstate, Info, Lookup, Mdir, Query, NOENT};
use crate::device::FILL;
use crate::generate::Case;
use crate::model::{id_of, le32, type1_of, ID_BITS, NO_SLOT};
use crate::tally::Check;

pub fn fetch(check: &mut Check, case: &Case, truth: &FetchTruth) {
    let Some(rust) = truth.rust() else {
        return;
    };
    check.outcome_of("result", number(rust.result));
    check.outcome_of("input", case.kind);
    let [rev0, rev1] = [0, 1].map(|which| le32(&case.images[which], 0).unwrap_or(0));
    check.outcome_of("revisions", revision_kind(rev0, rev1));
    if rust.result == 0 || rust.result == NOENT {
        answered(check, case, &rust.dir, rev1.wrapping_sub(rev0) as i32 > 0);
        check.outcome_of("forward check", forward_kind(truth));
        if truth.met.forward_behind {
            let kind = match truth.model().dir.forward {
                0 => "behind a log without one",
                _ => "behind a log with one",
            };
            check.outcome_of("forward check that isn't committed", kind);
        }
    }
}

fn forward_kind(truth: &FetchTruth) -> &'static str {
    match (truth.model().dir.forward, truth.met.forward_own) {
        (0, _) => "none",
        (_, true) => "of the last commit",
        (_, false) => "of an earlier commit",
    }
}

fn revision_kind(rev0: u32, rev1: u32) -> &'static str {
    let ahead = rev1.wrapping_sub(rev0);
    match ahead as i32 {
        0 => "equal",
        i32::MIN => "2^31 apart",
        _ if (ahead < 1 << 31) != (rev1 > rev0) => "across the wrap",
        1.. => "second ahead",
        _ => "first ahead",
    }
}

fn answered(check: &mut Check, case: &Case, dir: &Mdir, second_ranks: bool) {
    let second = dir.pair[0] == case.numbers[1];
    let ranked = second == second_ranks;
    let block = match (second, ranked) {
        (false, true) => "given first, ranked first",
        (false, false) => "given first, ranked second",
        (true, true) => "given second, ranked first",
        (true, false) => "given second, ranked second",
    };
    check.outcome_of("answering block", block);
    check.outcome_of("erased", if dir.erased != 0 { "yes" } else { "no" });
    check.outcome_of("split", if dir.split != 0 { "hard" } else { "soft" });
    let none = dir.tail == [u32::MAX; 2];
    check.outcome_of("tail", if none { "none" } else { "some" });
    let bit_31 = dir.etag >> 31 == 1;
    check.outcome_of("end tag", if bit_31 { "bit 31" } else { "plain" });
    let count = match dir.count {
        0 => "0",
        1..1023 => "1 to 1,022",
        1023 => "1,023",
        1024 => "1,024",
        _ => "above",
    };
    check.outcome_of("count", count);
    let at_end = dir.off == case.geometry.block_size;
    check.outcome_of(
        "end",
        if at_end {
            "at the block's end"
        } else {
            "inside"
        },
    );
}

pub fn slice(check: &mut Check, truth: &SliceTruth, input: &Lookup, query: Query, made_up: bool) {
    let Some(rust) = truth.rust() else {
        return;
    };
    // The Rust's word alone does not tell a refusal from a tag with bit 31.
    let result = truth.model().got.result;
    check.outcome_of("result", if result == 0 { "found" } else { number(result) });
    check.outcome_of("buffer", buffer_kind(rust, result));
    check.outcome_of("pending move", move_kind(input, query));
    check.outcome_of("record", if made_up { "made up" } else { "fetched" });
    check.outcome_of("offset", if query.offset == 0 { "0" } else { "above" });
    let ids = query.mask & ID_BITS != 0;
    check.outcome_of("mask", if ids { "with id bits" } else { "without" });
}

fn buffer_kind(rust: &Sliced, result: i32) -> &'static str {
    let lent = &rust.buffer[MARGIN..rust.buffer.len() - MARGIN];
    let size = (rust.got.tag & 0x3ff) as usize;
    match (result, size) {
        _ if lent.is_empty() => "none lent",
        (0, 0) => "all zeroed",
        (0, size) if size > lent.len() => "shorter than the data",
        (0, size) if size == lent.len() => "filled",
        (0, _) => "partly zeroed",
        _ if lent.iter().all(|&byte| byte == FILL) => "left alone",
        _ => "altered by a refusal",
    }
}

fn move_kind(input: &Lookup, query: Query) -> &'static str {
    let (gdisk, here) = (input.gdisk, input.dir.pair);
    let (moved, id) = (id_of(gdisk.tag), id_of(query.key));
    match () {
        _ if gdisk == Gstate::default() => "none",
        _ if type1_of(gdisk.tag) == 0 => "of no type",
        _ if !here.iter().any(|block| gdisk.pair.contains(block)) => "elsewhere",
        _ if query.mask & ID_BITS == 0 => "mask without ids",
        _ if moved == id => "at the id",
        _ if moved < id => "below the id",
        _ => "above the id",
    }
}

pub fn info(check: &mut Check, truth: &InfoTruth, name_max: u32, id: u32) {
    let Some(rust) = truth.rust() else {
        return;
    };
    check.outcome_of("result", number(rust.result));
    if rust.result != 0 {
        return;
    }
    let kind = match truth.ours() {
        _ if id == NO_SLOT => "the root",
        Some(_) => "a directory or other",
        None => "inline or CTZ",
    };
    check.outcome_of("found", kind);
    if id != NO_SLOT {
        check.outcome_of("name", name_kind(rust, name_max as usize));
    }
}

fn name_kind(rust: &Info, longest: usize) -> &'static str {
    let length = rust.name[..=longest].iter().position(|&byte| byte == 0);
    match length {
        None => "longer than the longest",
        Some(length) if length == longest => "the longest",
        Some(_) => "shorter",
    }
}

pub fn gstate(check: &mut Check, truth: &GstateTruth, before: Gstate) {
    let Some((result, after)) = truth.rust() else {
        return;
    };
    check.outcome_of("result", number(*result));
    let stays = *after == before;
    check.outcome_of("state", if stays { "stays" } else { "altered" });
}
