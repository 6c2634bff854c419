//! The faults that break demand 3, through the stops: each one, of the writer or
//! of the reader, is asked for every stop of the calls that it accepts, until
//! something is not as demand 3 says.
//!
//! No answer and no image of the second implementation without a fault is looked
//! at here: only what demand 3 says is compared.
//!
//! Assumes nothing.

use super::grouped;
use crate::calls::write::Writes;
use crate::calls::Voice;
use crate::model::{
    Fault, Model, WriteFault, Writer, FAULTLESS, FAULTLESS_WRITER, FAULTS, WRITE_FAULTS,
};
use crate::stopped::{run, Asked, Stopped};

/// So many histories are tried before a fault counts as not seen.
const HISTORIES: u64 = 6_000;

/// The writer's faults that demand 3 rules out.
const WRITES: [WriteFault; 56] = [
    WriteFault::TwoAtOnce,
    WriteFault::AllAtOnce,
    WriteFault::Falling,
    WriteFault::ChecksumFirst,
    WriteFault::LastUnplaced,
    WriteFault::PaddingStored,
    WriteFault::Unerased,
    WriteFault::ErasedToFf,
    WriteFault::ErasedUnread,
    WriteFault::CleanOfFf,
    WriteFault::CleanOfEither,
    WriteFault::ChainedWithoutBit31,
    WriteFault::CheckIs500For00,
    WriteFault::CheckIs501ForFf,
    WriteFault::CheckOfOldKind,
    WriteFault::EraseUncounted,
    WriteFault::ErasedByNoStore,
    WriteFault::LimitAnswered,
    WriteFault::AllAnswered,
    WriteFault::OldRecord,
    WriteFault::SeedAsGiven,
    WriteFault::CoincidenceUntested,
    WriteFault::CoincidenceWithout1,
    WriteFault::CoincidenceWithout2,
    WriteFault::CoincidenceWithout3,
    WriteFault::CoincidenceWithoutForward,
    WriteFault::CoincidenceOfUnchained,
    WriteFault::CoincidenceFillsWithFf,
    WriteFault::CoincidenceAgainstOnes,
    WriteFault::OldForward,
    WriteFault::OldErasedMark,
    WriteFault::ForwardUnstored,
    WriteFault::ForwardBehindCheck,
    WriteFault::ForwardUnchained,
    WriteFault::ForwardUnsummed,
    WriteFault::ForwardUncounted,
    WriteFault::ForwardAtBlocksEnd,
    WriteFault::ForwardSumOneMore,
    WriteFault::ForwardSumOneLess,
    WriteFault::ForwardSumOfOnes,
    WriteFault::ForwardSizeBigEndian,
    WriteFault::AnsweringBlock,
    WriteFault::SecondBlock,
    WriteFault::RevisionStays,
    WriteFault::Uncreated,
    WriteFault::EmptyUncreated,
    WriteFault::GapsClosed,
    WriteFault::FullOfNames,
    WriteFault::SuperblockBecomesFile,
    WriteFault::EmptyAttributesDropped,
    WriteFault::LastAttributeDropped,
    WriteFault::TailDropped,
    WriteFault::HardNullDropped,
    WriteFault::TailBecomesSoft,
    WriteFault::MoveStateDropped,
    WriteFault::ZeroMoveStateDropped,
];

/// The reader's.
const READS: [Fault; 17] = [
    Fault::ForwardUncommitted,
    Fault::ForwardOfLastCommit,
    Fault::SeedForgotten,
    Fault::ErasedSumFits,
    Fault::ZeroSumFits,
    Fault::PreviousUnflipped,
    Fault::EndTagUnflipped,
    Fault::UncommittedShown,
    Fault::SecondBlockUntried,
    Fault::SecondBlockGoesOn,
    Fault::RevisionUnsigned,
    Fault::SearchEndsAtCheck,
    Fault::SpliceBelowOnly,
    Fault::CreateUnseen,
    Fault::RemovalAnswers,
    Fault::FirstImageAlways,
    Fault::RefusalZeroesBuffer,
];

/// Tries every fault of the two lists; says each one. How many were seen, and of
/// how many.
pub fn bite() -> (usize, usize) {
    let mut caught = 0;
    for fault in WRITES {
        let (writer, reader) = (&Writer { fault }, &FAULTLESS);
        let text = WRITE_FAULTS.iter().find(|known| known.0 == fault);
        let text = text.map_or("", |known| known.1);
        caught += usize::from(seen(&Asked { writer, reader }, text));
    }
    for fault in READS {
        let (writer, reader) = (&FAULTLESS_WRITER, &Model { fault });
        let text = FAULTS.iter().find(|known| known.0 == fault);
        let text = text.map_or("", |known| known.2);
        caught += usize::from(seen(&Asked { writer, reader }, text));
    }
    (caught, WRITES.len() + READS.len())
}

/// Whether one fault is seen; the line says by what, in the first call that
/// shows it.
fn seen<W: Writes, R: Voice>(asked: &Asked<W, R>, text: &str) -> bool {
    let mut stopped = Stopped::default();
    for number in 0..HISTORIES {
        run(number, &mut |step| {
            if stopped.differing().is_empty() {
                stopped.judge(asked, step);
            }
        });
        let by = stopped.differing();
        if !by.is_empty() {
            let calls = grouped(stopped.calls());
            println!(
                "  {text:<58}caught after {calls} calls, by: {}",
                by.join("; ")
            );
            return true;
        }
    }
    println!("  {text:<58}NOT CAUGHT");
    false
}
