//! What a recovery does next, at some of the stops: it fetches again; it tries a
//! commit, which a torn room refuses with -213 at the old end, since a commit's
//! first byte is never the erased one: its top bit is another; it compacts, on a board
//! of either kind, which is accepted as it would have been before, and gives the
//! directory that fetch gave.
//!
//! Assumes nothing.

use super::call::{Call, State};
use super::{machine, Asked};
use crate::calls::write::{Answer, Committed, Task, Work, Writes, ERASED, NOT_ERASED};
use crate::calls::{Mdir, Voice};
use crate::histories::ask::Outcome;
use crate::tally::Check;

/// The first and last stops of every fourth call, and one in its midst.
pub fn sampled(call: &Call, limit: usize) -> bool {
    let some = (call.all + call.before.fetched.seed as usize).is_multiple_of(4);
    let middle = call.before.fetched.seed as usize / 4 % (call.all + 1);
    some && (limit < 3 || limit + 2 > call.all || limit == middle)
}

pub fn recover<W: Writes, R: Voice>(
    check: &mut Check,
    asked: &Asked<W, R>,
    call: &Call,
    images: &[Vec<u8>; 2],
    limit: usize,
) {
    let finished = *images == call.finished;
    let [first, again] = [(); 2].map(|()| State::of(asked.reader, call, images, &[]).fetched);
    let (weight, say) = (|| call.weight(limit), || call.text(limit));
    check.same_by_weight(&first, &again, weight, say);
    if !call.compacts() && !finished {
        commit(check, asked, call, images, limit);
    }
    compact(check, asked, call, images, finished, limit);
}

/// The same call without a limit, with other work.
fn task<'a>(call: &Call, erased: u8, work: Work<'a>) -> Task<'a> {
    let Task {
        geometry,
        numbers,
        block_count,
        seed,
        rules,
        ..
    } = call.step.task;
    Task {
        geometry,
        numbers,
        block_count,
        seed,
        rules,
        erased,
        work,
        stores: None,
    }
}

/// A bare commit: it has room wherever the stopped one had.
fn commit<W: Writes, R: Voice>(
    check: &mut Check,
    asked: &Asked<W, R>,
    call: &Call,
    images: &[Vec<u8>; 2],
    limit: usize,
) {
    let bare = Work::Commit {
        entries: &[],
        data: &[],
    };
    let bare = task(call, call.step.task.erased, bare);
    let old = &call.step.case.images;
    let torn = images != old;
    let expected = match torn {
        true => {
            let refused = Committed {
                result: NOT_ERASED,
                index: call.before.fetched.dir.off,
                dir: Mdir::default(),
                seed: bare.seed,
            };
            Outcome::expected(Answer::Committed(refused), images)
        }
        false => Outcome::of(asked.writer, &bare, old),
    };
    let next = Outcome::of(asked.writer, &bare, images);
    let (weight, say) = (|| call.weight(limit), || call.text(limit));
    check.same_by_weight(&expected, &next, weight, say);
    check.outcome(match torn {
        true => "commit refused by a torn room",
        false => "commit where nothing is torn",
    });
}

/// A compaction. Behind a stopped commit it is that of the old pair; behind a
/// stopped compaction, that compaction itself.
fn compact<W: Writes, R: Voice>(
    check: &mut Check,
    asked: &Asked<W, R>,
    call: &Call,
    images: &[Vec<u8>; 2],
    finished: bool,
    limit: usize,
) {
    let (weight, say) = (|| call.weight(limit), || call.text(limit));
    let erased = ERASED[call.before.fetched.seed as usize >> 8 & 1];
    let again = task(call, erased, Work::Compact);
    let next = Outcome::of(asked.writer, &again, images);
    if !finished {
        let before = Outcome::of(asked.writer, &again, &call.step.case.images);
        let mut expected = before.images();
        if !call.compacts() {
            expected[call.which] = images[call.which].clone();
        }
        let expected = Outcome::expected(before.answer, &expected);
        check.same_by_weight(&expected, &next, weight, say);
    }
    if next.answer.result() != 0 {
        // The coincidence of this compaction, or no room for the creates of a wider
        // log, as it would have been before.
        return check.outcome("compaction refused, as before");
    }
    check.outcome("compaction accepted");
    let questions = &call.questions[usize::from(finished)];
    let state = State::of(asked.reader, call, &next.images(), questions);
    machine::hold(check, questions, &state.answers, weight, say);
}
