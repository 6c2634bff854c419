//! Demand 3, tried by running: an accepted commit or compaction stopped after
//! each number of its stores, from none to one more than there are, each time on
//! a fresh copy of the images.
//!
//! "fetch gives the finished directory if the finished bytes are there, else the
//! old one; only the old record's erased mark may differ". No second writer says
//! what is expected: it follows from what the call answers without a limit, from
//! what was read before the first store, and from the directory machine, which
//! the histories keep from their lists alone.
//!
//! Assumes nothing of who is asked.

mod call;
mod machine;
mod next;

use crate::calls::write::{Answer, Committed, Stored, Task, Writes, DOCUMENT};
use crate::calls::{Fetched, Mdir, Voice};
use crate::histories::ask::{text, Outcome, Step};
use crate::histories::flash::{named, Flash};
use crate::histories::{history, real};
use crate::model::{fetched_log, regular, WriteFault};
use crate::tally::{grouped, Check, Subject};
use call::{Call, State};

/// How many histories from a made pair, and how many from pairs that a real
/// littlefs wrote, in turn; and how many steps each has.
const HISTORIES: u64 = 3_940;
const REAL: u64 = 60;
const STEPS: usize = 8;
/// Calls on larger blocks are left out: they have thousands of stops each.
const LARGEST: u32 = 2048;

/// Who is asked to write, and who reads what is left. Of the port, both.
pub struct Asked<'a, W, R> {
    pub writer: &'a W,
    pub reader: &'a R,
}

/// What is compared at the stops, and how often.
pub struct Stopped {
    calls: u64,
    /// Those on a log that isn't regular by document 01.
    wider: u64,
    /// Those that carry a forward check.
    carried: u64,
    /// Those for flash that erases to 0x00, and those of either kind on a log that has
    /// checks for the other.
    zero: u64,
    both: u64,
    flash: Flash,
    stops: u64,
    stores: Check,
    forward: Check,
    finished: Check,
    finished_lookups: Check,
    before_lookups: Check,
    old: Check,
    old_lookups: Check,
    next: Check,
}

impl Default for Stopped {
    fn default() -> Stopped {
        Stopped {
            calls: 0,
            wider: 0,
            carried: 0,
            zero: 0,
            both: 0,
            flash: Flash::default(),
            stops: 0,
            stores: Check::ours("stores: single bytes, rising"),
            forward: Check::ours("finished: forward check"),
            finished: Check::ours("finished: record and seed"),
            finished_lookups: Check::ours("finished: directory"),
            before_lookups: Check::ours("before the call: directory"),
            old: Check::ours("stopped: record and seed"),
            old_lookups: Check::ours("stopped: directory"),
            next: Check::ours("what a recovery does next"),
        }
    }
}

/// One pass over the first of so many parts of the histories: the subject, and the
/// closing line without what it found.
pub fn compare<W: Writes, R: Voice>(asked: &Asked<W, R>, parts: u64) -> (Subject, String) {
    let (mut stopped, mut pairs) = (Stopped::default(), 0);
    for number in 0..HISTORIES.div_ceil(parts) {
        let calls = stopped.calls;
        run(number, &mut |step| stopped.judge(asked, step));
        pairs += u64::from(stopped.calls > calls);
    }
    let real = real::cases();
    for number in 0..REAL.div_ceil(parts) {
        let (pair, calls) = (&real[number as usize % real.len()], stopped.calls);
        history::run_from(pair, number, STEPS, &mut |step| stopped.judge(asked, step));
        pairs += u64::from(stopped.calls > calls);
    }
    let mut subject = Subject::new("stopped: every stop of an accepted call");
    for check in stopped.checks() {
        subject.add(check.clone());
    }
    subject.add(std::mem::take(&mut stopped.flash).demand(false));
    let line = stopped.line(pairs, subject.totals().ours);
    (subject, line)
}

/// The history of this number.
pub fn run(number: u64, tell: history::Tell) {
    history::run(number, STEPS, tell);
}

impl Stopped {
    fn checks(&self) -> [&Check; 8] {
        [
            &self.stores,
            &self.forward,
            &self.finished,
            &self.finished_lookups,
            &self.before_lookups,
            &self.old,
            &self.old_lookups,
            &self.next,
        ]
    }

    fn line(&self, pairs: u64, comparisons: u64) -> String {
        format!(
            "stopped: {} pairs, {} accepted calls, {} of them on wider logs, {} with a forward \
             check, {} for flash of 0x00, {} on logs of both kinds, {} stops, {} comparisons",
            grouped(pairs),
            grouped(self.calls),
            grouped(self.wider),
            grouped(self.carried),
            grouped(self.zero),
            grouped(self.both),
            grouped(self.stops),
            grouped(comparisons)
        )
    }

    /// The checks that found a difference.
    pub fn differing(&self) -> Vec<&'static str> {
        let checks = self.checks().into_iter();
        checks.filter_map(Check::differing).collect()
    }

    pub fn calls(&self) -> u64 {
        self.calls
    }

    /// Every stop of one call, if it has no limit and is accepted by who is
    /// asked.
    pub fn judge<W: Writes, R: Voice>(&mut self, asked: &Asked<W, R>, step: &Step) {
        let small = step.case.geometry.block_size <= LARGEST;
        if step.task.stores.is_some() || !small || !asked.writer.can(&step.task.work) {
            return;
        }
        let whole = Outcome::of(asked.writer, &step.task, &step.case.images);
        let Answer::Committed(answer) = whole.answer else {
            return;
        };
        if answer.result != 0 {
            return;
        }
        let every_type = self.calls.is_multiple_of(32);
        self.calls += 1;
        self.wider += u64::from(wider(step));
        let call = Call::of(asked, step, answer, whole.images(), every_type);
        self.carried += u64::from(call.forward.carried);
        self.zero += u64::from(step.task.erased == 0x00);
        self.both += u64::from(call.for_both());
        self.flash.accepted(&step.task, call.for_both());
        self.forward(&call);
        self.ends(asked, &call);
        for limit in 0..=call.all + 1 {
            self.stops += 1;
            self.stop(asked, &call, limit);
        }
    }

    /// The answered forward check is the last one of the log; the call's own says
    /// that the room behind the new end is erased.
    fn forward(&mut self, call: &Call) {
        let (dir, forward) = (call.answer.dir, &call.forward);
        let said = (dir.forward, dir.forward_size, dir.forward_sum);
        let erased = if forward.carried { 1 } else { dir.erased };
        let (weight, say) = (|| call.weight(call.all), || text(call.step));
        let known = (forward.last, erased);
        self.forward
            .same_by_weight(&known, &(said, dir.erased), weight, say);
        let old = call.before.fetched.dir.forward != 0;
        let kind = match (call.compacts(), forward.carried, old) {
            (false, true, true) => "a commit with one, the old log too",
            (false, true, false) => "a commit with one, the old log without",
            (false, false, true) => "a commit without, the old log with one",
            (false, false, false) => "a commit without, the old log too",
            (true, true, true) => "a compaction with one, the old log too",
            (true, true, false) => "a compaction with one, the old log without",
            (true, false, true) => "a compaction without, the old log with one",
            (true, false, false) => "a compaction without, the old log too",
        };
        self.forward.outcome_of("calls", kind);
        self.forward.outcome_of("room for it", forward.room());
    }

    /// What is compared once: the directory before the call, the record and the
    /// images of the finished one.
    fn ends<W: Writes, R: Voice>(&mut self, asked: &Asked<W, R>, call: &Call) {
        let say = || text(call.step);
        let (questions, answers) = (&call.questions[0], &call.before.answers);
        let lookups = &mut self.before_lookups;
        machine::hold(lookups, questions, answers, || call.weight(0), say);
        let weight = || call.weight(call.all);
        self.finished
            .same_by_weight(&call.known(), &call.said(), weight, say);
        let laid = call.laid(call.all);
        self.stores
            .same_by_weight(&laid, &call.finished, weight, say);
        let questions = &call.questions[1];
        let state = State::of(asked.reader, call, &call.finished, questions);
        let lookups = &mut self.finished_lookups;
        machine::hold(lookups, questions, &state.answers, weight, say);
    }

    /// One stop: "exactly the first n of demand 3's list are made (all, if n is
    /// larger) and the number made is the answer".
    fn stop<W: Writes, R: Voice>(&mut self, asked: &Asked<W, R>, call: &Call, limit: usize) {
        let step = call.step;
        let task = Task {
            stores: Some(limit as u32),
            ..step.task
        };
        let left = Outcome::of(asked.writer, &task, &step.case.images);
        let made = limit.min(call.all);
        let expected = Answer::Stored(Stored {
            result: 0,
            index: 0,
            stores: made as u32,
        });
        let expected = Outcome::expected(expected, &call.laid(made));
        let (weight, say) = (|| call.weight(limit), || call.text(limit));
        self.stores.same_by_weight(&expected, &left, weight, say);
        let images = left.images();
        match images == call.finished {
            true => self.there(asked, call, &images, limit),
            false => self.not_there(asked, call, &images, limit),
        }
        if next::sampled(call, limit) {
            next::recover(&mut self.next, asked, call, &images, limit);
        }
    }

    /// The finished bytes are there: what the call answered, and the machine's
    /// directory.
    fn there<W: Writes, R: Voice>(
        &mut self,
        asked: &Asked<W, R>,
        call: &Call,
        images: &[Vec<u8>; 2],
        limit: usize,
    ) {
        let (weight, say) = (|| call.weight(limit), || call.text(limit));
        let questions = &call.questions[1];
        let state = State::of(asked.reader, call, images, questions);
        let Committed {
            result, dir, seed, ..
        } = call.answer;
        let answered = Fetched { result, dir, seed };
        self.finished
            .same_by_weight(&answered, &state.fetched, weight, say);
        self.finished.outcome(match limit < call.all {
            true => "before the last store",
            false => "all stores made",
        });
        if limit < call.all {
            let byte = named(call.step.task.erased);
            self.finished.outcome_of("before the last store", byte);
        }
        let lookups = &mut self.finished_lookups;
        machine::hold(lookups, questions, &state.answers, weight, say);
    }

    /// They are not: the old record but for its erased mark, the old seed, and
    /// every directory lookup as before the first store, length and place too.
    fn not_there<W: Writes, R: Voice>(
        &mut self,
        asked: &Asked<W, R>,
        call: &Call,
        images: &[Vec<u8>; 2],
        limit: usize,
    ) {
        let (weight, say) = (|| call.weight(limit), || call.text(limit));
        let state = State::of(asked.reader, call, images, &call.questions[0]);
        let (old, now) = (call.before.fetched, state.fetched);
        self.old
            .same_by_weight(&unmarked(old), &unmarked(now), weight, say);
        self.old.outcome(match (old.dir.erased, now.dir.erased) {
            (1, 0) => "erased mark gone",
            (0, 1) => "erased mark new",
            _ => "same erased mark",
        });
        self.old.outcome_of("of", call.kind());
        self.old.outcome_of("stopped in", call.part(limit));
        for (before, now) in call.before.answers.iter().zip(&state.answers) {
            self.old_lookups.same_by_weight(before, now, weight, say);
        }
    }
}

/// Whether the log is regular by littlefs's rule alone.
fn wider(step: &Step) -> bool {
    !regular(WriteFault::None, DOCUMENT, &fetched_log(&step.case.fetch()))
}

/// "only the old record's erased mark may differ"
fn unmarked(fetched: Fetched) -> Fetched {
    Fetched {
        dir: Mdir {
            erased: 0,
            ..fetched.dir
        },
        ..fetched
    }
}
