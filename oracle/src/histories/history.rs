//! One history: a pair, and calls on it one after the other.
//!
//! The second implementation's answers drive it, so that every voice is asked
//! the same; a simple directory machine goes along, fed from the lists alone.
//!
//! Assumes that the second implementation is right: what differs from it, or
//! what the Rust reads otherwise, is a difference.

use super::ask::{fetched, task, After, Outcome, Step};
use super::lists::{self, Habits, List};
use super::real::Real;
use super::start;
use crate::calls::write::*;
use crate::calls::{Fetched, Mdir};
use crate::generate::{self, erased_behind, Case, Sizes};
use crate::model::*;
use crate::random::Random;

/// Who is told of each step.
pub type Tell<'a> = &'a mut dyn FnMut(&Step);

pub struct History<'a> {
    pub(super) random: Random,
    pub(super) case: Case,
    pub(super) habits: Habits,
    pub(super) directory: Directory,
    /// Those of the step at hand.
    pub(super) rules: u32,
    /// The byte that the flash erases to, of the board it is on.
    pub(super) erased: u8,
    /// The last answer asked for a compaction.
    pub(super) stuck: bool,
    pub(super) tell: Tell<'a>,
}

/// Every history by its number.
pub fn run(number: u64, steps: usize, tell: Tell) {
    let mut random = Random::numbered(number, 0x3c1);
    let geometry = start::geometry(&mut random);
    let habits = habits(&mut random, geometry.block_size);
    let case = start::case(&mut random, geometry, &habits);
    let steps = match (case.kind, geometry.block_size) {
        ("irregular", _) => steps.min(6),
        (_, 0..=2048) => steps,
        _ => steps.min(12),
    };
    let mut history = History::new(random, case, habits, tell);
    history.starts();
    for _ in 0..steps {
        history.step();
    }
}

/// The same from a pair that a real littlefs wrote, on its own board at first; one in
/// four goes to others.
pub fn run_from(real: &Real, number: u64, steps: usize, tell: Tell) {
    let mut random = Random::numbered(number, 0x9e1);
    let mut habits = habits(&mut random, real.case.geometry.block_size);
    habits.boards = match (random.below(4), real.erased) {
        (0, _) => &ERASED,
        (_, 0x00) => &[0x00],
        _ => &[0xff],
    };
    let seed = random.word();
    let case = Case {
        seed,
        ..real.case.clone()
    };
    let mut history = History::new(random, case, habits, tell);
    history.erased = real.erased;
    for _ in 0..steps {
        history.step();
    }
}

/// One log of the wider kind by its number: a commit and a compaction under both
/// rules, each from the same images.
pub fn wider(number: u64, tell: Tell) {
    let mut random = Random::numbered(number, 0x71d);
    let geometry = start::geometry(&mut random);
    let habits = habits(&mut random, geometry.block_size);
    let case = start::wider(&mut random, geometry, &habits);
    let mut history = History::new(random, case, habits, tell);
    let (mut list, count) = history.list_and_count();
    if history.random.below(4) == 0 {
        lists::doubtful(&mut history.random, &mut list, count);
    }
    let kept = (history.case.clone(), history.directory.clone());
    for rules in [DOCUMENT, LITTLEFS] {
        history.rules = rules;
        history.commit("wider logs", &list);
        (history.case, history.directory) = kept.clone();
        history.compact("wider logs");
        (history.case, history.directory) = kept.clone();
    }
}

pub fn habits(random: &mut Random, block_size: u32) -> Habits {
    const TYPES: [u32; 6] = [0x374, 0x300, 0x3ff, 0x301, 0x380, 0x37f];
    const BOARDS: [&[u8]; 4] = [&[0xff], &[0x00], &ERASED, &ERASED];
    let first = random.below(TYPES.len());
    let number = 1 + random.below(3);
    Habits {
        types: (first..first + number).map(|i| TYPES[i % 6]).collect(),
        crowd: 1 + block_size / 80,
        longest: [4, 6, 12, 40][random.below(4)],
        names: Vec::new(),
        commits: 4,
        boards: BOARDS[random.below(4)],
    }
}

/// Mostly the board that the last commit was laid for, if the history knows it.
fn first_board(random: &mut Random, case: &Case, habits: &Habits) -> u8 {
    let last = erased_behind(fetched(case, &case.images).dir.etag);
    match habits.boards.contains(&last) && random.below(4) > 0 {
        true => last,
        false => habits.board(random),
    }
}

/// The directory that stands in a pair; an empty one where nothing is fetched.
pub(super) fn read(case: &Case) -> Directory {
    Directory::of(&fetched_log(&case.fetch()))
}

impl<'a> History<'a> {
    fn new(mut random: Random, case: Case, habits: Habits, tell: Tell<'a>) -> History<'a> {
        History {
            directory: read(&case),
            erased: first_board(&mut random, &case, &habits),
            random,
            case,
            habits,
            rules: DOCUMENT,
            stuck: false,
            tell,
        }
    }
}

impl History<'_> {
    /// The step's own rules, on the pair as it is, on the board at hand.
    pub(super) fn task<'a>(&self, work: Work<'a>, stores: Option<u32>) -> Task<'a> {
        task(&self.case, self.rules, self.erased, work, stores)
    }

    pub(super) fn record(&self) -> Mdir {
        self.fetched().dir
    }

    pub(super) fn fetched(&self) -> Fetched {
        fetched(&self.case, &self.case.images)
    }

    fn step(&mut self) {
        // littlefs's takes every log that document 01's takes.
        self.rules = [DOCUMENT, LITTLEFS, LITTLEFS, LITTLEFS][self.random.below(4)];
        if self.random.below(8) == 0 {
            self.moved();
        }
        if self.stuck && self.random.below(4) > 0 {
            self.stuck = false;
            return self.compact("compaction of a block without room");
        }
        match self.random.below(100) {
            0..43 => self.good(),
            43..54 => self.doubtful(),
            54..64 => self.filled(),
            64..71 => self.compact("compaction"),
            71..74 => self.fitted(),
            74..82 => self.cut(),
            82..84 => self.every_cut(),
            84..90 => self.coincidence(),
            90..92 => self.coincident_compaction(),
            92..95 => self.early(),
            95..97 => self.dirt(),
            97 => self.no_room(),
            _ => self.elsewhere(),
        }
    }

    /// One whole commit; if accepted, the history goes on from there.
    pub(super) fn commit(&mut self, kind: &'static str, list: &List) -> i32 {
        let work = Work::Commit {
            entries: &list.entries,
            data: &list.data,
        };
        // The call with a limit has the same refusals.
        if self.random.below(8) == 0 {
            let limit = self.random.below(80) as u32;
            self.limited(kind, work, limit, false);
        }
        let result = self.whole(kind, work);
        self.stuck = matches!(result, NO_SPACE | MISALIGNED | WRONG_VALIDITY | NOT_ERASED);
        result
    }

    pub(super) fn compact(&mut self, kind: &'static str) {
        self.whole(kind, Work::Compact);
    }

    /// The machine with the entries of a call applied; a compaction has none.
    pub(super) fn applied(&self, work: Work) -> Directory {
        let mut directory = self.directory.clone();
        if let Work::Commit { entries, data } = work {
            for entry in entries {
                take(&mut directory, entry, data);
            }
        }
        directory
    }

    fn whole(&mut self, kind: &'static str, work: Work) -> i32 {
        let directory = self.applied(work);
        let task = self.task(work, None);
        let truth = Outcome::of(&FAULTLESS_WRITER, &task, &self.case.images);
        let result = truth.answer.result();
        (self.tell)(&Step {
            kind,
            task,
            case: &self.case,
            truth: &truth,
            after: match result {
                0 => After::Finished,
                _ => After::Refused,
            },
            directories: [&self.directory, &directory],
            types: &self.habits.types,
        });
        if result == 0 {
            self.directory = directory;
            self.case.images = truth.images();
        }
        result
    }

    pub(super) fn list(&mut self) -> List {
        self.list_and_count().0
    }

    /// A good list, and the count behind it.
    fn list_and_count(&mut self) -> (List, u32) {
        let count = self.record().count.into();
        lists::good(&mut self.random, &self.habits, count)
    }

    pub(super) fn good(&mut self) {
        let list = self.list();
        self.commit("good entries", &list);
    }

    /// Good entries around one that is bad, or just not.
    fn doubtful(&mut self) {
        let (mut list, count) = self.list_and_count();
        match self.random.below(3) {
            0 => lists::misplaced(&mut self.random, &mut list),
            _ => lists::doubtful(&mut self.random, &mut list, count),
        }
        if self.random.below(3) == 0 {
            lists::doubtful(&mut self.random, &mut list, count);
        }
        self.commit("doubtful entries", &list);
    }

    /// Entries that end at the block's end, or where their forward check just has
    /// room.
    pub(super) fn filled(&mut self) {
        let (mut list, count) = self.list_and_count();
        let room = self.case.geometry.block_size as isize - self.record().off as isize;
        let (kind, left) = match self.random.below(2) {
            0 => ("entries that fill the block", self.some(0)),
            _ => ("entries that just leave a unit", self.unit_left()),
        };
        let size = room - list.length() as isize - 12 - left;
        let slot = match count {
            0 => None,
            _ => Some(self.random.below(count as usize) as u32),
        };
        lists::fill(&mut self.random, &self.habits, &mut list, slot, size);
        self.commit(kind, &list);
    }

    /// So many, or a few less or more.
    fn some(&mut self, number: isize) -> isize {
        number + self.random.below(6) as isize - 2
    }

    /// What entries and check leave of the block where a forward check has room, and
    /// a program unit behind it; or a few bytes, or a unit, less or more.
    fn unit_left(&mut self) -> isize {
        let units = [0, 1, 1, 1, 1, 2][self.random.below(6)];
        self.some(12 + units * self.case.geometry.prog_size as isize)
    }

    /// The compaction of a pair that just leaves a unit, or just doesn't. The history
    /// stays where it is.
    fn fitted(&mut self) {
        let left = self.unit_left();
        let kept = (self.case.clone(), self.directory.clone());
        self.case = start::fitting(&mut self.random, self.case.geometry, left);
        self.directory = read(&self.case);
        let limit = self.random.below(200) as u32;
        self.limited(
            "compaction that just leaves a unit",
            Work::Compact,
            limit,
            false,
        );
        self.compact("compaction that just leaves a unit");
        (self.case, self.directory) = kept;
    }

    /// A call on other inputs: any generated pair, sizes at their bounds, numbers
    /// that are no rules, bytes that no flash erases to. The history stays where it is.
    fn elsewhere(&mut self) {
        let kept = (self.case.clone(), self.directory.clone(), self.erased);
        match self.random.below(8) {
            0 | 1 => self.rules = [2, 3, 0x100, 1 << 31, u32::MAX][self.random.below(5)],
            2 | 3 => {
                let any = self.random.word() as u8;
                self.erased = [0x01, 0x7f, 0x80, 0xfe, any][self.random.below(5)];
            }
            _ => {}
        }
        self.case = match self.random.below(6) {
            0 => start::irregular_and_coincident(&mut self.random, self.erased),
            1..3 => Some(generate::case(self.random.word().into(), Sizes::Small).0),
            3 => None,
            _ => Some(generate::broken_blocks(&mut self.random, &self.case)),
        }
        .unwrap_or(kept.0.clone());
        self.directory = read(&self.case);
        let mut list = self.list();
        if self.random.below(8) == 0 {
            list.data.resize(65_537, 0);
        }
        match self.random.below(3) {
            0 => self.compact("elsewhere"),
            1 => {
                self.commit("elsewhere", &list);
            }
            _ => {
                let limit = self.random.below(40) as u32;
                self.limited("elsewhere", Work::Compact, limit, false);
            }
        }
        (self.case, self.directory, self.erased) = kept;
    }

    /// What some histories begin with: very many entries, long data.
    fn starts(&mut self) {
        match self.random.below(200) {
            0 => self.long_list(),
            1 => self.long_data(),
            2 => self.many_slots(),
            _ => {}
        }
    }
}

fn take(directory: &mut Directory, entry: &Entry, data: &[u8]) {
    let removal = entry.len == REMOVAL;
    let bytes = bytes_of(entry, data).filter(|_| !removal);
    directory.take(entry.type_.into(), entry.id.into(), bytes);
}
