//! The questions of the find, the same for the comparison and for the teeth: pairs
//! whose slots have few names, so that one name is of several slots, goes and comes
//! back, and names that stand there, stood there or nearly do.
//!
//! Assumes nothing.

use super::crowd;
use super::past::Past;
use crate::calls::find::Find;
use crate::calls::write::{Work, DOCUMENT, LITTLEFS};
use crate::calls::Geometry;
use crate::generate::{self, erased_behind, Case, Log, Sizes};
use crate::histories::ask::{task, Outcome};
use crate::histories::lists::{self, Habits};
use crate::histories::{history, start};
use crate::model::*;
use crate::random::Random;

/// Finds on each case.
const QUESTIONS: usize = 12;

/// One find, but for the pair.
pub struct Question {
    /// How the name was chosen, for the counts.
    pub kind: &'static str,
    pub name: Vec<u8>,
    pub type_: u32,
    pub rules: u32,
}

impl Question {
    pub fn input<'a>(&'a self, case: &'a Case) -> Find<'a> {
        Find {
            fetch: case.fetch(),
            rules: self.rules,
            name: &self.name,
            type_: self.type_,
        }
    }
}

/// A pair, and what is asked of it.
pub struct Asked<'a> {
    pub case: &'a Case,
    /// By one of the two rules.
    pub regular: bool,
    pub past: Past,
    pub questions: Vec<Question>,
}

/// The case of this number.
pub fn ask(number: u64, each: &mut impl FnMut(&Asked)) {
    let mut random = Random::numbered(number, 0x5e7);
    let (case, names) = case(&mut random);
    asked(&mut random, &case, &names, each);
}

/// A given case, by the names of its own log.
pub fn ask_of(case: &Case, number: u64, each: &mut impl FnMut(&Asked)) {
    asked(&mut Random::numbered(number, 0x4ea), case, &[], each);
}

fn asked(random: &mut Random, case: &Case, names: &[Vec<u8>], each: &mut impl FnMut(&Asked)) {
    let log = fetched_log(&case.fetch());
    let past = Past::of(&log);
    let questions = (0..QUESTIONS).map(|_| question(random, &past, names));
    each(&Asked {
        case,
        regular: regular(WriteFault::None, LITTLEFS, &log),
        questions: questions.collect(),
        past,
    });
}

/// A pair, and the names that its log draws from.
fn case(random: &mut Random) -> (Case, Vec<Vec<u8>>) {
    let long = random.below(40) == 0;
    let geometry = match long {
        true => Geometry {
            block_size: 8192,
            prog_size: 16,
        },
        false => start::geometry(random),
    };
    let habits = Habits {
        names: few_names(random, long),
        commits: 8,
        ..history::habits(random, geometry.block_size)
    };
    let mut case = match random.below(32) {
        0..20 => start::filled(random, geometry, &habits),
        20..26 => start::wider(random, geometry, &habits),
        26 | 27 if !long => crowd::case(random, &habits),
        26..29 => start::case(random, geometry, &habits),
        29 => too_many(random, geometry),
        _ => any_pair(random),
    };
    if random.below(3) == 0 {
        stop(random, &mut case, &habits);
    }
    if random.below(24) == 0 {
        case = generate::broken_blocks(random, &case);
        case.kind = "broken";
    }
    (case, habits.names)
}

fn any_pair(random: &mut Random) -> Case {
    let (case, _) = generate::case(random.word().into(), Sizes::Small);
    Case {
        kind: "any pair",
        ..case
    }
}

/// Three to six names, most of them the start of another one; of these letters, so
/// that they share bytes, or as long as names get.
fn few_names(random: &mut Random, long: bool) -> Vec<Vec<u8>> {
    let longest = if long { 1022 } else { 1 + random.below(6) };
    let whole: Vec<u8> = (0..longest).map(|_| b"ab\0\xff"[random.below(4)]).collect();
    let name = |random: &mut Random| {
        let less = random.below(longest.min(4));
        let mut name = whole[..longest - less].to_vec();
        if random.below(3) == 0 {
            flip(random, &mut name);
        }
        name
    };
    (0..3 + random.below(4)).map(|_| name(random)).collect()
}

/// Another last byte, or another one.
fn flip(random: &mut Random, name: &mut [u8]) {
    let last = name.len().saturating_sub(1);
    let which = [last, random.below(last + 1)][random.below(2)];
    if let Some(byte) = name.get_mut(which) {
        *byte ^= 1 << random.below(8);
    }
}

/// More slots than a pair may have, by one name: fetch's -2.
fn too_many(random: &mut Random, geometry: Geometry) -> Case {
    let mut log = Log::new(geometry.block_size as usize, random.word());
    log.put(tag_of(FILE, NO_SLOT, 1), b"a");
    start::check(random, &mut log, geometry, true, false);
    let images = [log.bytes, vec![0xff; geometry.block_size as usize]];
    generate::finish(random, "too many slots", geometry, images)
}

/// A commit that is stopped somewhere, or not: behind what is committed stand
/// entries that are not.
fn stop(random: &mut Random, case: &mut Case, habits: &Habits) {
    let dir = FAULTLESS.fetch_and_say(&case.fetch()).0.dir;
    let (list, _) = lists::good(random, habits, dir.count.into());
    let work = Work::Commit {
        entries: &list.entries,
        data: &list.data,
    };
    let limit = random.below(list.length() + 24) as u32;
    let erased = erased_behind(dir.etag);
    let task = task(case, LITTLEFS, erased, work, Some(limit));
    case.images = Outcome::of(&FAULTLESS_WRITER, &task, &case.images).images();
}

fn question(random: &mut Random, past: &Past, names: &[Vec<u8>]) -> Question {
    let (type_, name) = some_name(random, past, names);
    let rules = [DOCUMENT, LITTLEFS][random.below(2)];
    let as_it_is = Question {
        kind: "a name",
        name,
        type_,
        rules,
    };
    changed(random, as_it_is)
}

/// A name that a slot has, one that a slot had, or one of the few.
fn some_name(random: &mut Random, past: &Past, names: &[Vec<u8>]) -> Typed {
    let list = match random.below(8) {
        0..4 => &past.live[..],
        4 => &past.renamed,
        5 => &past.deleted,
        _ => &[],
    };
    if !list.is_empty() {
        return list[random.below(list.len())].clone();
    }
    let type_ = [FILE, FILE, DIRECTORY, SUPERBLOCK][random.below(4)];
    match names.len() {
        0 => (type_, random.bytes(1)),
        some => (type_, names[random.below(some)].clone()),
    }
}

/// As it is, or changed in one thing.
fn changed(random: &mut Random, question: Question) -> Question {
    let Question {
        mut name,
        mut type_,
        mut rules,
        ..
    } = question;
    let kind = match random.below(20) {
        0 => {
            name.truncate(random.below(name.len() + 1).max(1));
            "the start of a name"
        }
        1 => {
            name.extend(random.bytes(1));
            "a name and one byte more"
        }
        2 => {
            flip(random, &mut name);
            "a name with another byte"
        }
        3 | 4 => {
            type_ = [FILE, DIRECTORY, SUPERBLOCK][random.below(3)];
            "a name with any type"
        }
        5 => {
            type_ = no_type(random, type_);
            "a type that no name has"
        }
        6 => {
            name.clear();
            "an empty name"
        }
        7 => {
            // A length that cut to ten or sixteen bits would be the name's own.
            let more = [1023 - name.len().min(1022), 1024, 65_536][random.below(3)];
            name.resize(name.len() + more, b'a');
            "a name of more than 1,022 bytes"
        }
        8 => {
            rules = [2, 3, 0x100, 1 << 31, u32::MAX][random.below(5)];
            "rules that are none"
        }
        _ => question.kind,
    };
    Question {
        kind,
        name,
        type_,
        rules,
    }
}

/// Types of other entries, of none, and a name's with more bits.
fn no_type(random: &mut Random, type_: u32) -> u32 {
    let types = [
        0x000,
        0x003,
        0x0fe,
        0x100 | type_,
        INLINE,
        CREATE,
        0x800 | type_,
        1 << 16 | type_,
        type_ << 20,
        u32::MAX,
    ];
    types[random.below(types.len())]
}
