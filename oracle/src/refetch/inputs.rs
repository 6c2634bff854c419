//! The questions of the refetch, the same for the comparison and for the teeth: a
//! history of a pair that is fetched once, and then again from what is known of it.
//!
//! Assumes nothing.

use super::behind::{AS_IT_WAS, REFUSED_CALL};
use super::{start, Voices};
use crate::calls::refetch::{Refetch, Refetches};
use crate::calls::write::Writes;
use crate::calls::{Fetch, Fetched, Mdir, Voice, NOENT};
use crate::generate::Case;
use crate::histories::history;
use crate::histories::lists::Habits;
use crate::model::known_to;
use crate::random::Random;

/// Refetches on each pair.
const STEPS: usize = 6;

/// One refetch.
pub struct Asked<'a> {
    /// How images and record came about, for the counts.
    pub kind: &'static str,
    /// What is given now, but for the seed: that is the first fetch's.
    pub case: &'a Case,
    pub dir: Mdir,
    /// The one that came with the record.
    pub seed: u32,
    /// Who answered the record.
    pub by: &'static str,
    /// Record and seed are what was answered, and what they were read from is as it
    /// was: the answer must be a fetch's.
    pub unchanged: bool,
}

impl Asked<'_> {
    pub fn input(&self) -> Refetch<'_> {
        Refetch {
            fetch: Fetch {
                seed: self.seed,
                ..self.case.fetch()
            },
            dir: self.dir,
        }
    }

    /// The fetch beside it, from the first fetch's own seed. A refusal hands back the
    /// seed that the call was given.
    pub fn fetch(&self, refused: bool) -> Fetch<'_> {
        match refused {
            true => self.input().fetch,
            false => self.case.fetch(),
        }
    }
}

/// What is known of the pair: a record with its seed, and who answered them.
#[derive(Clone, Copy)]
pub(super) struct Known {
    pub dir: Mdir,
    pub seed: u32,
    pub by: &'static str,
}

impl Known {
    /// Of what a fetch or refetch answers, if that has a record.
    fn of(fetched: Fetched, by: &'static str) -> Option<Known> {
        let Fetched { result, dir, seed } = fetched;
        [0, NOENT]
            .contains(&result)
            .then_some(Known { dir, seed, by })
    }
}

/// What one refetch is given, and what its writer answered, if it did.
pub(super) struct Given {
    pub kind: &'static str,
    pub case: Case,
    pub dir: Mdir,
    pub seed: u32,
    pub answered: Option<Known>,
}

pub(super) struct History<'a, F, W, R> {
    pub random: Random,
    /// As it was when the record was answered.
    pub case: Case,
    pub habits: Habits,
    /// Without one, the records are made up.
    pub known: Option<Known>,
    pub voices: &'a Voices<'a, F, W, R>,
}

/// The history of this number.
pub fn ask<F: Refetches, W: Writes, R: Voice>(
    voices: &Voices<F, W, R>,
    number: u64,
    each: &mut impl FnMut(&Asked),
) {
    let mut random = Random::numbered(number, 0x6f3);
    let (case, habits) = start::case(&mut random);
    run(voices, random, case, habits, each);
}

/// The same from a given pair.
pub fn ask_of<F: Refetches, W: Writes, R: Voice>(
    voices: &Voices<F, W, R>,
    case: &Case,
    number: u64,
    each: &mut impl FnMut(&Asked),
) {
    let mut random = Random::numbered(number, 0x2f9);
    let habits = history::habits(&mut random, case.geometry.block_size);
    let case = Case {
        seed: random.word(),
        ..case.clone()
    };
    run(voices, random, case, habits, each);
}

fn run<F: Refetches, W: Writes, R: Voice>(
    voices: &Voices<F, W, R>,
    random: Random,
    case: Case,
    habits: Habits,
    each: &mut impl FnMut(&Asked),
) {
    let mut history = History {
        random,
        known: Known::of(voices.reader.fetch(&case.fetch()), "a fetch"),
        case,
        habits,
        voices,
    };
    for _ in 0..STEPS {
        history.step(each);
    }
}

/// What a refetch reads of a record: not its erased mark, and of no forward check
/// neither size nor sum.
fn read_of(dir: &Mdir) -> Mdir {
    let dir = Mdir { erased: 0, ..*dir };
    match dir.forward {
        0 => dir.without_forward(),
        _ => dir,
    }
}

impl<F: Refetches, W: Writes, R: Voice> History<'_, F, W, R> {
    fn step(&mut self, each: &mut impl FnMut(&Asked)) {
        if self.is_full() && self.random.below(4) > 0 {
            start::cut_back(&mut self.random, &mut self.case);
            let fetched = self.voices.reader.fetch(&self.case.fetch());
            self.known = Known::of(fetched, "a fetch");
        }
        let given = match self.known {
            Some(known) => self.given(known),
            None => self.made_up(),
        };
        let asked = Asked {
            kind: self.kind_of(&given),
            case: &given.case,
            dir: given.dir,
            seed: given.seed,
            by: self.known.map_or("nobody", |known| known.by),
            unchanged: self.unchanged(&given),
        };
        each(&asked);
        let unchanged = asked.unchanged;
        self.go_on(given, unchanged);
    }

    /// There is hardly room for one more commit.
    fn is_full(&self) -> bool {
        let block = self.case.geometry.block_size as usize;
        self.known
            .is_some_and(|known| known_to(&known.dir) + 16 > block)
    }

    fn given(&mut self, known: Known) -> Given {
        match self.random.below(100) {
            0..2 => self.as_it_was(known),
            2..21 => self.commit(known, false),
            21..33 => self.commit(known, true),
            33..46 => self.grown(known),
            46..52 => self.torn(known),
            52..56 => self.noise(known),
            56..59 => self.erased(known),
            59..63 => self.elsewhere(known),
            63..70 => self.compaction(known),
            70..73 => self.before(known),
            73..76 => self.last_checksum(known),
            76..79 => self.other_block(known),
            79..82 => self.revision(known),
            82..84 => self.other_order(known),
            84..91 => self.one_field(known),
            91..95 => self.made_up(),
            95 => self.another_seed(known),
            _ => self.edges(known),
        }
    }

    /// "images in which both revisions, the other block, and all bytes of this block
    /// before the record's end and in its last checksum are unchanged"
    fn unchanged(&self, given: &Given) -> bool {
        let Some(Known { dir, seed, .. }) = self.known else {
            return false;
        };
        let (this, to) = (self.answering(&dir), known_to(&dir));
        let (was, now) = (&self.case.images, &given.case.images);
        let known = was[this].get(..to) == now[this].get(..to);
        read_of(&given.dir) == read_of(&dir)
            && given.seed == seed
            && given.case.numbers == self.case.numbers
            && known
            && was[1 - this] == now[1 - this]
    }

    /// How it came about. What was to be altered may have come out as it was.
    fn kind_of(&self, given: &Given) -> &'static str {
        let known = self.known.map(|known| (known.dir, known.seed));
        let (was, now) = (&self.case, &given.case);
        let same = known == Some((given.dir, given.seed))
            && (was.geometry, was.numbers) == (now.geometry, now.numbers)
            && was.block_count == now.block_count
            && was.images == now.images;
        match same && given.kind != REFUSED_CALL {
            true => AS_IT_WAS,
            false => given.kind,
        }
    }

    /// The block that a record of this pair is of.
    pub(super) fn answering(&self, dir: &Mdir) -> usize {
        usize::from(dir.pair[0] == self.case.numbers[1])
    }

    /// Half of the time the pair stays as given, and the next record is the writer's,
    /// the refetch's or, where something has changed that it was read from, another
    /// fetch's.
    fn go_on(&mut self, given: Given, unchanged: bool) {
        let wrote = given.answered.is_some();
        if !(unchanged || wrote) || self.random.below(2) == 0 {
            return;
        }
        let (fetch, dir) = (given.case.fetch(), given.dir);
        let next = match given.answered {
            Some(answered) if self.random.below(2) == 0 => Some(answered),
            _ if unchanged => {
                let seed = given.seed;
                let fetch = Fetch { seed, ..fetch };
                let again = self.voices.refetcher.refetch(&Refetch { fetch, dir });
                Known::of(again, "a refetch")
            }
            _ => Known::of(self.voices.reader.fetch(&fetch), "a fetch"),
        };
        if next.is_some() {
            (self.known, self.case) = (next, given.case);
        }
    }
}
