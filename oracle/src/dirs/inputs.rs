//! The inputs of fetch and lookups as a sequence of questions, the same for the
//! comparison, for the teeth and for the recorded list.
//!
//! Assumes nothing.

use super::truth::Slicer;
use crate::calls::{Fetch, Gstate, Lookup, Query, NOENT};
use crate::generate::{self, Asked, Case, Edge, Sizes};
use crate::model::{id_of, FAULTLESS};
use crate::random::Random;

/// One question.
pub enum Question<'a> {
    Fetch(Fetch<'a>),
    Slice {
        slicer: Slicer,
        input: Lookup<'a>,
        query: Query,
        length: usize,
        made_up: bool,
    },
    Info {
        input: Lookup<'a>,
        name_max: u32,
        id: u32,
    },
    Gstate {
        input: Lookup<'a>,
        state: Gstate,
    },
}

/// Lookups with a mask and a key on each case.
const SLICES: usize = 5;

/// One case in so many is asked again at the edges of the domain.
const EDGES: u64 = 12;

/// Everything that is asked of the case of this number: a fetch, lookups on
/// what it answers and on made-up records, and at times the same at the edges.
pub fn ask(number: u64, sizes: Sizes, each: &mut impl FnMut(&Case, Question)) {
    let (case, mut random) = generate::case(number, sizes);
    each(&case, Question::Fetch(case.fetch()));
    let fetched = FAULTLESS.fetch_and_say(&case.fetch()).0;
    let answered = fetched.result == 0 || fetched.result == NOENT;
    let fetched = answered.then_some(fetched.dir);
    let mut asked = Asked::new(&mut random, &case, fetched);
    for i in 0..SLICES {
        each(&case, slice(&mut asked, i));
    }
    let id = asked.some_id();
    let (input, _) = asked.lookup(id);
    let name_max = name_max(asked.random);
    each(
        &case,
        Question::Info {
            input,
            name_max,
            id,
        },
    );
    let (input, _) = asked.lookup(0);
    let state = state(asked.random);
    each(&case, Question::Gstate { input, state });
    if number.is_multiple_of(EDGES) {
        edges(&mut asked, each);
    }
}

/// One of the lookups is an `lfs_dir_get`, whose buffer may be longer than the
/// key's size.
fn slice<'a>(asked: &mut Asked<'a>, i: usize) -> Question<'a> {
    let mut query = asked.query();
    let (input, made_up) = asked.lookup(id_of(query.key));
    let length = asked.buffer_length();
    if i > 0 {
        return Question::Slice {
            slicer: Slicer::Getslice,
            input,
            query,
            length,
            made_up,
        };
    }
    let size = length.min(1023) as u32;
    query.key = query.key & !0x3ff | size;
    let more = [0, 0, 1, 20][asked.random.below(4)];
    Question::Slice {
        slicer: Slicer::Get,
        input,
        query,
        length: (length + more).min(65_536),
        made_up,
    }
}

fn name_max(random: &mut Random) -> u32 {
    match random.below(4) {
        0 => 255,
        1 => 1 + random.below(255) as u32,
        2 => 250 + random.below(6) as u32,
        _ => 1 + random.below(12) as u32,
    }
}

fn state(random: &mut Random) -> Gstate {
    match random.below(2) {
        0 => Gstate::default(),
        _ => Gstate {
            tag: random.word(),
            pair: [random.word(), random.word()],
        },
    }
}

/// The five calls with one number at or past its bound.
fn edges(asked: &mut Asked, each: &mut impl FnMut(&Case, Question)) {
    let query = asked.query();
    let (input, _) = asked.lookup(id_of(query.key));
    let edge = Edge {
        dir: input.dir,
        query,
        buffer: asked.buffer_length().min(1023),
        name_max: 255,
        id: id_of(query.key),
    };
    let (case, edge) = generate::broken(asked.random, asked.case, &edge);
    each(&case, Question::Fetch(case.fetch()));
    let input = Lookup {
        blocks: case.blocks(),
        dir: edge.dir,
        gdisk: input.gdisk,
    };
    each(
        &case,
        slice_at_edge(Slicer::Getslice, input, &edge, query.key),
    );
    // The key's size around the buffer's length: `lfs_dir_get` refuses a buffer
    // that is shorter.
    let size = edge.buffer as u32 + asked.random.below(2) as u32;
    let key = query.key & !0x3ff | size.min(1023);
    each(&case, slice_at_edge(Slicer::Get, input, &edge, key));
    let (name_max, id) = (edge.name_max, edge.id);
    let info = Question::Info {
        input,
        name_max,
        id,
    };
    each(&case, info);
    let state = state(asked.random);
    each(&case, Question::Gstate { input, state });
}

fn slice_at_edge<'a>(slicer: Slicer, input: Lookup<'a>, edge: &Edge, key: u32) -> Question<'a> {
    Question::Slice {
        slicer,
        input,
        query: Query { key, ..edge.query },
        length: edge.buffer,
        made_up: true,
    }
}
