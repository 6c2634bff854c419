//! Lists of entries: good ones, ones that just fit and just do not, and bad
//! ones, each in one way.
//!
//! Assumes that the count given is the record's.

use crate::calls::write::Entry;
use crate::model::*;
use crate::random::Random;

#[derive(Clone, Default)]
pub struct List {
    pub entries: Vec<Entry>,
    pub data: Vec<u8>,
}

/// What a history draws its entries from.
pub struct Habits {
    /// The user attributes it uses.
    pub types: Vec<u32>,
    /// With more slots, it mostly deletes.
    pub crowd: u32,
    pub longest: usize,
    /// The names it uses; with none here, any bytes. Few names come often, and so do
    /// creates, deletes and renames then.
    pub names: Vec<Vec<u8>>,
    /// The most commits of a log that it starts from.
    pub commits: usize,
    /// The boards it is on: the bytes that their flash erases to.
    pub boards: &'static [u8],
}

impl Habits {
    /// A name: of those that are used, or of so many bytes.
    pub fn name(&self, random: &mut Random, length: usize) -> Vec<u8> {
        match self.names.len() {
            0 => random.bytes(length),
            some => self.names[random.below(some)].clone(),
        }
    }

    /// One of its boards.
    pub fn board(&self, random: &mut Random) -> u8 {
        one_of(random, self.boards)
    }
}

impl List {
    pub fn push(&mut self, type_: u32, id: u32, bytes: &[u8]) {
        self.entries.push(Entry {
            type_: type_ as u16,
            id: id as u16,
            off: self.data.len() as u32,
            len: bytes.len() as u32,
        });
        self.data.extend(bytes);
    }

    pub fn remove(&mut self, type_: u32, id: u32, off: u32) {
        self.entries.push(Entry {
            type_: type_ as u16,
            id: id as u16,
            off,
            len: REMOVAL,
        });
    }

    /// The entries of another list behind its own.
    pub fn append(&mut self, other: List) {
        let before = self.data.len() as u32;
        self.entries.extend(other.entries.iter().map(|entry| Entry {
            off: entry.off.wrapping_add(before),
            ..*entry
        }));
        self.data.extend(other.data);
    }

    /// How many bytes its entries take in a log.
    pub fn length(&self) -> usize {
        let length = |entry: &Entry| match entry.len {
            REMOVAL => 4,
            len => 4 + len as usize,
        };
        self.entries.iter().map(length).sum()
    }
}

/// A good list, and the count behind it.
pub fn good(random: &mut Random, habits: &Habits, count: u32) -> (List, u32) {
    let (mut list, mut count) = (List::default(), count);
    if random.below(8) == 0 {
        let length = 1 + random.below(3);
        list.data = random.bytes(length);
    }
    let most = [1, 2, 3, 3, 5, 7][random.below(6)];
    for _ in 0..random.below(most + 1) {
        count = entry(random, habits, &mut list, count);
    }
    if random.below(16) == 0 {
        let length = random.below(4);
        list.data.extend(random.bytes(length));
    }
    (list, count)
}

fn entry(random: &mut Random, habits: &Habits, list: &mut List, count: u32) -> u32 {
    let kind = match count {
        0 => [0, 0, 0, 80, 90][random.below(5)],
        count if count > habits.crowd => [20, 20, 20, 50, 70][random.below(5)],
        _ if !habits.names.is_empty() && random.below(2) == 0 => random.below(40),
        _ => random.below(100),
    };
    let id = random.below(count.max(1) as usize) as u32;
    match kind {
        0..20 => {
            let id = random.below(count as usize + 1) as u32;
            list.push(CREATE, id, &[]);
            if random.below(5) > 0 {
                name(random, habits, list, id);
            }
            if random.below(2) == 0 {
                structure(random, habits, list, id);
            }
            return count + 1;
        }
        20..30 => {
            list.push(DELETE, id, &[]);
            return count - 1;
        }
        30..40 => name(random, habits, list, id),
        40..52 => structure(random, habits, list, id),
        52..70 => attribute(random, habits, list, id),
        70..80 => {
            let type_ = habits.types[random.below(habits.types.len())];
            let off = [0, 1, u32::MAX, list.data.len() as u32][random.below(4)];
            list.remove(type_, id, off);
        }
        80..90 => tail(random, list),
        _ => move_state(random, list),
    }
    count
}

fn name(random: &mut Random, habits: &Habits, list: &mut List, id: u32) {
    let length = 1 + random.below(habits.longest);
    let type_ = [FILE, DIRECTORY][random.below(2)];
    list.push(type_, id, &habits.name(random, length));
}

pub fn structure(random: &mut Random, habits: &Habits, list: &mut List, id: u32) {
    let (type_, length) = match random.below(4) {
        0 => (DIR_STRUCT, 8),
        1 => (CTZ, 8),
        _ => (INLINE, random.below(habits.longest + 1)),
    };
    list.push(type_, id, &random.bytes(length));
}

pub fn attribute(random: &mut Random, habits: &Habits, list: &mut List, id: u32) {
    let type_ = habits.types[random.below(habits.types.len())];
    let length = random.below(habits.longest + 1);
    list.push(type_, id, &random.bytes(length));
}

fn tail(random: &mut Random, list: &mut List) {
    let bytes = match random.below(4) {
        0 => vec![0xff; 8],
        _ => random.bytes(8),
    };
    list.push([SOFT_TAIL, HARD_TAIL][random.below(2)], NO_SLOT, &bytes);
}

fn move_state(random: &mut Random, list: &mut List) {
    let bytes = match random.below(3) {
        0 => vec![0; 12],
        _ => random.bytes(12),
    };
    list.push(MOVE_STATE, NO_SLOT, &bytes);
}

/// Ends a list by an entry of so many bytes; where that is more than an entry may
/// have, by several that take the same room.
pub fn fill(random: &mut Random, habits: &Habits, list: &mut List, slot: Option<u32>, size: isize) {
    let mut size = size;
    while let (Some(id), 1027..) = (slot, size) {
        list.push(habits.types[0], id, &random.bytes(1022));
        size -= 1026;
    }
    let size = size.clamp(0, 1022) as usize;
    let type_ = match random.below(3) {
        0 => INLINE,
        1 => FILE,
        _ => habits.types[random.below(habits.types.len())],
    };
    match slot {
        Some(id) if size > 0 || type_ != FILE => list.push(type_, id, &random.bytes(size)),
        _ => move_state(random, list),
    }
}

/// Types, ids and lengths that are drawn from: at and beside their bounds. An id
/// of -1 is the count, one of -2 the one above, one of -3 the one below it.
type Doubt = (&'static [u32], &'static [i32], &'static [u32]);

const DOUBTS: [Doubt; 8] = [
    (&[CREATE], &[-1, -2, 1023], &[0, 0, 1, REMOVAL]),
    (&[DELETE], &[-1, -3, 1023], &[0, 0, 4, REMOVAL]),
    (&[FILE, DIRECTORY], &[-1, -3], NAME_LENGTHS),
    (&[DIR_STRUCT, CTZ], &[-1, -3], &[7, 8, 9, 0, REMOVAL]),
    (&[INLINE], &[-1, -3], &[0, 1022, REMOVAL, 1024]),
    (ATTRIBUTES, &[-1, -3, 1023], &[0, 1022, REMOVAL, 1024, 2047]),
    (
        &[SOFT_TAIL, HARD_TAIL, 0x602],
        &[1023, 0, -3],
        &[8, 7, 12, REMOVAL],
    ),
    (
        &[MOVE_STATE, 0x7fe, 0x700],
        &[1023, 1022, 0],
        &[12, 8, 0, REMOVAL],
    ),
];
const NAME_LENGTHS: &[u32] = &[0, 1, 1021, 1022, REMOVAL, 1024];
const ATTRIBUTES: &[u32] = &[0x2ff, 0x300, 0x374, 0x3ff, 0x400];

fn one_of<T: Copy>(random: &mut Random, values: &[T]) -> T {
    values[random.below(values.len())]
}

/// An entry that is bad behind a count, or just not.
pub fn doubtful(random: &mut Random, list: &mut List, count: u32) {
    let in_count = count.saturating_sub(1);
    let (type_, id, len) = match random.below(DOUBTS.len() + 1) {
        8 => odd(random, in_count),
        which => {
            let (types, ids, lengths) = DOUBTS[which];
            let id = match one_of(random, ids) {
                -1 => count,
                -2 => count + 1,
                -3 => in_count,
                id => id as u32,
            };
            (one_of(random, types), id, one_of(random, lengths))
        }
    };
    let off = list.data.len() as u32;
    if len != REMOVAL {
        list.data.extend(random.bytes(len as usize));
    }
    list.entries.push(Entry {
        type_: type_ as u16,
        id: id as u16,
        off,
        len,
    });
}

/// Types that no list may have, and ids and types above their bits.
fn odd(random: &mut Random, in_count: u32) -> (u32, u32, u32) {
    match random.below(12) {
        0..3 => (SUPERBLOCK, in_count, 8),
        3..5 => (FORWARD, NO_SLOT, 8),
        5 => (CHECK, NO_SLOT, 4),
        6 => (0x800 + [FILE, INLINE, CREATE][random.below(3)], in_count, 0),
        7 => (0x800 + FILE, in_count, 3),
        8 => (FILE, 1024 + in_count, 2),
        9 => (ATTRIBUTE, 65_535, 2),
        10 => (random.below(0x800) as u32, in_count, random.below(9) as u32),
        _ => (
            [0x000, 0x003, 0x203, 0x400, 0x402, 0x4fe, 0x580][random.below(7)],
            in_count,
            0,
        ),
    }
}

/// Puts the offset of one entry at the data's end, past it, or far away.
pub fn misplaced(random: &mut Random, list: &mut List) {
    let (end, which) = (
        list.data.len() as u32,
        random.below(list.entries.len().max(1)),
    );
    let Some(entry) = list.entries.get_mut(which) else {
        return;
    };
    let last = end.saturating_sub(entry.len);
    entry.off = [
        last,
        last + 1,
        end,
        end + 1,
        u32::MAX,
        0u32.wrapping_sub(entry.len),
    ][random.below(6)];
}
