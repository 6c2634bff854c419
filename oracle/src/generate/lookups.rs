//! What is asked of two blocks: records, queries, buffers, global states.
//!
//! Assumes nothing.

use super::Case;
use crate::calls::{Gstate, Lookup, Mdir, Query};
use crate::model::*;
use crate::random::Random;

/// Every tag that stands in an image, checks or not: what a lookup can find.
pub fn tags_in(image: &[u8]) -> Vec<u32> {
    let (mut tags, mut at, mut previous) = (Vec::new(), 4, ONES);
    while let Some(raw) = be32(image, at) {
        let tag = raw ^ previous;
        if tag & INVALID != 0 || at + length_of(tag) > image.len() {
            break;
        }
        tags.push(tag);
        at += length_of(tag);
        let flips = type2_of(tag) == CHECK && tag >> 20 & 1 == 1;
        previous = if flips { tag ^ INVALID } else { tag };
    }
    tags
}

/// What lookups on one case are drawn from.
pub struct Asked<'a> {
    pub random: &'a mut Random,
    pub case: &'a Case,
    /// The record that fetch answered, if it did.
    pub fetched: Option<Mdir>,
    pub tags: Vec<u32>,
}

impl<'a> Asked<'a> {
    pub fn new(random: &'a mut Random, case: &'a Case, fetched: Option<Mdir>) -> Asked<'a> {
        let answering = match fetched {
            Some(dir) => usize::from(dir.pair[0] == case.numbers[1]),
            None => random.below(2),
        };
        // Checks are found only by odd masks: few of them are asked for.
        let mut tags = tags_in(&case.images[answering]);
        let few = random.below(8) > 0;
        tags.retain(|&tag| type2_of(tag) != CHECK || !few);
        Asked {
            tags,
            random,
            case,
            fetched,
        }
    }

    /// A record and a global state, for a key of this id. Says whether the
    /// record is made up.
    pub fn lookup(&mut self, id: u32) -> (Lookup<'a>, bool) {
        let (dir, made_up) = match self.fetched {
            Some(dir) if self.random.below(10) < 8 => (dir, false),
            _ => (self.made_up(id), true),
        };
        let gdisk = self.gdisk(dir.pair, id);
        let blocks = self.case.blocks();
        (Lookup { blocks, dir, gdisk }, made_up)
    }

    /// Any end inside the block, any end tag, the pair in either order. What a
    /// lookup does not look at is filled too.
    fn made_up(&mut self, id: u32) -> Mdir {
        let block = self.case.geometry.block_size;
        let [n0, n1] = self.case.numbers;
        let known = self.fetched.map_or(0, |dir| dir.off);
        let off = match self.random.below(8) {
            0 => block,
            1..4 => known.min(block),
            4 => self.random.below(24) as u32,
            _ => self.random.below(block as usize + 1) as u32,
        };
        let bit_31 = self.random.word() & INVALID;
        let any = [0x800, 1024, 40].map(|bound| self.random.below(bound) as u32);
        let etag = match self.random.below(16) {
            0..3 => self.random.word(),
            3..6 => self.fetched.map_or(0x5000_0004, |dir| dir.etag ^ INVALID),
            6..10 => self.tag() | bit_31,
            // Where the id was created, exactly or not.
            10..12 => tag_of(CREATE, id, [0, 0, 1, REMOVAL][self.random.below(4)]) | bit_31,
            12 => tag_of(any[0], id, any[2]),
            _ => tag_of(any[0], any[1], any[2]),
        };
        let dir = Mdir {
            pair: [[n0, n1], [n1, n0]][self.random.below(2)],
            rev: self.random.word(),
            off,
            etag,
            count: self.random.word() as u16,
            erased: self.random.below(2) as u8,
            split: self.random.below(2) as u8,
            tail: [self.random.word(), self.random.word()],
            ..Mdir::default()
        };
        // Nothing is drawn for these: the recorded list stays as it is.
        Mdir {
            forward: (dir.rev & 1) as u8,
            forward_size: dir.rev,
            forward_sum: dir.tail[0],
            ..dir
        }
    }

    /// A tag that stands there; at times the end tag, with bit 31 or without.
    fn tag(&mut self) -> u32 {
        match (self.fetched, self.tags.len()) {
            (Some(dir), _) if self.random.below(12) == 0 => {
                dir.etag ^ (self.random.word() & INVALID)
            }
            (_, 0) => self.random.word(),
            (_, some) => self.tags[self.random.below(some)],
        }
    }

    /// An id that a slot has, or just had, or the highest ones, or any.
    pub fn some_id(&mut self) -> u32 {
        let count = self.fetched.map_or(3, |dir| u32::from(dir.count).min(1023));
        match self.random.below(24) {
            0 => [1023, 1022][self.random.below(2)],
            1 => self.random.below(1024) as u32,
            2..10 => id_of(self.tag()),
            10..12 => self.random.below(count as usize + 2) as u32,
            _ => self.random.below(count.max(1) as usize) as u32,
        }
    }

    /// No move; one on this pair, on one of its blocks, at, below or above the
    /// id; one elsewhere; a state without a move but with this pair.
    fn gdisk(&mut self, pair: [u32; 2], id: u32) -> Gstate {
        let kind = self.random.below(30);
        if kind < 20 {
            return Gstate::default();
        }
        let [other, type_] = [self.random.word(), self.random.word() >> 21];
        let type_ = match kind {
            20 => type_ & 0xff,
            21..26 => DELETE,
            _ => type_ | 0x100,
        };
        let moved = match self.random.below(6) {
            0 => id,
            1 => id ^ 1,
            2 => id.saturating_sub(1 + self.random.below(3) as u32),
            3 => id + 1 + self.random.below(3) as u32,
            4 => 0,
            _ => self.random.below(1024) as u32,
        };
        let size = self.random.below(1024) as u32;
        let shared = [
            pair,
            [pair[1], pair[0]],
            [pair[0], other],
            [other, pair[0]],
            [pair[1], other],
            [other, pair[1]],
            [other, other ^ 1],
            pair,
        ];
        Gstate {
            tag: tag_of(type_, moved.min(1023), size) | (self.random.word() & INVALID),
            pair: shared[self.random.below(shared.len())],
        }
    }

    pub fn query(&mut self) -> Query {
        let (mask, key) = match self.random.below(20) {
            0..8 => self.like_a_tag(),
            8..15 => self.of_a_slot(),
            15 | 16 => (0x7ff0_0000, tag_of(MOVE_STATE, 0, 12)),
            17 => (self.random.word() & self.random.word(), self.tag()),
            18 => (1 << self.random.below(32), self.random.word()),
            _ => (self.random.word(), self.random.word()),
        };
        Query {
            mask,
            key,
            offset: self.offset(),
        }
    }

    /// A tag that stands there, its id often moved, under one of many masks.
    fn like_a_tag(&mut self) -> (u32, u32) {
        let masks = [
            0x7fff_fc00,
            0x700f_fc00,
            0x780f_fc00,
            0x7ff0_0000,
            0x7000_0000,
            0xffff_ffff,
            0x7fff_ffff,
            0xffff_fc00,
            0x000f_fc00,
            0x0000_0400,
            0x7ff0_03ff,
        ];
        let mask = masks[self.random.below(masks.len())];
        let tag = self.tag();
        let key = match self.random.below(3) {
            0 => tag & !ID_BITS | self.some_id() << 10,
            1 => tag.wrapping_add((self.random.below(9) as u32).wrapping_sub(4) << 10),
            _ => tag,
        };
        (
            mask,
            key ^ (self.random.word() & self.random.word() & INVALID),
        )
    }

    /// A name, struct or attribute, as the directory lookups ask.
    fn of_a_slot(&mut self) -> (u32, u32) {
        let id = self.some_id();
        let (types, type_) = match self.random.below(8) {
            0..2 => (0x700, NAME),
            2 => (0x780, NAME),
            3..5 => (0x700, STRUCT),
            5 => (0x7ff, type_of(self.tag())),
            6 => (0x7ff, 0x374),
            _ => (0x7ff, [0x300, 0x3ff, 0x301][self.random.below(3)]),
        };
        let size = self.random.below(64) as u32;
        (types << 20 | ID_BITS, tag_of(type_, id, size))
    }

    fn offset(&mut self) -> u32 {
        let block = self.case.geometry.block_size as usize;
        let offset = match self.random.below(20) {
            0..12 => 0,
            12..16 => self.random.below(12),
            16 | 17 => self.random.below(block),
            18 => self.random.below(65_537),
            _ => [65_536, 65_535, block, block - 4][self.random.below(4)],
        };
        offset as u32
    }

    /// A length of a lent buffer: mostly small, rarely the longest one.
    pub fn buffer_length(&mut self) -> usize {
        match self.random.below(1000) {
            0..2 => [65_536, 65_535][self.random.below(2)],
            2 => self.random.below(65_537),
            3..10 => [1022, 1023, 1024, 4096][self.random.below(4)],
            10..200 => [0, 1, 4, 8, 12, 256][self.random.below(6)],
            _ => self.random.below(40),
        }
    }
}
