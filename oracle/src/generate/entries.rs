//! Commits of random entries.
//!
//! The entries keep to a count of slots, as a file system's do, but for a share
//! of odd ones: any type, any id, any size.
//!
//! Assumes nothing.

use super::Log;
use crate::model::*;
use crate::random::Random;

pub struct Writer<'a> {
    pub random: &'a mut Random,
    pub log: Log,
    pub prog: usize,
    /// Of a hundred entries, so many are odd.
    pub odd: usize,
    pub count: u32,
}

impl Writer<'_> {
    pub fn new(random: &mut Random, log: Log, prog: usize, odd: usize) -> Writer<'_> {
        Writer {
            random,
            log,
            prog,
            odd,
            count: 0,
        }
    }

    /// Commits until the number is reached or the block is full; at times
    /// entries behind the last one, without a check or with a wrong one.
    pub fn fill(&mut self, commits: usize) {
        for _ in 0..commits {
            if !self.commit() {
                break;
            }
        }
        match self.random.below(8) {
            0 => self.entries(),
            1 => {
                self.entries();
                self.log.put(tag_of(CHECK, NO_SLOT, 4), &[0x5a; 4]);
            }
            _ => {}
        }
    }

    fn commit(&mut self) -> bool {
        self.entries();
        if self.random.below(3) == 0 {
            put_forward(self.random, &mut self.log, self.prog);
        }
        self.check()
    }

    fn entries(&mut self) {
        for _ in 0..self.random.below(6) {
            self.entry();
        }
    }

    fn entry(&mut self) {
        if self.random.below(100) < self.odd {
            return self.odd_one();
        }
        match self.random.below(100) {
            0..28 => self.create(),
            28..36 => self.delete(),
            36..48 => self.name(),
            48..62 => self.structure(),
            62..80 => self.attribute(),
            80..86 => self.removal(),
            86..92 => self.tail(),
            92..97 => self.move_state(),
            _ => self.superblock(),
        }
    }

    /// A slot below the count, or 0.
    fn slot(&mut self) -> u32 {
        self.random.below(self.count.max(1) as usize) as u32
    }

    fn create(&mut self) {
        let id = self.random.below(self.count as usize + 1) as u32;
        if self.log.put(tag_of(CREATE, id, 0), &[]) {
            self.count = (self.count + 1).min(1023);
        }
        let name = self.text();
        let type_ = [FILE, DIRECTORY][self.random.below(2)];
        self.log.put(tag_of(type_, id, name.len() as u32), &name);
        if self.random.below(4) > 0 {
            self.structure_of(id);
        }
    }

    fn delete(&mut self) {
        let id = self.slot();
        if self.log.put(tag_of(DELETE, id, 0), &[]) {
            self.count = self.count.saturating_sub(1);
        }
    }

    fn name(&mut self) {
        let (id, name) = (self.slot(), self.text());
        let type_ = [FILE, DIRECTORY, 0x003, 0x07f][self.random.below(4)];
        self.log.put(tag_of(type_, id, name.len() as u32), &name);
        self.count = self.count.max(id + 1);
    }

    /// Mostly short; some as long as the longest name, and just longer.
    fn text(&mut self) -> Vec<u8> {
        let length = match self.random.below(40) {
            0 => 250 + self.random.below(10),
            1 => self.random.below(64),
            _ => 1 + self.random.below(9),
        };
        let letter = |_| b'a' + self.random.below(26) as u8;
        (0..length).map(letter).collect()
    }

    fn structure(&mut self) {
        let id = self.slot();
        self.structure_of(id);
    }

    fn structure_of(&mut self, id: u32) {
        let (type_, size) = match self.random.below(10) {
            0..3 => (DIR_STRUCT, 8),
            3..6 => (INLINE, self.random.below(14)),
            6..8 => (CTZ, 8),
            8 => (CTZ, self.random.below(12)),
            _ => (0x203, 8),
        };
        let data = self.random.bytes(size);
        self.log.put(tag_of(type_, id, size as u32), &data);
    }

    fn attribute(&mut self) {
        let id = self.slot();
        let type_ = ATTRIBUTE + [0x74, 0x00, 0xff, 0x01][self.random.below(4)];
        let size = match self.random.below(12) {
            0 => 0,
            1 => self.random.below(90),
            _ => self.random.below(10),
        };
        let data = self.random.bytes(size);
        self.log.put(tag_of(type_, id, size as u32), &data);
    }

    fn removal(&mut self) {
        let id = self.slot();
        let type_ = [FILE, INLINE, 0x374, 0x300, DIRECTORY][self.random.below(5)];
        self.log.put(tag_of(type_, id, REMOVAL), &[]);
    }

    fn tail(&mut self) {
        let type_ = [SOFT_TAIL, HARD_TAIL][self.random.below(2)];
        let data = match self.random.below(4) {
            0 => vec![0xff; 8],
            _ => self.random.bytes(8),
        };
        self.log.put(tag_of(type_, NO_SLOT, 8), &data);
    }

    fn move_state(&mut self) {
        let size = [12, 12, 12, 0, 5, 20][self.random.below(6)];
        let id = [NO_SLOT, NO_SLOT, 0][self.random.below(3)];
        let data = self.random.bytes(size);
        self.log.put(tag_of(MOVE_STATE, id, size as u32), &data);
    }

    fn superblock(&mut self) {
        self.log.put(tag_of(SUPERBLOCK, 0, 8), b"littlefs");
        let data = self.random.bytes(24);
        self.log.put(tag_of(INLINE, 0, 24), &data);
        self.count = self.count.max(1);
    }

    /// Any type but a check's, with a preference for those that a walk looks at.
    fn odd_one(&mut self) {
        let chunk = self.random.below(256) as u32;
        let type_ = match self.random.below(12) {
            0..2 => NAME + chunk,
            2..5 => SPLICE + chunk,
            5 => [CREATE, DELETE, 0x47f, 0x480][self.random.below(4)],
            6..8 => TAIL + chunk,
            8 => 0x580 + (chunk & 0x7f),
            9 => FORWARD,
            10 => 0x300 + chunk,
            _ => [0x100, 0x200, 0x700][self.random.below(3)] + chunk,
        };
        let id = match self.random.below(4) {
            0 => self.random.below(1024) as u32,
            1 => [NO_SLOT, 1022, 512, 1][self.random.below(4)],
            _ => self.slot(),
        };
        let size = match self.random.below(8) {
            0 => REMOVAL as usize,
            1..4 => 0,
            4 => 8,
            _ => self.random.below(24),
        };
        let data = self.random.bytes(if size > 1022 { 0 } else { size });
        self.log.put(tag_of(type_, id, size as u32), &data);
    }

    /// A check, mostly as a file system writes it.
    pub fn check(&mut self) -> bool {
        let type_ = match self.random.below(20) {
            0..14 => self.log.check_type(),
            14..17 => CHECK + 1,
            _ => CHECK + self.random.below(128) as u32,
        };
        let id = match self.random.below(10) {
            0 => self.random.below(1024) as u32,
            _ => NO_SLOT,
        };
        let size = match self.random.below(40) {
            0 => self.random.below(4) as u32,
            1 => REMOVAL,
            2..6 => 4 + self.random.below(30) as u32,
            6 => (self.log.room().max(8) as u32 - 4).min(1022),
            _ => self.log.check_size(0, self.prog),
        };
        let tag = tag_of(type_, id, size);
        if length_of(tag) > self.log.room() || !self.log.check(tag) {
            return false;
        }
        let padded = self.random.below(12) == 0 && length_of(tag) > 8;
        if padded {
            let (start, end) = (self.log.at() + 8 - length_of(tag), self.log.at());
            let padding = self.random.bytes(end - start);
            self.log.bytes[start..end].copy_from_slice(&padding);
        }
        // The checksum's bytes stand where the next tag does: go on from there.
        length_of(tag) >= 8 || self.log.adopt()
    }
}

/// A forward check over bytes that will still be erased, and so fits; or one
/// that does not; or one whose length passes the block, with the checksum of
/// what the Rust has read by then.
pub fn put_forward(random: &mut Random, log: &mut Log, prog: usize) {
    let end = log.at() + 16 + log.check_size(12, prog) as usize;
    let left = log.bytes.len().saturating_sub(end);
    let length = match random.below(12) {
        0 => 0,
        1 => left,
        2 => left + 1,
        3 => left + random.below(600),
        4 => random.word() as usize,
        5..8 => prog.min(left),
        _ => random.below(left.min(64) + 1),
    };
    let read = if length > left { left / 8 * 8 } else { length };
    let sum = match random.below(6) {
        0 => random.word(),
        _ => crc(ONES, &vec![log.erased; read]),
    };
    let mut data = (length as u32).to_le_bytes().to_vec();
    data.extend(sum.to_le_bytes());
    log.put(tag_of(FORWARD, NO_SLOT, 8), &data);
}
