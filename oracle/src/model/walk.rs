//! The walk over the log of one block.
//!
//! Assumes nothing of the bytes.

use super::{bytes::*, tag::*, Fault};

/// What the entries so far say of the directory.
#[derive(Clone, Copy)]
pub struct Contents {
    pub count: u32,
    pub tail: [u32; 2],
    pub split: bool,
}

/// What a commit check leaves behind.
#[derive(Clone, Copy)]
pub struct Commit {
    pub contents: Contents,
    pub end: usize,
    pub end_tag: u32,
    pub forwards: Forwards,
}

/// A forward check: so many bytes from the end, and their checksum.
#[derive(Clone, Copy, PartialEq, Eq)]
pub struct Forward {
    pub length: u32,
    pub sum: u32,
}

/// The forward checks so far: the last one, and the last one of the commit at hand.
#[derive(Clone, Copy, Default)]
pub struct Forwards {
    pub last: Option<Forward>,
    pub own: Option<Forward>,
}

#[derive(Clone, Copy, PartialEq, Eq)]
pub enum Stop {
    /// On an invalid tag.
    Invalid,
    /// On an entry or a read that passes the block, or a check that fails.
    Other,
}

#[derive(Clone, Copy)]
pub struct Walk<'a> {
    fault: Fault,
    pub block: &'a [u8],
    /// Where the tag at hand stands; behind the walk, the one that it stopped on.
    pub at: usize,
    /// Where the next one stands.
    next: usize,
    pub previous: u32,
    pub sum: u32,
    pub contents: Contents,
    pub forwards: Forwards,
    pub committed: Option<Commit>,
    pub seed: u32,
    pub stop: Stop,
}

impl<'a> Walk<'a> {
    /// A whole walk. `earlier` is the walk of the block tried before: only a
    /// fault looks at it.
    pub fn of(fault: Fault, block: &'a [u8], seed: u32, earlier: Option<Walk>) -> Walk<'a> {
        let nothing = Commit {
            contents: Contents {
                count: 0,
                tail: [ONES; 2],
                split: false,
            },
            // "The previous tag starts at 0xffffffff, whose length is 4"
            end: 4,
            end_tag: ONES,
            forwards: Forwards::default(),
        };
        let revision = block.get(..4).unwrap_or_default();
        let mut walk = Walk {
            sum: crc(ONES, revision),
            committed: None,
            ..Walk::behind(fault, block, nothing, seed)
        };
        if let (Fault::SecondBlockGoesOn, Some(earlier)) = (fault, earlier) {
            walk.contents = earlier.contents;
            walk.forwards.last = earlier.forwards.last;
        }
        match fault {
            Fault::RevisionUnsummed => walk.sum = ONES,
            Fault::TailFromZero => walk.contents.tail = [0; 2],
            _ => {}
        }
        walk.run()
    }

    /// A walk that is to go on behind a commit.
    pub fn behind(fault: Fault, block: &'a [u8], known: Commit, seed: u32) -> Walk<'a> {
        Walk {
            fault,
            block,
            at: known.end,
            next: known.end,
            previous: known.end_tag,
            sum: ONES,
            contents: known.contents,
            forwards: known.forwards,
            committed: Some(known),
            seed,
            stop: Stop::Other,
        }
    }

    /// Goes on to where it stops.
    pub fn run(mut self) -> Walk<'a> {
        loop {
            if let Err(stop) = self.step() {
                self.stop = stop;
                return self;
            }
        }
    }

    fn has(&self, fault: Fault) -> bool {
        self.fault == fault
    }

    fn length_of(&self, tag: u32) -> usize {
        match self.fault {
            Fault::RemovalHasData => 4 + size_of(tag) as usize,
            _ => length_of(tag),
        }
    }

    /// "Each step reads four bytes big-endian, adds them to the checksum, and
    /// XORs with the previous tag."
    fn step(&mut self) -> Result<(), Stop> {
        self.at = self.next;
        let raw = be32(self.block, self.at).ok_or(Stop::Other)?;
        let tag = raw ^ self.previous;
        let check = self.is_check(tag);
        if !(check && self.has(Fault::CheckTagUnsummed)) {
            self.sum = crc(self.sum, &raw.to_be_bytes());
        }
        if tag & INVALID != 0 {
            return Err(Stop::Invalid);
        }
        let end = self.at + self.length_of(tag);
        let at_end = end == self.block.len() && self.has(Fault::EntryAtEndStops);
        let past = end > self.block.len() && !(check && self.has(Fault::CheckMayPass));
        if past || at_end {
            return Err(Stop::Other);
        }
        (self.previous, self.next) = (tag, end);
        match check {
            true => self.check(tag),
            false => self.entry(tag),
        }
    }

    fn is_check(&self, tag: u32) -> bool {
        match self.fault {
            Fault::CheckIsExact => type_of(tag) & 0x7fe == CHECK,
            Fault::CheckByType1 => type1_of(tag) == CHECK && type_of(tag) != FORWARD,
            _ => type2_of(tag) == CHECK,
        }
    }

    /// "four little-endian bytes behind the tag equal the checksum, or the walk
    /// stops. Then the record takes [..]; the seed takes the checksum's four
    /// bytes; chunk's low bit flips bit 31 of the previous tag; the checksum
    /// restarts at 0xffffffff."
    fn check(&mut self, tag: u32) -> Result<(), Stop> {
        let stored = le32(self.block, self.at + 4).ok_or(Stop::Other)?;
        let short = size_of(tag) < 4 || is_removal(tag);
        let fits = match self.fault {
            Fault::ErasedSumFits if stored == ONES => true,
            Fault::ZeroSumFits if stored == 0 => true,
            _ => stored == self.sum,
        };
        if !fits || (short && self.has(Fault::ShortCheckStops)) {
            return Err(Stop::Other);
        }
        let first = self.committed.is_none();
        if first || !self.has(Fault::SeedOnce) {
            self.seed = match self.fault {
                Fault::SeedBigEndian => crc(self.seed, &self.sum.to_be_bytes()),
                Fault::SeedXored => self.seed ^ self.sum,
                _ => crc(self.seed, &self.sum.to_le_bytes()),
            };
        }
        if chunk_of(tag) & 1 == 1 && !self.has(Fault::PreviousUnflipped) {
            self.previous ^= INVALID;
        }
        let end_tag = match self.fault {
            Fault::EndTagUnflipped => tag,
            _ => self.previous,
        };
        self.committed = Some(Commit {
            contents: self.contents,
            end: self.at + self.length_of(tag),
            end_tag,
            forwards: self.forwards,
        });
        self.restart(tag);
        Ok(())
    }

    fn restart(&mut self, tag: u32) {
        let data = self.data(self.length_of(tag) - 4);
        match self.fault {
            Fault::SumGoesOn => {}
            Fault::CheckDataSummed => self.sum = crc(ONES, data),
            Fault::SumFromZero => self.sum = 0,
            _ => self.sum = ONES,
        }
        self.forwards.own = None;
        if self.has(Fault::ForwardResets) {
            self.forwards.last = None;
        }
        if self.has(Fault::TailResets) {
            self.contents.tail = [ONES; 2];
        }
    }

    /// The first `length` bytes behind the tag, or what the block has of them.
    fn data(&self, length: usize) -> &'a [u8] {
        let rest = self.block.get(self.at + 4..).unwrap_or_default();
        rest.get(..length).unwrap_or(rest)
    }

    /// "An entry's data, a check's excepted, are added too." Types go by type1,
    /// but for the forward check.
    fn entry(&mut self, tag: u32) -> Result<(), Stop> {
        self.sum = crc(self.sum, self.data(self.length_of(tag) - 4));
        match type1_of(tag) {
            NAME => self.name(tag),
            SPLICE => self.splice(tag),
            TAIL => return self.tail(tag),
            _ if self.is_forward(tag) => return self.forward(tag),
            _ => {}
        }
        Ok(())
    }

    /// "count becomes at least id + 1"
    fn name(&mut self, tag: u32) {
        let least = match self.fault {
            Fault::NameRaisesToId => id_of(tag),
            Fault::SuperblockIsNoName if type_of(tag) == SUPERBLOCK => 0,
            Fault::RemovalIsNoName if is_removal(tag) => 0,
            _ => id_of(tag) + 1,
        };
        self.contents.count = match self.fault {
            Fault::NameSetsCount => least,
            _ => self.contents.count.max(least),
        };
    }

    /// "count plus splice, raised to 0 if below, then modulo 65,536"
    fn splice(&mut self, tag: u32) {
        let known = matches!(type_of(tag), CREATE | DELETE);
        if !known && self.has(Fault::SpliceIsExact) {
            return;
        }
        let splice = match self.fault {
            Fault::SpliceUnsigned => chunk_of(tag) as i32,
            _ => splice_of(tag),
        };
        let sum = self.contents.count as i32 + splice;
        self.contents.count = match self.fault {
            Fault::CountUnclamped => sum.rem_euclid(65_536) as u32,
            Fault::CountWide => sum.max(0) as u32,
            Fault::CountSaturates => sum.clamp(0, 65_535) as u32,
            _ => sum.max(0) as u32 % 65_536,
        };
    }

    /// "split is chunk's low bit; 8 bytes are read, though the size be smaller"
    fn tail(&mut self, tag: u32) -> Result<(), Stop> {
        if self.has(Fault::TailIsExact) && type_of(tag) > HARD_TAIL {
            return Ok(());
        }
        let bit = if self.has(Fault::SplitFromBit1) { 1 } else { 0 };
        self.contents.split = chunk_of(tag) >> bit & 1 == 1;
        if is_removal(tag) && self.has(Fault::RemovedTailUnread) {
            return Ok(());
        }
        if size_of(tag) < 8 && self.has(Fault::ShortTailUnread) {
            return Ok(());
        }
        self.contents.tail = self.two_words()?;
        if self.has(Fault::TailSwapped) {
            self.contents.tail.swap(0, 1);
        }
        Ok(())
    }

    fn is_forward(&self, tag: u32) -> bool {
        match self.fault {
            Fault::ForwardByType2 => type2_of(tag) == 0x580,
            Fault::ShortForwardUnread => type_of(tag) == FORWARD && size_of(tag) >= 8,
            _ => type_of(tag) == FORWARD,
        }
    }

    /// "8 bytes likewise, length and checksum"
    fn forward(&mut self, _tag: u32) -> Result<(), Stop> {
        let [length, sum] = self.two_words()?;
        let forward = Some(Forward { length, sum });
        self.forwards.own = forward;
        if self.forwards.last.is_none() || !self.has(Fault::FirstForwardKept) {
            self.forwards.last = forward;
        }
        Ok(())
    }

    fn two_words(&self) -> Result<[u32; 2], Stop> {
        let first = le32(self.block, self.at + 4);
        let second = le32(self.block, self.at + 8);
        match (first, second) {
            (Some(first), Some(second)) => Ok([first, second]),
            _ => Err(Stop::Other),
        }
    }
}
