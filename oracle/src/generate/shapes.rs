//! Shapes that random logs do not reach, or hardly ever, made on purpose.
//!
//! Each one is a single block; the other one is erased, a copy, or a log that
//! ranks before or behind it.
//!
//! Assumes nothing.

use super::entries::put_forward;
use super::{pairs, sizes, Case, Log, Sizes};
use crate::calls::Geometry;
use crate::model::*;
use crate::random::Random;

/// What one shape is made of.
struct Maker<'a> {
    random: &'a mut Random,
    geometry: Geometry,
    log: Log,
}

type Shape = (&'static str, fn(&mut Maker));

/// Those that fit into 128 bytes. The recorded list is drawn from these.
const SHAPES: [Shape; 12] = [
    ("shape: count at its edges", count_edges),
    ("shape: count clamped", clamped),
    ("shape: short forward check", short_forward),
    (
        "shape: short forward check that fits",
        fitting_short_forward,
    ),
    ("shape: check past the block", check_past),
    ("shape: check's bytes past the block", check_bytes_past),
    ("shape: eight bytes past the block", eight_bytes_past),
    ("shape: end at the block's end", end_at_end),
    ("shape: forward check in an earlier commit", earlier_forward),
    ("shape: forward length past the block", forward_past),
    ("shape: nothing committed", nothing_committed),
    ("shape: bit 31", bit_31),
];

/// Those of blocks of any size, beside them.
const STORM: Shape = ("shape: storm of splices", storm);
const UNCOMMITTED: Shape = ("shape: uncommitted forward check", uncommitted_forward);

pub fn case(random: &mut Random, sizes: Sizes) -> Case {
    let beside = match sizes {
        Sizes::Any => random.below(40),
        Sizes::Small => 40,
    };
    let geometry = match beside {
        0 => storm_geometry(random),
        _ => sizes::geometry(random, sizes),
    };
    let (kind, shape) = match beside {
        0 => STORM,
        1..4 => UNCOMMITTED,
        _ => SHAPES[random.below(SHAPES.len())],
    };
    let revision = random.word();
    let mut maker = Maker {
        log: Log::new(geometry.block_size as usize, revision),
        random,
        geometry,
    };
    shape(&mut maker);
    let image = maker.log.bytes;
    let revision = match random.below(2) {
        0 => revision.wrapping_sub(1),
        _ => revision.wrapping_add(1),
    };
    let other = match random.below(4) {
        0 => pairs::log(random, geometry, revision).bytes,
        1 => vec![0; image.len()],
        _ => vec![0xff; image.len()],
    };
    pairs::finish(random, kind, geometry, [image, other])
}

fn storm_geometry(random: &mut Random) -> Geometry {
    let (block_size, prog_size) = [(2475, 5), (4096, 16), (2560, 512)][random.below(3)];
    Geometry {
        block_size,
        prog_size,
    }
}

impl Maker<'_> {
    fn prog(&self) -> usize {
        self.geometry.prog_size as usize
    }

    /// A check that ends on a multiple of the program size.
    fn check(&mut self) -> bool {
        let size = self.log.check_size(0, self.prog());
        let tag = tag_of(CHECK, NO_SLOT, size);
        length_of(tag) <= self.log.room() && self.log.check(tag)
    }

    fn forward(&mut self, size: u32, length: u32, sum: u32) -> bool {
        let mut data = length.to_le_bytes().to_vec();
        data.extend(sum.to_le_bytes());
        data.truncate(if size == REMOVAL { 0 } else { size as usize });
        self.log.put(tag_of(FORWARD, NO_SLOT, size), &data)
    }

    /// A small commit, so that what follows stands behind a valid one.
    fn begin(&mut self) {
        self.log.put(tag_of(FILE, 0, 1), b"a");
        self.log.put(tag_of(SOFT_TAIL, NO_SLOT, 8), &[7; 8]);
        self.check();
    }

    /// An attribute that leaves exactly so many bytes of the block.
    fn leave(&mut self, bytes: usize) {
        while self.log.room() > bytes + 4 {
            let size = (self.log.room() - bytes - 4).min(1022);
            let data = self.random.bytes(size);
            self.log.put(tag_of(0x374, 0, size as u32), &data);
        }
    }
}

/// Splices of +127 that take the count past 65,536: 517 of them end at 123,
/// where it is small again. At times with names and deletes among them.
fn storm(maker: &mut Maker) {
    let more = match maker.random.below(2) {
        0 => maker.random.below(8),
        _ => maker.random.below(120),
    };
    let mixed = maker.random.below(2) == 0;
    for i in 0..516 + more {
        let odd = mixed && maker.random.below(200) == 0;
        let type_ = if odd { DELETE } else { 0x47f };
        maker.log.put(tag_of(type_, i as u32 % 3, 0), &[]);
    }
    if maker.random.below(3) == 0 {
        let id = maker.random.below(1024) as u32;
        maker.log.put(tag_of(FILE, id, 1), b"s");
    }
    maker.check();
}

/// 1,020 to 1,027 slots, by creates or by a name of a high id.
fn count_edges(maker: &mut Maker) {
    if maker.random.below(2) == 0 {
        let id = 1021 + maker.random.below(3) as u32;
        maker.log.put(tag_of(FILE, id, 2), b"hi");
    } else {
        for _ in 0..8 {
            maker.log.put(tag_of(0x47f, 0, 0), &[]);
        }
        for _ in 0..4 + maker.random.below(8) {
            maker.log.put(tag_of(CREATE, 1000, 0), &[]);
        }
    }
    maker.check();
    if maker.random.below(2) == 0 {
        maker.log.put(tag_of(DELETE, 3, 0), &[]);
        maker.check();
    }
}

/// Deletes below 0, then something that counts from there.
fn clamped(maker: &mut Maker) {
    let splice = [DELETE, 0x480, 0x4fe][maker.random.below(3)];
    maker.log.put(tag_of(splice, 0, 0), &[]);
    if maker.random.below(2) == 0 {
        maker.log.put(tag_of(CREATE, 0, 0), &[]);
    }
    maker.check();
}

/// A forward check that fits, then one of size below 8 that decides.
fn short_forward(maker: &mut Maker) {
    let length = maker.random.below(9) as u32;
    let sum = crc(ONES, &vec![0xff; length as usize]);
    if maker.random.below(4) > 0 {
        maker.forward(8, length, sum);
        maker.check();
    }
    let size = [0, 1, 3, 4, 5, 7, REMOVAL][maker.random.below(7)];
    maker.forward(size, length, sum);
    maker.check();
}

/// A forward check of size 4 whose checksum is the next tag's bytes, and fits.
/// That tag must be an entry that fits too, so several lengths are tried.
fn fitting_short_forward(maker: &mut Maker) {
    maker.begin();
    let (start, room) = (maker.random.below(32), maker.log.room());
    for length in start..start + 64 {
        let sum = crc(ONES, &vec![0xff; length]).to_le_bytes();
        // The tag that stands there as the checksum, behind the forward check.
        let next = u32::from_be_bytes(sum) ^ tag_of(FORWARD, NO_SLOT, 4);
        let fits = length_of(next) + length + 24 + 2 * maker.prog() <= room;
        if next & INVALID == 0 && type_of(next) & 0x700 != CHECK && fits {
            maker.forward(4, length as u32, 0);
            maker.log.put(maker.log.tag_for(sum), &[]);
            break;
        }
    }
    maker.check();
}

/// A check whose checksum fits though its size passes the block, by one byte or
/// by many; at times the size just fits.
fn check_past(maker: &mut Maker) {
    maker.begin();
    let left = 8 + maker.random.below(40);
    maker.leave(left);
    let room = maker.log.room() as u32;
    let size = match maker.random.below(4) {
        0 => room - 4,
        1 => room - 3,
        _ => room + maker.random.below(900) as u32,
    };
    maker.log.check(tag_of(CHECK, NO_SLOT, size.min(1022)));
}

/// A check that ends inside the block, while its four bytes may pass it.
fn check_bytes_past(maker: &mut Maker) {
    maker.begin();
    let left = 4 + maker.random.below(6);
    maker.leave(left);
    let size = [0, 1, 2, 3, REMOVAL][maker.random.below(5)];
    let tag = tag_of(CHECK, NO_SLOT, size);
    if !maker.log.check(tag) {
        maker.log.put(tag, &[0; 3]);
    }
}

/// A tail or forward check that ends inside the block, while its eight bytes may
/// pass it.
fn eight_bytes_past(maker: &mut Maker) {
    maker.begin();
    let left = 4 + maker.random.below(18);
    maker.leave(left);
    let type_ = [SOFT_TAIL, HARD_TAIL, 0x6aa, FORWARD][maker.random.below(4)];
    let size = [0, 1, 4, 7, REMOVAL][maker.random.below(5)];
    maker.log.put(tag_of(type_, NO_SLOT, size), &[9; 8]);
    let size = [0, 4, REMOVAL][maker.random.below(3)];
    maker.log.check(tag_of(CHECK, NO_SLOT, size));
}

/// The last commit ends where the block does, or one program unit before.
fn end_at_end(maker: &mut Maker) {
    maker.begin();
    let before = maker.prog() * maker.random.below(2);
    let left = 8 + maker.random.below(20);
    maker.leave(left + before);
    if maker.random.below(2) == 0 {
        let prog = maker.prog();
        put_forward(maker.random, &mut maker.log, prog);
    }
    let room = maker.log.room() as u32;
    if room >= 8 && maker.random.below(3) > 0 {
        maker
            .log
            .check(tag_of(CHECK, NO_SLOT, (room - 4).min(1022)));
    } else {
        maker.check();
    }
}

/// A forward check that fits, and commits behind it that have none; the last
/// end is a multiple of the program size, or not.
fn earlier_forward(maker: &mut Maker) {
    let length = maker.random.below(17) as u32;
    maker.forward(8, length, crc(ONES, &vec![0xff; length as usize]));
    maker.check();
    for _ in 0..maker.random.below(3) {
        // Beside the forward check's type are others, which say nothing.
        let type_ = [0x301, 0x5fe, 0x580][maker.random.below(3)];
        maker.log.put(tag_of(type_, 0, 8), b"xxxxyyyy");
        maker.check();
    }
    match maker.random.below(4) {
        0 => {
            let size = 4 + maker.random.below(12) as u32;
            maker.log.put(tag_of(0x302, 0, 2), b"yy");
            maker.log.check(tag_of(CHECK, NO_SLOT, size));
        }
        // What stands behind is not committed, or not even whole.
        1 => {
            maker.log.put(tag_of(0x303, 0, 3), b"zzz");
        }
        _ => {}
    }
}

/// A forward check behind the last commit, whole or torn, that isn't committed;
/// before it commits that have one of another length, or none.
fn uncommitted_forward(maker: &mut Maker) {
    let erased = |length: u32| crc(ONES, &vec![0xff; length as usize]);
    let lengths = [0, 4, 16, maker.geometry.prog_size];
    maker.begin();
    for _ in 0..maker.random.below(3) {
        let length = lengths[maker.random.below(4)];
        maker.forward(8, length, erased(length));
        maker.check();
    }
    if maker.random.below(2) == 0 {
        maker.log.put(tag_of(0x303, 0, 3), b"zzz");
    }
    let (start, length) = (maker.log.at(), lengths[maker.random.below(4)]);
    let sum = [erased(length), maker.random.word()][maker.random.below(2)];
    let laid = maker.forward(8, length, sum);
    match maker.random.below(4) {
        // Its last bytes are not there yet.
        0 if laid => {
            let torn = start + 4 + maker.random.below(8);
            maker.log.bytes[torn..start + 12].fill(0xff);
        }
        1 => {
            maker.log.put(tag_of(CHECK, NO_SLOT, 4), &[1, 2, 3, 4]);
        }
        _ => {}
    }
}

/// A forward length past the block, with the checksum of what could be read.
fn forward_past(maker: &mut Maker) {
    maker.begin();
    let end = maker.log.at() + 16 + maker.log.check_size(12, maker.prog()) as usize;
    let left = maker.geometry.block_size.saturating_sub(end as u32);
    let length = match maker.random.below(4) {
        0 => left,
        1 => left + 1,
        2 => u32::MAX,
        _ => left + maker.random.below(1000) as u32,
    };
    let read = if length > left { left / 8 * 8 } else { left };
    maker.forward(8, length, crc(ONES, &vec![0xff; read as usize]));
    maker.check();
}

/// Names, a tail and a forward check that fits, without a check behind them.
fn nothing_committed(maker: &mut Maker) {
    maker.log.put(tag_of(FILE, 5, 1), b"u");
    maker.log.put(tag_of(HARD_TAIL, NO_SLOT, 8), &[3; 8]);
    maker.forward(8, 0, ONES);
    if maker.random.below(2) == 0 {
        let tag = tag_of(CHECK, NO_SLOT, 4);
        maker.log.put(tag, &[1, 2, 3, 4]);
    }
}

/// Checks with chunk's low bit, so that the end tag has bit 31 set and the
/// lookups' first tag too; and names with high ids, whose answers carry.
fn bit_31(maker: &mut Maker) {
    let id = maker.random.below(1024) as u32;
    maker.log.put(tag_of(FILE, id, 2), b"bb");
    maker.log.put(tag_of(INLINE, id, 1), b"b");
    for _ in 0..maker.random.below(4) {
        let splice = SPLICE + maker.random.below(256) as u32;
        maker.log.put(tag_of(splice, 0, 0), &[]);
    }
    let type_ = CHECK + 1 + 2 * maker.random.below(64) as u32;
    let size = maker.log.check_size(0, maker.prog());
    let tag = tag_of(type_, NO_SLOT, size);
    if length_of(tag) <= maker.log.room() {
        maker.log.check(tag);
    }
}
