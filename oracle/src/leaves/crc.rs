//! `crc.rs`: the checksum.
//!
//! Assumes nothing. The bytes are lent at odd places in their buffer too, since
//! a reader of whole words may depend on where they begin.

use crate::tally::{Check, Subject};
use crate::{inputs, port, random::Random, rust};

/// Lengths past the small ones: around powers of two, up to the largest block.
const LONG: [usize; 13] = [
    301, 511, 512, 513, 1023, 1024, 4095, 4096, 4097, 16_384, 32_767, 65_535, 65_536,
];

pub fn compare() -> Subject {
    let mut random = Random::new(2);
    let mut subject = Subject::new("crc");
    subject.add(every_length(&mut random));
    subject.add(one_byte());
    subject.add(long(&mut random));
    subject.add(in_two_parts(&mut random));
    subject.add(of_nothing());
    subject
}

fn of_rust(crc: u32, bytes: &[u8]) -> u32 {
    rust::crc::lfs_crc(crc, bytes.as_ptr(), bytes.len())
}

fn same(check: &mut Check, crc: u32, bytes: &[u8]) {
    check.same(of_rust(crc, bytes), port::crc(crc, bytes), || {
        format!(
            "register {crc:#010x}, {} bytes from {:02x?}",
            bytes.len(),
            &bytes[..bytes.len().min(16)]
        )
    });
}

fn every_length(random: &mut Random) -> Check {
    let mut check = Check::rust("lfs_crc, each length to 300");
    for len in 0..=300 {
        for _ in 0..64 {
            let bytes = random.bytes(len + 8);
            let start = random.below(8);
            same(&mut check, random.word(), &bytes[start..start + len]);
        }
        for crc in [0, 1, 0x8000_0000, u32::MAX] {
            same(&mut check, crc, &vec![0x00; len]);
            same(&mut check, crc, &vec![0xff; len]);
        }
    }
    check
}

fn one_byte() -> Check {
    let mut check = Check::rust("lfs_crc, each byte");
    for crc in inputs::corners() {
        for byte in 0..=255 {
            same(&mut check, crc, &[byte]);
        }
    }
    check
}

fn long(random: &mut Random) -> Check {
    let mut check = Check::rust("lfs_crc, up to 65,536 bytes");
    for len in LONG {
        for _ in 0..4 {
            let bytes = random.bytes(len + 8);
            let start = random.below(8);
            same(&mut check, random.word(), &bytes[start..start + len]);
        }
        same(&mut check, u32::MAX, &vec![0xff; len]);
    }
    check
}

/// The port on one part and then on the other, the Rust on the whole.
fn in_two_parts(random: &mut Random) -> Check {
    let mut check = Check::rust("lfs_crc, in two parts");
    for len in 0..=100 {
        let bytes = random.bytes(len);
        let crc = random.word();
        for cut in 0..=len {
            parts(&mut check, crc, &bytes, cut);
        }
    }
    for len in LONG {
        let bytes = random.bytes(len);
        for cut in [1, len / 2, len - 1, random.below(len)] {
            parts(&mut check, random.word(), &bytes, cut);
        }
    }
    check
}

fn parts(check: &mut Check, crc: u32, bytes: &[u8], cut: usize) {
    let (first, second) = bytes.split_at(cut);
    let port = port::crc(port::crc(crc, first), second);
    check.same(of_rust(crc, bytes), port, || {
        format!("register {crc:#010x}, {} bytes cut at {cut}", bytes.len())
    });
}

/// A null pointer with count 0: the Rust is lent an empty slice.
fn of_nothing() -> Check {
    let mut check = Check::rust("lfs_crc, null with count 0");
    for crc in inputs::corners() {
        check.same(of_rust(crc, &[]), port::crc_null(crc), || {
            format!("register {crc:#010x}")
        });
    }
    check
}
