//! `util.rs`, words in bytes: little- and big-endian, read and stored.
//!
//! The Rust turns a native word; the port reads and stores at a place in a
//! slice. So the Rust is asked about the native word of the same four bytes.
//! That a place past the end is refused is ours: the Rust has no such test.
//!
//! The slice lies inside a larger buffer, and all of the buffer is compared:
//! a byte altered beside the slice is seen too.
//!
//! Assumes nothing.

use super::CORRUPT;
use crate::port::Word;
use crate::tally::{Check, Subject};
use crate::{port, random::Random, rust::util as rust};

/// Bytes on either side of the slice.
const MARGIN: usize = 8;
/// The slices have 0 to 23 bytes.
const LENGTHS: usize = 24;
/// Buffers of each length.
const ROUNDS: usize = 32;

const REFUSED: Word = Word {
    result: CORRUPT,
    value: 0,
};

/// One order of bytes: the Rust's functions and the port's.
struct Order {
    read: &'static str,
    store: &'static str,
    read_past: &'static str,
    store_past: &'static str,
    from: fn(u32) -> u32,
    to: fn(u32) -> u32,
    at: fn(&[u8], usize) -> Word,
    at_null: fn(usize) -> Word,
    put: fn(&mut [u8], usize, u32) -> i32,
    put_null: fn(usize, u32) -> i32,
}

const ORDERS: [Order; 2] = [
    Order {
        read: "lfs_fromle32 as lanolin_le32_at",
        store: "lfs_tole32 as lanolin_put_le32",
        read_past: "lanolin_le32_at past the end",
        store_past: "lanolin_put_le32 past the end",
        from: rust::lfs_fromle32,
        to: rust::lfs_tole32,
        at: port::le32_at,
        at_null: port::le32_at_null,
        put: port::put_le32,
        put_null: port::put_le32_null,
    },
    Order {
        read: "lfs_frombe32 as lanolin_be32_at",
        store: "lfs_tobe32 as lanolin_put_be32",
        read_past: "lanolin_be32_at past the end",
        store_past: "lanolin_put_be32 past the end",
        from: rust::lfs_frombe32,
        to: rust::lfs_tobe32,
        at: port::be32_at,
        at_null: port::be32_at_null,
        put: port::put_be32,
        put_null: port::put_be32_null,
    },
];

pub fn compare() -> Subject {
    let mut random = Random::new(4);
    let mut subject = Subject::new("util, words in bytes");
    for order in &ORDERS {
        inside(&mut subject, &mut random, order);
        past(&mut subject, &mut random, order);
    }
    subject
}

/// Every place that holds a whole word.
fn inside(subject: &mut Subject, random: &mut Random, order: &Order) {
    let mut read = Check::rust(order.read);
    let mut store = Check::rust(order.store);
    for round in 0..LENGTHS * ROUNDS {
        let len = round % LENGTHS;
        let buffer = random.bytes(len + 2 * MARGIN);
        for at in 0..(len + 1).saturating_sub(4) {
            reads(&mut read, order, &buffer, at);
            stores(&mut store, order, &buffer, at, random.word());
        }
    }
    subject.add(read);
    subject.add(store);
}

/// Places that do not, in slices and behind a null pointer with count 0.
fn past(subject: &mut Subject, random: &mut Random, order: &Order) {
    let mut read = Check::ours(order.read_past);
    let mut store = Check::ours(order.store_past);
    for round in 0..LENGTHS * ROUNDS {
        let len = round % LENGTHS;
        let buffer = random.bytes(len + 2 * MARGIN);
        for at in places_past(len) {
            refused_read(&mut read, order, &buffer, at);
            refused_store(&mut store, order, &buffer, at, random.word());
        }
    }
    for at in places_past(0) {
        let value = random.word();
        read.outcome("refused");
        read.same(REFUSED, (order.at_null)(at), || format!("null, at {at}"));
        store.outcome("refused");
        store.same(CORRUPT, (order.put_null)(at, value), || {
            format!("null, {value:#010x} at {at}")
        });
    }
    subject.add(read);
    subject.add(store);
}

/// Places whose word passes the end: near it, where a sum with 4 wraps, and
/// where a place cut to 32 bits, or read as signed, would lie inside again.
fn places_past(len: usize) -> Vec<usize> {
    let mut places: Vec<usize> = (len.saturating_sub(3)..len + MARGIN).collect();
    for back in 0..8 {
        places.push(usize::MAX - back);
    }
    for far in [1u64 << 31, 1 << 32, 1 << 63] {
        if let Ok(far) = usize::try_from(far) {
            places.extend([far - 1, far, far + 1, far - 4]);
        }
    }
    places
}

fn slice_of(buffer: &[u8]) -> &[u8] {
    &buffer[MARGIN..buffer.len() - MARGIN]
}

fn text(bytes: &[u8], at: usize) -> String {
    format!("at {at} of the {} bytes {bytes:02x?}", bytes.len())
}

fn reads(check: &mut Check, order: &Order, buffer: &[u8], at: usize) {
    let bytes = slice_of(buffer);
    let native = u32::from_ne_bytes(bytes[at..at + 4].try_into().expect("four bytes"));
    let value = (order.from)(native);
    check.outcome("inside");
    check.same(Word { result: 0, value }, (order.at)(bytes, at), || {
        text(bytes, at)
    });
}

/// An accepted store: the result, and the whole buffer afterwards.
fn stores(check: &mut Check, order: &Order, buffer: &[u8], at: usize, value: u32) {
    let mut expected = buffer.to_vec();
    let native = (order.to)(value).to_ne_bytes();
    expected[MARGIN + at..MARGIN + at + 4].copy_from_slice(&native);
    check.outcome("inside");
    check.same((0, expected), put(order, buffer, at, value), || {
        format!("{value:#010x} {}", text(slice_of(buffer), at))
    });
}

fn refused_read(check: &mut Check, order: &Order, buffer: &[u8], at: usize) {
    let bytes = slice_of(buffer);
    check.outcome("refused");
    check.same(REFUSED, (order.at)(bytes, at), || text(bytes, at));
}

/// A refused store alters nothing.
fn refused_store(check: &mut Check, order: &Order, buffer: &[u8], at: usize, value: u32) {
    let expected = (CORRUPT, buffer.to_vec());
    check.outcome("refused");
    check.same(expected, put(order, buffer, at, value), || {
        format!("{value:#010x} {}", text(slice_of(buffer), at))
    });
}

/// The port's store into a copy, and the copy.
fn put(order: &Order, buffer: &[u8], at: usize, value: u32) -> (i32, Vec<u8>) {
    let mut copy = buffer.to_vec();
    let end = copy.len() - MARGIN;
    let result = (order.put)(&mut copy[MARGIN..end], at, value);
    (result, copy)
}
