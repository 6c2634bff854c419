//! The archive's calls, and all of this crate's `unsafe`.
//!
//! `include/lanolin.h` names the caller's duties: a pointer is valid for its
//! count, lent buffers do not overlap, a bool is 0 or 1. Slices, exclusive
//! borrows and `bool` are these three, so each function here is safe, whatever
//! it is given; an empty slice's pointer is valid for count 0.
//!
//! The comparison with the unchanged Rust has declarations of its own
//! (`oracle/src/port`), on purpose: it reads a `bool` as a byte and passes null
//! pointers, so as to see what these declarations take for granted.
//!
//! Assumes that the archive keeps to the shapes of the header: the linker sees
//! names only. The tests' runs are what checks it; the sizes below are those that
//! the header asserts.

use crate::{Entry, ForwardCheck, Geometry, Gstate, Record};
use core::mem::size_of;

const _: () = {
    assert!(size_of::<Geometry>() == 8 && size_of::<Mdir>() == 44);
    assert!(size_of::<Gstate>() == 12 && size_of::<Entry>() == 12);
    assert!(size_of::<Fetched>() == 52 && size_of::<Committed>() == 56);
    assert!(size_of::<Got>() == 16 && size_of::<Info>() == 268);
    assert!(size_of::<Named>() == 12 && size_of::<Indexed>() == 8);
};

/// `lanolin_mdir`.
#[repr(C)]
#[derive(Clone, Copy)]
pub struct Mdir {
    pub pair: [u32; 2],
    pub rev: u32,
    pub off: u32,
    pub etag: u32,
    pub count: u16,
    pub erased: bool,
    pub split: bool,
    pub tail: [u32; 2],
    pub forward: bool,
    pub forward_size: u32,
    pub forward_sum: u32,
}

impl From<Mdir> for Record {
    fn from(dir: Mdir) -> Record {
        let forward = ForwardCheck {
            size: dir.forward_size,
            sum: dir.forward_sum,
        };
        Record {
            pair: dir.pair,
            rev: dir.rev,
            off: dir.off,
            etag: dir.etag,
            count: dir.count,
            erased: dir.erased,
            split: dir.split,
            tail: dir.tail,
            forward: dir.forward.then_some(forward),
        }
    }
}

impl From<Record> for Mdir {
    fn from(record: Record) -> Mdir {
        // Without a forward check both words are 0, as the archive has them.
        let words = |check: ForwardCheck| (check.size, check.sum);
        let (forward_size, forward_sum) = record.forward.map_or((0, 0), words);
        Mdir {
            pair: record.pair,
            rev: record.rev,
            off: record.off,
            etag: record.etag,
            count: record.count,
            erased: record.erased,
            split: record.split,
            tail: record.tail,
            forward: record.forward.is_some(),
            forward_size,
            forward_sum,
        }
    }
}

/// `lanolin_fetched`.
#[repr(C)]
pub struct Fetched {
    pub result: i32,
    pub dir: Mdir,
    pub seed: u32,
}

/// `lanolin_got`.
#[repr(C)]
pub struct Got {
    pub result: i32,
    pub tag: u32,
    pub length: u32,
    pub off: u32,
}

/// `lanolin_info`.
#[repr(C)]
pub struct Info {
    pub result: i32,
    pub type_: u8,
    pub size: u32,
    pub name: [u8; 256],
}

/// `lanolin_named`.
#[repr(C)]
pub struct Named {
    pub result: i32,
    pub found: bool,
    pub id: u32,
}

/// `lanolin_indexed`.
#[repr(C)]
pub struct Indexed {
    pub result: i32,
    pub places: u32,
}

/// `lanolin_committed`.
#[repr(C)]
pub struct Committed {
    pub result: i32,
    pub index: u32,
    pub dir: Mdir,
    pub seed: u32,
}

#[rustfmt::skip]
extern "C" {
    fn lanolin_fetch(
        geometry: Geometry, b0: *const u8, b0_len: usize, b1: *const u8, b1_len: usize,
        n0: u32, n1: u32, block_count: u32, seed: u32,
    ) -> Fetched;
    fn lanolin_refetch(
        geometry: Geometry, b0: *const u8, b0_len: usize, b1: *const u8, b1_len: usize,
        n0: u32, n1: u32, block_count: u32, seed: u32, dir: Mdir,
    ) -> Fetched;
    fn lanolin_getslice(
        geometry: Geometry, b0: *const u8, b0_len: usize, b1: *const u8, b1_len: usize,
        n0: u32, n1: u32, dir: Mdir, gdisk: Gstate,
        gmask: u32, gtag: u32, goff: u32, buffer: *mut u8, gsize: usize,
    ) -> Got;
    fn lanolin_get(
        geometry: Geometry, b0: *const u8, b0_len: usize, b1: *const u8, b1_len: usize,
        n0: u32, n1: u32, dir: Mdir, gdisk: Gstate,
        gmask: u32, gtag: u32, buffer: *mut u8, gsize: usize,
    ) -> Got;
    fn lanolin_getinfo(
        geometry: Geometry, b0: *const u8, b0_len: usize, b1: *const u8, b1_len: usize,
        n0: u32, n1: u32, dir: Mdir, gdisk: Gstate, name_max: u32, id: u32,
    ) -> Info;
    fn lanolin_getgstate(
        geometry: Geometry, b0: *const u8, b0_len: usize, b1: *const u8, b1_len: usize,
        n0: u32, n1: u32, dir: Mdir, gdisk: Gstate, gstate: *mut Gstate,
    ) -> i32;
    fn lanolin_find(
        geometry: Geometry, b0: *const u8, b0_len: usize, b1: *const u8, b1_len: usize,
        n0: u32, n1: u32, block_count: u32, seed: u32, rules: u32,
        name: *const u8, name_len: usize, type_: u32,
    ) -> Named;
    fn lanolin_index(
        geometry: Geometry, b0: *const u8, b0_len: usize, b1: *const u8, b1_len: usize,
        n0: u32, n1: u32, dir: Mdir, rules: u32, table: *mut u32, table_len: usize,
    ) -> Indexed;
    fn lanolin_index_extend(
        geometry: Geometry, b0: *const u8, b0_len: usize, b1: *const u8, b1_len: usize,
        n0: u32, n1: u32, old: Mdir, dir: Mdir, rules: u32, table: *mut u32, table_len: usize,
    ) -> Indexed;
    fn lanolin_index_get(
        geometry: Geometry, b0: *const u8, b0_len: usize, b1: *const u8, b1_len: usize,
        n0: u32, n1: u32, dir: Mdir, table: *const u32, table_len: usize,
        type_: u32, id: u32, buffer: *mut u8, gsize: usize,
    ) -> Got;
    fn lanolin_commit(
        geometry: Geometry, b0: *mut u8, b0_len: usize, b1: *mut u8, b1_len: usize,
        n0: u32, n1: u32, block_count: u32, seed: u32, rules: u32, erased: u8,
        entries: *const Entry, entries_len: usize, data: *const u8, data_len: usize,
    ) -> Committed;
    fn lanolin_compact(
        geometry: Geometry, b0: *mut u8, b0_len: usize, b1: *mut u8, b1_len: usize,
        n0: u32, n1: u32, block_count: u32, seed: u32, rules: u32, erased: u8,
    ) -> Committed;
    fn lanolin_compact_with(
        geometry: Geometry, b0: *mut u8, b0_len: usize, b1: *mut u8, b1_len: usize,
        n0: u32, n1: u32, block_count: u32, seed: u32, rules: u32, erased: u8,
        table: *mut u32, table_len: usize,
    ) -> Committed;
    fn lanolin_mktag(type_: u32, id: u32, size: u32) -> u32;
    fn lanolin_tag_type1(tag: u32) -> u32;
    fn lanolin_tag_type3(tag: u32) -> u32;
    fn lanolin_tag_id(tag: u32) -> u32;
    fn lanolin_tag_size(tag: u32) -> u32;
}

pub fn fetch(pair: &crate::Pair, block_count: u32, seed: u32) -> Fetched {
    let (g, [b0, b1], [n0, n1]) = (pair.geometry, pair.images, pair.numbers);
    let (p0, l0, p1, l1) = (b0.as_ptr(), b0.len(), b1.as_ptr(), b1.len());
    // SAFETY: the images are valid for their lengths; any number is answered.
    unsafe { lanolin_fetch(g, p0, l0, p1, l1, n0, n1, block_count, seed) }
}

pub fn refetch(pair: &crate::Pair, block_count: u32, seed: u32, record: Record) -> Fetched {
    let (g, [b0, b1], [n0, n1]) = (pair.geometry, pair.images, pair.numbers);
    let (p0, l0, p1, l1) = (b0.as_ptr(), b0.len(), b1.as_ptr(), b1.len());
    let dir = record.into();
    // SAFETY: the images are valid for their lengths; any number and record is
    // answered.
    unsafe { lanolin_refetch(g, p0, l0, p1, l1, n0, n1, block_count, seed, dir) }
}

pub fn get_slice(
    pair: &crate::Pair,
    record: Record,
    gdisk: Gstate,
    mask: u32,
    key: u32,
    offset: u32,
    buffer: &mut [u8],
) -> Got {
    let (g, [b0, b1], [n0, n1]) = (pair.geometry, pair.images, pair.numbers);
    let (p0, l0, p1, l1) = (b0.as_ptr(), b0.len(), b1.as_ptr(), b1.len());
    let (p, l, dir) = (buffer.as_mut_ptr(), buffer.len(), record.into());
    // SAFETY: images and buffer are valid for their lengths, and the buffer is
    // lent exclusively.
    unsafe {
        lanolin_getslice(
            g, p0, l0, p1, l1, n0, n1, dir, gdisk, mask, key, offset, p, l,
        )
    }
}

pub fn get(
    pair: &crate::Pair,
    record: Record,
    gdisk: Gstate,
    mask: u32,
    key: u32,
    buffer: &mut [u8],
) -> Got {
    let (g, [b0, b1], [n0, n1]) = (pair.geometry, pair.images, pair.numbers);
    let (p0, l0, p1, l1) = (b0.as_ptr(), b0.len(), b1.as_ptr(), b1.len());
    let (p, l, dir) = (buffer.as_mut_ptr(), buffer.len(), record.into());
    // SAFETY: as for `get_slice`.
    unsafe { lanolin_get(g, p0, l0, p1, l1, n0, n1, dir, gdisk, mask, key, p, l) }
}

pub fn get_info(pair: &crate::Pair, record: Record, gdisk: Gstate, name_max: u32, id: u32) -> Info {
    let (g, [b0, b1], [n0, n1]) = (pair.geometry, pair.images, pair.numbers);
    let (p0, l0, p1, l1) = (b0.as_ptr(), b0.len(), b1.as_ptr(), b1.len());
    let dir = record.into();
    // SAFETY: the images are valid for their lengths; any number is answered.
    unsafe { lanolin_getinfo(g, p0, l0, p1, l1, n0, n1, dir, gdisk, name_max, id) }
}

pub fn get_gstate(pair: &crate::Pair, record: Record, gdisk: Gstate, state: &mut Gstate) -> i32 {
    let (g, [b0, b1], [n0, n1]) = (pair.geometry, pair.images, pair.numbers);
    let (p0, l0, p1, l1) = (b0.as_ptr(), b0.len(), b1.as_ptr(), b1.len());
    let dir = record.into();
    // SAFETY: the images are valid for their lengths; the state is lent
    // exclusively.
    unsafe { lanolin_getgstate(g, p0, l0, p1, l1, n0, n1, dir, gdisk, state) }
}

pub fn find(
    pair: &crate::Pair,
    count: u32,
    seed: u32,
    rules: u32,
    name: &[u8],
    type_: u32,
) -> Named {
    let (g, [b0, b1], [n0, n1]) = (pair.geometry, pair.images, pair.numbers);
    let (p0, l0, p1, l1) = (b0.as_ptr(), b0.len(), b1.as_ptr(), b1.len());
    let (p, l) = (name.as_ptr(), name.len());
    // SAFETY: images and name are valid for their lengths, and nothing is written
    // to, so that they may overlap; any number is answered.
    unsafe { lanolin_find(g, p0, l0, p1, l1, n0, n1, count, seed, rules, p, l, type_) }
}

pub fn index(pair: &crate::Pair, record: Record, rules: u32, table: &mut [u32]) -> Indexed {
    let (g, [b0, b1], [n0, n1]) = (pair.geometry, pair.images, pair.numbers);
    let (p0, l0, p1, l1) = (b0.as_ptr(), b0.len(), b1.as_ptr(), b1.len());
    let (t, tl, dir) = (table.as_mut_ptr(), table.len(), record.into());
    // SAFETY: images and table are valid for their lengths, and the table is lent
    // exclusively; any number and record is answered.
    unsafe { lanolin_index(g, p0, l0, p1, l1, n0, n1, dir, rules, t, tl) }
}

pub fn index_extend(
    pair: &crate::Pair,
    old: Record,
    record: Record,
    rules: u32,
    table: &mut [u32],
) -> Indexed {
    let (g, [b0, b1], [n0, n1]) = (pair.geometry, pair.images, pair.numbers);
    let (p0, l0, p1, l1) = (b0.as_ptr(), b0.len(), b1.as_ptr(), b1.len());
    let (t, tl, old, dir) = (table.as_mut_ptr(), table.len(), old.into(), record.into());
    // SAFETY: as for `index`.
    unsafe { lanolin_index_extend(g, p0, l0, p1, l1, n0, n1, old, dir, rules, t, tl) }
}

pub fn index_get(
    pair: &crate::Pair,
    record: Record,
    table: &[u32],
    type_: u32,
    id: u32,
    buffer: &mut [u8],
) -> Got {
    let (g, [b0, b1], [n0, n1]) = (pair.geometry, pair.images, pair.numbers);
    let (p0, l0, p1, l1) = (b0.as_ptr(), b0.len(), b1.as_ptr(), b1.len());
    let (t, tl, dir) = (table.as_ptr(), table.len(), record.into());
    let (p, l) = (buffer.as_mut_ptr(), buffer.len());
    // SAFETY: images, table and buffer are valid for their lengths, and the buffer is
    // lent exclusively; any words of the table are answered.
    unsafe { lanolin_index_get(g, p0, l0, p1, l1, n0, n1, dir, t, tl, type_, id, p, l) }
}

pub fn commit(
    pair: &mut crate::PairMut,
    count: u32,
    seed: u32,
    rules: u32,
    erased: u8,
    entries: &[Entry],
    data: &[u8],
) -> Committed {
    let (g, [b0, b1], [n0, n1]) = (pair.geometry, &mut pair.images, pair.numbers);
    let (p0, l0, p1, l1) = (b0.as_mut_ptr(), b0.len(), b1.as_mut_ptr(), b1.len());
    let (e, el, d, dl) = (entries.as_ptr(), entries.len(), data.as_ptr(), data.len());
    // SAFETY: every slice is valid for its length; the images are lent
    // exclusively, so that none of the four overlaps another.
    unsafe {
        lanolin_commit(
            g, p0, l0, p1, l1, n0, n1, count, seed, rules, erased, e, el, d, dl,
        )
    }
}

pub fn compact(
    pair: &mut crate::PairMut,
    count: u32,
    seed: u32,
    rules: u32,
    erased: u8,
) -> Committed {
    let (g, [b0, b1], [n0, n1]) = (pair.geometry, &mut pair.images, pair.numbers);
    let (p0, l0, p1, l1) = (b0.as_mut_ptr(), b0.len(), b1.as_mut_ptr(), b1.len());
    // SAFETY: as for `commit`.
    unsafe { lanolin_compact(g, p0, l0, p1, l1, n0, n1, count, seed, rules, erased) }
}

pub fn compact_with(
    pair: &mut crate::PairMut,
    count: u32,
    seed: u32,
    rules: u32,
    erased: u8,
    table: &mut [u32],
) -> Committed {
    let (g, [b0, b1], [n0, n1]) = (pair.geometry, &mut pair.images, pair.numbers);
    let (p0, l0, p1, l1) = (b0.as_mut_ptr(), b0.len(), b1.as_mut_ptr(), b1.len());
    let (t, tl) = (table.as_mut_ptr(), table.len());
    // SAFETY: as for `commit`; the table is lent exclusively too.
    unsafe { lanolin_compact_with(g, p0, l0, p1, l1, n0, n1, count, seed, rules, erased, t, tl) }
}

pub fn mktag(type_: u32, id: u32, size: u32) -> u32 {
    // SAFETY: numbers alone, and any number is answered; here and in the next
    // four.
    unsafe { lanolin_mktag(type_, id, size) }
}

pub fn tag_type1(tag: u32) -> u32 {
    unsafe { lanolin_tag_type1(tag) }
}

pub fn tag_type3(tag: u32) -> u32 {
    unsafe { lanolin_tag_type3(tag) }
}

pub fn tag_id(tag: u32) -> u32 {
    unsafe { lanolin_tag_id(tag) }
}

pub fn tag_size(tag: u32) -> u32 {
    unsafe { lanolin_tag_size(tag) }
}

#[cfg(test)]
mod tests {
    use super::*;
    use crate::names::*;
    use crate::PairMut;

    const LISTING: [u8; 256] = *include_bytes!("../../../samples/q212.pair");
    const NOTHING: Record = Record {
        pair: [0; 2],
        rev: 0,
        off: 0,
        etag: 0,
        count: 0,
        erased: false,
        split: false,
        tail: [0; 2],
        forward: None,
    };

    /// Of the listing's record pair and end.
    const LISTED: Record = Record {
        pair: [0, 1],
        off: 48,
        ..NOTHING
    };

    /// A record goes into a lookup as it came, with a forward check and without.
    /// Words of none are 0, also where a caller of the archive has others there.
    #[test]
    fn records_go_in_as_they_came() {
        let any = |size, sum| Some(ForwardCheck { size, sum });
        for forward in [None, any(16, 0xc04c39e5), any(0, 0), any(4, 0)] {
            let record = Record {
                pair: [5, 4],
                rev: 3,
                off: 48,
                etag: 0x500ffc0d,
                count: 2,
                erased: true,
                split: true,
                tail: [6, 7],
                forward,
            };
            assert_eq!(Record::from(Mdir::from(record)), record);
        }
        let words = |dir: Mdir| (dir.forward, dir.forward_size, dir.forward_sum);
        let odd = Mdir {
            forward_size: 16,
            forward_sum: 7,
            ..NOTHING.into()
        };
        assert_eq!(words(Record::from(odd).into()), (false, 0, 0));
    }

    /// The listing's bytes, or others, as a pair to write.
    fn pair_of(bytes: &mut [u8; 256]) -> PairMut<'_> {
        let (b0, b1) = bytes.split_at_mut(128);
        PairMut {
            geometry: Geometry {
                block_size: 128,
                prog_size: 16,
            },
            images: [b0, b1],
            numbers: [0, 1],
        }
    }

    /// A commit and a compaction, with a table and without, with these numbers: -22,
    /// and no byte altered.
    fn all_are_invalid(image: [u8; 256], rules: u32, erased: u8) {
        let (mut bytes, mut table) = (image, [7; 9]);
        let mut pair = pair_of(&mut bytes);
        let answers = [
            commit(&mut pair, 0, 7, rules, erased, &[], &[]),
            compact(&mut pair, 0, 7, rules, erased),
            compact_with(&mut pair, 0, 7, rules, erased, &mut table),
        ];
        assert_eq!(table, [7; 9]);
        for answer in answers {
            assert_eq!((answer.result, answer.index), (ERR_INVAL, 0));
            assert_eq!((Record::from(answer.dir), answer.seed), (NOTHING, 7));
            // The two words are 0 too, which the record does not show.
            assert_eq!((answer.dir.forward_size, answer.dir.forward_sum), (0, 0));
        }
        assert_eq!(bytes, image);
    }

    /// A number that is no rule, which [`Rules`](crate::Rules) can't give: -22,
    /// also where fetch would answer -84, and no byte altered.
    #[test]
    fn a_number_that_is_no_rule_is_invalid() {
        for image in [LISTING, [0xff; 256]] {
            for rules in [2, 3, 1 << 31, u32::MAX] {
                for erased in [ERASED_ONES, ERASED_ZEROS] {
                    all_are_invalid(image, rules, erased);
                }
                let mut bytes = image;
                let pair = pair_of(&mut bytes);
                let named = find(&pair.as_pair(), 0, 7, rules, b"q212", TYPE_REG);
                let answer = (named.result, named.found, named.id);
                assert_eq!(answer, (ERR_INVAL, false, 0));
                let (reader, mut table) = (pair.as_pair(), [7; 9]);
                for indexed in [
                    index(&reader, LISTED, rules, &mut table),
                    index_extend(&reader, LISTED, LISTED, rules, &mut table),
                ] {
                    assert_eq!((indexed.result, indexed.places), (ERR_INVAL, 0));
                }
                assert_eq!(table, [7; 9]);
                assert_eq!(bytes, image);
            }
        }
    }

    /// The same of a byte that [`Erased`](crate::Erased) can't give, each of them,
    /// also where the room is of that byte.
    #[test]
    fn a_byte_that_is_no_erased_one_is_invalid() {
        for erased in 0x01..=0xfe {
            let mut moved = LISTING;
            moved[48..].fill(erased);
            for image in [LISTING, [0xff; 256], [erased; 256], moved] {
                for rules in [RULES_DOCUMENT, RULES_LITTLEFS, 2] {
                    all_are_invalid(image, rules, erased);
                }
            }
        }
    }

    /// Of a table that no build made, which [`Index`](crate::Index) can't have, the
    /// answer stays in the block: up to its end, past it, and where the sum of offset
    /// and size would wrap.
    #[test]
    fn any_table_is_answered_in_bounds() {
        let mut bytes = LISTING;
        let pair = pair_of(&mut bytes);
        let places = [
            (124, OK),
            (125, ERR_CORRUPT),
            (128, ERR_CORRUPT),
            (u32::MAX, ERR_CORRUPT),
            (u32::MAX - 3, ERR_CORRUPT),
        ];
        for (off, result) in places {
            let (table, mut buffer) = ([0x37400004, off, 9], [7; 4]);
            let got = index_get(&pair.as_pair(), LISTED, &table, 0x374, 0, &mut buffer);
            let expected = if result == OK { (8, off) } else { (0, 0) };
            assert_eq!(got.result, result, "offset {off}");
            assert_eq!((got.length, got.off), expected);
            assert_eq!(buffer, if result == OK { [0xff; 4] } else { [7; 4] });
        }
        for table in [&[][..], &[0x37400004], &[0, 27], &[0x37400404, 27]] {
            let got = index_get(&pair.as_pair(), LISTED, table, 0x374, 0, &mut []);
            assert_eq!(got.result, ERR_NOENT, "{table:x?}");
        }
    }
}
