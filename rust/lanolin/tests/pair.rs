//! The wrapper on document 01's listing pair, and on pairs a step from it. What
//! is expected comes from document 01 and from the writer `samples/writer.py`,
//! which the port has no part in.
//!
//! Each field of each answer is compared: a declaration that is not the header's
//! shows here.

use lanolin::*;

const LISTING: &[u8; 256] = include_bytes!("../../../samples/q212.pair");
/// A name alone, of id 1,023 or 1,022, so that the count is one more, and no
/// create before it (`samples/make_edges.py`).
const CROWDED: &[u8; 256] = include_bytes!("../../../crates/check_edges/data/count-1024");
const IRREGULAR: &[u8; 256] = include_bytes!("../../../crates/check_edges/data/count-1023");
/// A yard's instructions (`samples/make_pairs.py`).
const INSTRUCTIONS: &[u8; 1024] = include_bytes!("../../../samples/instructions.pair");
/// A pair that a real littlefs compacted: names without creates. And one that a
/// real littlefs compacted on flash that erases to 0x00.
const REAL: &[u8; 1024] = include_bytes!("../../../samples/real/attrs-512-0-1.pair");
const REAL_ON_ZEROS: &[u8; 1024] = include_bytes!("../../../samples/zero/attrs-512-0-1.pair");
const GEOMETRY: Geometry = Geometry {
    block_size: 128,
    prog_size: 16,
};
const BY_DOCUMENT: Rules = Rules::Document;
const BY_LITTLEFS: Rules = Rules::Littlefs;
const ONES: Erased = Erased::Ones;
const ZEROS: Erased = Erased::Zeros;
const NO_TAIL: [u32; 2] = [0xffffffff; 2];
const NO_MOVE: Gstate = Gstate {
    tag: 0,
    pair: [0; 2],
};

/// Document 01: rev 1, block 0, end 48, count 1, tail none, erased no.
const LISTED: Record = Record {
    pair: [0, 1],
    rev: 1,
    off: 48,
    etag: 0x500ffc0d,
    count: 1,
    erased: false,
    split: false,
    tail: NO_TAIL,
    forward: None,
};

/// What a commit says of the 16 erased bytes behind it.
const UNIT: Option<ForwardCheck> = Some(ForwardCheck {
    size: 16,
    sum: 0xc04c39e5,
});

/// A new deadline, 100 seconds, and the bytes of its commit behind the listing: the
/// entry, the forward check, the check.
const DEADLINE: Entry = entry(0x374, 0, 0, 4);
const SECONDS: [u8; 4] = [100, 0, 0, 0];
const LAID: [u8; 28] = *b"\x67\x4f\xfc\x09\x64\0\0\0\
    \x68\xbf\xfc\x0c\x10\0\0\0\xe5\x39\x4c\xc0\
    \x0f\xf0\0\0\x85\xc9\x5c\x9f";

/// What it says of 16 bytes of 0x00, and its bytes on such flash: the first tag is
/// chained to an end tag whose top bit is set, and the check is of type 0x501.
const ZERO_UNIT: Option<ForwardCheck> = Some(ForwardCheck {
    size: 16,
    sum: 0x1344b4aa,
});
const LAID_ON_ZEROS: [u8; 28] = *b"\xe7\x5f\xfc\x09\x64\0\0\0\
    \x68\xbf\xfc\x0c\x10\0\0\0\xaa\xb4\x44\x13\
    \x0f\xe0\0\0\x44\xc5\xcb\xf4";

/// The listing's own deadline: the tag stands at 23, its data at 27.
const DUE: Result<Found, Refusal> = found(0x37400004, 8, 27);

/// What a lookup finds: the tag, the stored length, the place of the data.
const fn found(tag: u32, length: u32, off: u32) -> Result<Found, Refusal> {
    let tag = Tag(tag);
    Ok(Found { tag, length, off })
}

const fn entry(type_: u16, id: u16, off: u32, len: u32) -> Entry {
    Entry {
        type_,
        id,
        off,
        len,
    }
}

/// Blocks of half the bytes each.
fn halves(bytes: &[u8]) -> Geometry {
    Geometry {
        block_size: bytes.len() as u32 / 2,
        ..GEOMETRY
    }
}

fn pair(bytes: &[u8]) -> Pair<'_> {
    let (b0, b1) = bytes.split_at(bytes.len() / 2);
    Pair {
        geometry: halves(bytes),
        images: [b0, b1],
        numbers: [0, 1],
    }
}

fn pair_mut(bytes: &mut [u8]) -> PairMut<'_> {
    let geometry = halves(bytes);
    let (b0, b1) = bytes.split_at_mut(bytes.len() / 2);
    PairMut {
        geometry,
        images: [b0, b1],
        numbers: [0, 1],
    }
}

/// The listing in larger blocks.
fn roomy(block_size: usize) -> Vec<u8> {
    let mut bytes = vec![0xff; 2 * block_size];
    bytes[..128].copy_from_slice(&LISTING[..128]);
    bytes
}

/// The listing as it is where its commit was made on one kind of flash, and what
/// stands behind it is of one: on zeros its check is of type 0x501, with the
/// checksum that `samples/writer.py` gives it.
fn listing_on(commit: Erased, room: Erased) -> [u8; 256] {
    let mut bytes = *LISTING;
    if commit == ZEROS {
        bytes[32] = 0x5f;
        bytes[35..39].copy_from_slice(&[0x37, 0x9b, 0xc2, 0x51]);
    }
    bytes[48..].fill(room.byte());
    bytes
}

/// The entry of slot 0 that a type finds, and its data; their buffer begins as
/// 0xa5 everywhere.
fn look(
    bytes: &[u8; 256],
    record: Record,
    mask: u32,
    type_: u32,
) -> (Result<Found, Refusal>, [u8; 6]) {
    let mut buffer = [0xa5; 6];
    let key = Tag::new(type_, 0, 0);
    let answer = pair(bytes).get_slice(record, NO_MOVE, mask, key, 0, &mut buffer);
    (answer, buffer)
}

#[test]
fn fetch_reads_the_listing() {
    // The seed: the register from 0 over the checksum's bytes 47 38 e4 4d.
    let found = Fetched {
        record: LISTED,
        seed: 0x1ec4df69,
    };
    assert_eq!(pair(LISTING).fetch(0, 0), Ok(found));
    assert_eq!(pair(LISTING).fetch(2, 0), Ok(found));
}

#[test]
fn fetch_reads_the_split_mark_and_the_tail() {
    let mut pair = pair(INSTRUCTIONS);
    pair.numbers = [8, 9];
    let record = pair.fetch(0, 0).unwrap().record;
    assert_eq!((record.pair, record.rev, record.count), ([9, 8], 7, 10));
    assert_eq!(
        (record.erased, record.split, record.tail),
        (false, true, [4, 5])
    );
}

#[test]
fn fetch_reads_the_erased_mark() {
    // Its line in samples/real/shown.txt.
    let record = pair(REAL).fetch(0, 0).unwrap().record;
    let shown = Record {
        pair: [1, 0],
        rev: 4,
        off: 256,
        etag: 1343224836,
        count: 5,
        erased: true,
        split: false,
        tail: [2, 3],
        forward: UNIT, // as littlefs wrote it, and as a commit here does
    };
    assert_eq!(record, shown);
}

#[test]
fn lookups_find_name_payload_and_deadline() {
    let looked = |mask, type_| look(LISTING, LISTED, mask, type_);
    // their tags stand at 8, 16 and 23
    assert_eq!(
        looked(0x700ffc00, 0x000),
        (found(0x00100004, 8, 12), *b"q212\0\0")
    );
    assert_eq!(
        looked(0x700ffc00, 0x200),
        (found(0x20100003, 7, 20), *b"abc\0\0\0")
    );
    assert_eq!(looked(0x7ffffc00, 0x374), (DUE, *b"\x90\x5f\x01\0\0\0"));
    let tag = Tag(0x37400004 | 7 << 10);
    assert_eq!((tag.type3(), tag.id(), tag.size()), (0x374, 7, 4));
}

/// The entry is told whole, whichever part of it is read: from its middle, of no
/// length, up to the block's end.
#[test]
fn offset_and_buffer_change_nothing_of_what_is_found() {
    let key = Tag::new(0x374, 0, 0);
    for (offset, length) in [(0, 0), (0, 1), (0, 6), (1, 2), (4, 4), (97, 4), (101, 0)] {
        let mut buffer = vec![0xa5; length];
        let listing = pair(LISTING);
        let answer = listing.get_slice(LISTED, NO_MOVE, MASK_TYPE, key, offset, &mut buffer);
        assert_eq!(answer, DUE, "offset {offset}, {length} bytes");
    }
}

/// A reader of deadlines has four bytes of buffer, and sees that an attribute is
/// longer or shorter.
#[test]
fn a_short_buffer_hides_nothing() {
    let mut bytes = roomy(1024);
    let mut pair = pair_mut(&mut bytes);
    let mut end = LISTED.off;
    for size in [0, 1, 2, 3, 4, 5, 300] {
        let entries = [Entry::user_attr(0x74, 0, 0, size)];
        let record = pair
            .commit(0, 0, BY_DOCUMENT, ONES, &entries, &[7; 300])
            .unwrap()
            .record;
        let (key, mut seconds) = (Tag::new(0x374, 0, 0), [0xa5; 4]);
        let reader = pair.as_pair();
        let answer = reader.get_slice(record, NO_MOVE, MASK_TYPE, key, 0, &mut seconds);
        // the commit's only entry begins at the old end
        assert_eq!(answer, found(0x37400000 | size, 4 + size, end + 4));
        assert_eq!(answer.unwrap().size(), size as usize);
        let mut read = [0; 4];
        read[..4.min(size as usize)].fill(7);
        assert_eq!(seconds, read);
        end = record.off;
    }
}

/// The tag has the slot's present id; length and place are those of the entry as
/// it was written.
#[test]
fn a_slot_that_moved_is_found_where_it_stands() {
    let mut bytes = *LISTING;
    let answer = pair_mut(&mut bytes).commit(0, 0, BY_DOCUMENT, ONES, &[Entry::create(0)], &[]);
    let (record, key) = (answer.unwrap().record, Tag::new(0x374, 1, 0));
    let answer = pair(&bytes).get_slice(record, NO_MOVE, MASK_TYPE, key, 0, &mut []);
    assert_eq!(answer, found(0x37400404, 8, 27));
}

#[test]
fn refused_lookups_leave_the_buffer() {
    let untouched = [0xa5; 6];
    let looked = |record, type_| look(LISTING, record, 0x7ffffc00, type_);
    assert_eq!(looked(LISTED, 0x375), (Err(Refusal::NoEntry), untouched));
    // A record of another pair.
    let other = Record {
        pair: [0, 2],
        ..LISTED
    };
    assert_eq!(looked(other, 0x374), (Err(Refusal::Invalid), untouched));
    // Start plus length past the block.
    let mut buffer = untouched;
    let key = Tag::new(0x374, 0, 0);
    let answer = pair(LISTING).get_slice(LISTED, NO_MOVE, 0x7ffffc00, key, 128, &mut buffer);
    assert_eq!((answer, buffer), (Err(Refusal::Corrupt), untouched));
}

#[test]
fn get_fills_as_many_bytes_as_the_key_says() {
    let mut buffer = [0xa5; 6];
    let key = |size| Tag::new(0x374, 0, size);
    let answer = pair(LISTING).get(LISTED, NO_MOVE, MASK_TYPE, key(5), &mut buffer);
    let filled = *b"\x90\x5f\x01\0\0\xa5";
    assert_eq!((answer, buffer), (DUE, filled));
    let answer = pair(LISTING).get(LISTED, NO_MOVE, MASK_TYPE, key(2), &mut buffer);
    assert_eq!((answer, buffer), (DUE, filled));
    let answer = pair(LISTING).get(LISTED, NO_MOVE, MASK_TYPE, key(7), &mut buffer);
    assert_eq!((answer, buffer), (Err(Refusal::Invalid), filled));
    let key = Tag::new(0x375, 0, 4);
    let answer = pair(LISTING).get(LISTED, NO_MOVE, MASK_TYPE, key, &mut buffer);
    assert_eq!((answer, buffer), (Err(Refusal::NoEntry), filled));
}

#[test]
fn info_tells_type_size_and_name() {
    let told = |name_max, id| {
        let info = pair(LISTING).get_info(LISTED, NO_MOVE, name_max, id)?;
        Ok((info.type_, info.size, info.name().to_vec()))
    };
    assert_eq!(told(255, 0), Ok((0x001, 3, b"q212".to_vec())));
    assert_eq!(told(2, 0), Ok((0x001, 3, b"q21".to_vec())));
    assert_eq!(told(255, 1023), Ok((0x002, 0, b"/".to_vec())));
    assert_eq!(told(255, 1), Err(Refusal::NoEntry));
    assert_eq!(told(256, 0), Err(Refusal::Invalid));
    assert_eq!(told(255, 1024), Err(Refusal::Invalid));
}

/// A name that fills all 256 bytes has no zero behind it.
#[test]
fn a_long_name_is_shown_to_the_256th_byte() {
    let mut bytes = roomy(1024);
    let mut pair = pair_mut(&mut bytes);
    for len in [255, 256, 300] {
        let renamed = [Entry::file_name(0, 0, len)];
        pair.compact(0, 0, BY_DOCUMENT, ONES).unwrap();
        let record = pair
            .commit(0, 0, BY_DOCUMENT, ONES, &renamed, &[b'n'; 300])
            .unwrap()
            .record;
        let info = pair.as_pair().get_info(record, NO_MOVE, NAME_MAX, 0);
        assert_eq!(info.unwrap().name(), &[b'n'; 300][..len.min(256) as usize]);
    }
}

#[test]
fn a_pending_move_hides_its_entry() {
    let gdisk = Gstate {
        tag: Tag::new(0x4ff, 0, 0).0,
        pair: [0, 1],
    };
    let answer = pair(LISTING).get_slice(LISTED, gdisk, 0x700ffc00, Tag::new(0, 0, 0), 0, &mut []);
    assert_eq!(answer, Err(Refusal::NoEntry));
}

/// What find answers of a file's name, by document 01's rules.
fn file(pair: &Pair, name: &[u8]) -> Result<Option<u32>, Refusal> {
    pair.find(0, 0, BY_DOCUMENT, name, TYPE_REG)
}

/// The same of a directory's.
fn directory(pair: &Pair, name: &[u8]) -> Result<Option<u32>, Refusal> {
    pair.find(0, 0, BY_DOCUMENT, name, TYPE_DIR)
}

/// Neither the first part of a name, nor a longer one, nor one of another type;
/// nor a payload or a deadline, which are no names.
#[test]
fn find_takes_a_name_and_its_type_exactly() {
    let listing = pair(LISTING);
    assert_eq!(file(&listing, b"q212"), Ok(Some(0)));
    assert_eq!(
        listing.find(2, 7, BY_LITTLEFS, b"q212", TYPE_REG),
        Ok(Some(0))
    );
    let others: [&[u8]; 7] = [b"q", b"q21", b"212", b"Q212", b"q213", b"q212\0", b"q2122"];
    for name in others {
        assert_eq!(file(&listing, name), Ok(None), "{name:?}");
    }
    for type_ in [0, 2, 3, 0x0ff, 0x101, 0x801, 0x10001, 1 << 31, u32::MAX] {
        let answer = listing.find(0, 0, BY_DOCUMENT, b"q212", type_);
        assert_eq!(answer, Ok(None), "type {type_:#x}");
    }
    for (name, type_) in [(&b"abc"[..], 0x201), (b"\x90\x5f\x01\0", 0x374)] {
        let answer = listing.find(0, 0, BY_DOCUMENT, name, type_);
        assert_eq!(answer, Ok(None), "type {type_:#x}");
    }
}

/// A file of the name twice, and a directory of it in between.
#[test]
fn find_answers_the_lowest_that_is_left() {
    let mut bytes = roomy(512);
    let mut pair = pair_mut(&mut bytes);
    let entries = [
        Entry::create(1),
        Entry::file_name(1, 0, 4),
        Entry::create(2),
        Entry::dir_name(2, 0, 4),
        Entry::create(3),
        Entry::file_name(3, 0, 4),
    ];
    let found = |pair: &PairMut| {
        let pair = pair.as_pair();
        (file(&pair, b"q213"), directory(&pair, b"q213"))
    };
    pair.commit(0, 0, BY_DOCUMENT, ONES, &entries, b"q213")
        .unwrap();
    assert_eq!(found(&pair), (Ok(Some(1)), Ok(Some(2))));
    // What each delete leaves, and what a slot that comes in before it.
    let steps = [
        (Entry::delete(1), Some(2), Some(1)),
        (Entry::create(0), Some(3), Some(2)),
        (Entry::delete(2), Some(2), None),
        (Entry::delete(2), None, None),
    ];
    for (step, first, second) in steps {
        pair.commit(0, 0, BY_DOCUMENT, ONES, &[step], &[]).unwrap();
        assert_eq!(found(&pair), (Ok(first), Ok(second)));
        // The other block then answers, with the same.
        pair.compact(0, 0, BY_DOCUMENT, ONES).unwrap();
        assert_eq!(found(&pair), (Ok(first), Ok(second)));
    }
    assert_eq!(file(&pair.as_pair(), b"q212"), Ok(Some(1)));
}

#[test]
fn a_renamed_slot_has_its_new_name_alone() {
    let mut bytes = *LISTING;
    let mut pair = pair_mut(&mut bytes);
    let renamed = [Entry::file_name(0, 0, 4)];
    pair.commit(0, 0, BY_DOCUMENT, ONES, &renamed, b"q299")
        .unwrap();
    assert_eq!(file(&pair.as_pair(), b"q212"), Ok(None));
    assert_eq!(file(&pair.as_pair(), b"q299"), Ok(Some(0)));
    // A name of another type takes its place too.
    let renamed = [Entry::dir_name(0, 0, 4)];
    pair.commit(0, 0, BY_DOCUMENT, ONES, &renamed, b"q299")
        .unwrap();
    assert_eq!(file(&pair.as_pair(), b"q299"), Ok(None));
    assert_eq!(directory(&pair.as_pair(), b"q299"), Ok(Some(0)));
}

/// Names up to the longest, and names that no slot can have.
#[test]
fn find_takes_names_of_every_length() {
    let mut bytes = roomy(8192);
    let mut pair = pair_mut(&mut bytes);
    let name = [b'n'; 65537];
    for len in [1, 2, 255, 256, 1021, ATTR_MAX] {
        let renamed = [Entry::file_name(0, 0, len as u32)];
        pair.commit(0, 0, BY_DOCUMENT, ONES, &renamed, &name[..len])
            .unwrap();
        for asked in [1, 2, 255, 256, 1021, 1022, 1023, 2000, name.len()] {
            let expected = (asked == len).then_some(0);
            assert_eq!(file(&pair.as_pair(), &name[..asked]), Ok(expected));
        }
        assert_eq!(file(&pair.as_pair(), b""), Err(Refusal::Invalid));
    }
}

/// The lowest id that has the name, asked slot by slot.
fn slot_by_slot(pair: &Pair, record: Record, name: &[u8], type_: u32) -> Option<u32> {
    (0..record.count.into()).find(|&id| {
        let (key, mut buffer) = (Tag::new(TYPE_NAME, id, 0), [0; ATTR_MAX]);
        let found = pair.get_slice(record, NO_MOVE, MASK_CLASS, key, 0, &mut buffer);
        found.is_ok_and(|found| found.tag.type3() == type_ && buffer[..found.size()] == *name)
    })
}

/// By littlefs's rules a pair that littlefs compacted too; by document 01's it is
/// refused, and a pair that this library wrote is not.
#[test]
fn find_is_asking_slot_by_slot() {
    let names = "littlefs empty hello.txt hello q212 sub done gone q213 q218 note";
    for (bytes, refused, there) in [(REAL, true, 5), (INSTRUCTIONS, false, 6)] {
        let (pair, mut found) = (pair(bytes), 0);
        let record = pair.fetch(0, 0).unwrap().record;
        for name in names.split(' ').map(str::as_bytes) {
            for type_ in [TYPE_REG, TYPE_DIR, TYPE_SUPERBLOCK] {
                let expected = slot_by_slot(&pair, record, name, type_);
                let answer = pair.find(0, 0, BY_LITTLEFS, name, type_);
                assert_eq!(answer, Ok(expected), "{name:?}, {type_}");
                let by_document = pair.find(0, 0, BY_DOCUMENT, name, type_);
                let refusal = Err(Refusal::Irregular);
                assert_eq!(by_document, if refused { refusal } else { answer });
                found += expected.iter().count();
            }
        }
        assert_eq!(found, there);
    }
    // Their lines in samples/real/shown.txt.
    let real = pair(REAL);
    let found = |name, type_| real.find(0, 0, BY_LITTLEFS, name, type_);
    assert_eq!(found(b"q212", TYPE_REG), Ok(Some(3)));
    assert_eq!(found(b"sub", TYPE_DIR), Ok(Some(4)));
    // A name that is no plain text.
    assert_eq!(file(&pair(INSTRUCTIONS), b"q217 \\\xb5"), Ok(Some(7)));
}

/// In this order: an empty name, what fetch refuses, a log that isn't regular.
#[test]
fn find_refuses_as_fetch_does() {
    let find = |bytes, rules, name| pair(bytes).find(0, 7, rules, name, TYPE_REG);
    for rules in [BY_DOCUMENT, BY_LITTLEFS] {
        for bytes in [LISTING, &[0xff; 256], CROWDED, IRREGULAR] {
            assert_eq!(find(bytes, rules, b""), Err(Refusal::Invalid));
        }
        assert_eq!(find(&[0xff; 256], rules, b"a"), Err(Refusal::Corrupt));
        // More than 1,023 slots: with the record and the seed that fetch read.
        let refusal = pair(CROWDED).fetch(0, 7).unwrap_err();
        assert!(matches!(refusal, Refusal::TooMany(_)));
        assert_eq!(find(CROWDED, rules, b"a"), Err(refusal));
    }
    let answer = find(IRREGULAR, BY_DOCUMENT, b"a");
    assert_eq!(answer, Err(Refusal::Irregular));
    assert_eq!(find(IRREGULAR, BY_LITTLEFS, b"a"), Ok(Some(1022)));
}

#[test]
fn commit_lays_a_new_deadline() {
    let mut bytes = *LISTING;
    let answer = pair_mut(&mut bytes).commit(0, 0, BY_DOCUMENT, ONES, &[DEADLINE], &SECONDS);
    let record = Record {
        off: 80,
        etag: 0x500ffc08,
        erased: true,
        forward: UNIT,
        ..LISTED
    };
    let seed = 0xa72592e6;
    assert_eq!(answer, Ok(Fetched { record, seed }));
    let mut laid = *LISTING;
    laid[48..76].copy_from_slice(&LAID);
    assert_eq!(bytes, laid);
    assert_eq!(
        look(&bytes, record, 0x7ffffc00, 0x374),
        (found(0x37400004, 8, 52), *b"\x64\0\0\0\0\0")
    );
    // The images of the same value, read through the value itself.
    assert_eq!(pair_mut(&mut bytes).as_pair().fetch(0, 0), answer);
}

/// The same on 0x00 flash: other bytes, and an end tag whose top bit is set.
#[test]
fn commit_on_zeros_lays_a_new_deadline() {
    let listed = listing_on(ZEROS, ZEROS);
    let mut bytes = listed;
    let answer = pair_mut(&mut bytes).commit(0, 0, BY_DOCUMENT, ZEROS, &[DEADLINE], &SECONDS);
    let record = Record {
        off: 80,
        etag: 0xd01ffc08,
        erased: true,
        forward: ZERO_UNIT,
        ..LISTED
    };
    let seed = 0x2a588227;
    assert_eq!(answer, Ok(Fetched { record, seed }));
    let mut laid = listed;
    laid[48..76].copy_from_slice(&LAID_ON_ZEROS);
    assert_eq!(bytes, laid);
    assert_eq!(
        look(&bytes, record, 0x7ffffc00, 0x374),
        (found(0x37400004, 8, 52), *b"\x64\0\0\0\0\0")
    );
    assert_eq!(pair(&bytes).fetch(0, 0), answer);
    let known = pair(&listed).fetch(0, 0).unwrap();
    assert_eq!(pair(&bytes).refetch(0, known), answer);
}

/// A pair that was moved to a board of the other kind: it is read as it was, a
/// commit is refused, a compaction with the new byte heals it, and then a commit is
/// taken. So also where the last commit is of the one kind and the room of the
/// other.
#[test]
fn a_moved_pair_is_compacted() {
    for was in [ONES, ZEROS] {
        for room in [ONES, ZEROS] {
            for now in [ONES, ZEROS] {
                let mut bytes = listing_on(was, room);
                assert_eq!(pair(&bytes).fetch(0, 0).unwrap().record.count, 1);
                if was != now {
                    let answer = refused_by(16, now, &bytes, &[DEADLINE], &SECONDS);
                    assert_eq!(answer, Refusal::WrongValidity);
                } else if room != now {
                    let answer = refused_by(16, now, &bytes, &[DEADLINE], &SECONDS);
                    assert_eq!(answer, Refusal::NotErased(48));
                }
                let mut pair = pair_mut(&mut bytes);
                let compacted = pair.compact(0, 0, BY_DOCUMENT, now).unwrap().record;
                let (etag, unit) = match now {
                    ONES => (0x500ffc11, UNIT),
                    ZEROS => (0xd01ffc11, ZERO_UNIT),
                };
                assert_eq!((compacted.etag, compacted.forward), (etag, unit));
                assert_eq!((compacted.rev, compacted.erased), (2, true));
                let done = pair.commit(0, 0, BY_DOCUMENT, now, &[DEADLINE], &SECONDS);
                let found = look(&bytes, done.unwrap().record, 0x7ffffc00, 0x374);
                assert_eq!(found.1, *b"\x64\0\0\0\0\0");
                assert!(bytes[128 + 96..].iter().all(|&byte| byte == now.byte()));
            }
        }
    }
    assert_eq!(Erased::default(), ONES);
    let bytes = [ONES.byte(), ZEROS.byte()];
    assert_eq!(bytes, [ERASED_ONES, ERASED_ZEROS]);
}

/// One log with commits of both kinds is read, and goes on as its last commit says.
#[test]
fn a_log_may_have_commits_of_both_kinds() {
    let mut bytes = *LISTING;
    // Another writer's commit behind the listing, on 0x00 flash: of nothing but its
    // check, tag and checksum as samples/writer.py lays them.
    bytes[48..].fill(0);
    bytes[48..56].copy_from_slice(b"\0\x10\0\x01\x05\xb3\x9a\xb5");
    let record = pair(&bytes).fetch(0, 0).unwrap().record;
    assert_eq!((record.off, record.etag, record.count), (64, 0xd01ffc0c, 1));
    let answer = refused_by(16, ONES, &bytes, &[DEADLINE], &SECONDS);
    assert_eq!(answer, Refusal::WrongValidity);
    let mut pair = pair_mut(&mut bytes);
    let done = pair.commit(0, 0, BY_DOCUMENT, ZEROS, &[DEADLINE], &SECONDS);
    let record = done.unwrap().record;
    assert_eq!((record.off, record.etag), (96, 0xd01ffc08));
    assert_eq!(pair.as_pair().fetch(0, 0), done);
}

/// The listing's 48 bytes, and an inline struct behind them: one of 40 bytes just
/// leaves the 16 bytes of a unit behind its forward check, with one byte more there
/// is none.
#[test]
fn a_forward_check_is_carried_where_a_unit_follows() {
    for (len, off, forward) in [(40, 112, UNIT), (41, 112, None)] {
        let mut bytes = *LISTING;
        let mut pair = pair_mut(&mut bytes);
        let entries = [Entry::inline_struct(0, 0, len)];
        let done = pair
            .commit(0, 0, BY_DOCUMENT, ONES, &entries, &[7; 41])
            .unwrap();
        assert_eq!((done.record.off, done.record.forward), (off, forward));
        assert_eq!(done.record.erased, forward.is_some());
        assert_eq!(pair.as_pair().fetch(0, 0), Ok(done));
    }
}

/// Where a commit carries none, that of an earlier one is the last: it says of the
/// bytes behind the new end what they are.
#[test]
fn an_earlier_forward_check_stays_in_the_record() {
    let mut bytes = *LISTING;
    let mut pair = pair_mut(&mut bytes);
    // 8 + 12 + 8 bytes behind 48, and behind 80 once more; then none fits.
    for off in [80, 112, 128] {
        let done = pair.commit(0, 0, BY_DOCUMENT, ONES, &[DEADLINE], &SECONDS);
        let record = done.unwrap().record;
        assert_eq!((record.off, record.forward), (off, UNIT));
        // Behind the block's end nothing is erased.
        assert_eq!(record.erased, off < 128);
    }
}

/// Behind each of three commits, and behind a fourth, which is refused: from the
/// record before it and from that before all of them, what a fetch gives.
#[test]
fn a_refetch_behind_a_commit_is_a_fetch() {
    let mut bytes = *LISTING;
    let mut pair = pair_mut(&mut bytes);
    let first = pair.as_pair().fetch(0, 7).unwrap();
    let mut last = first;
    for off in [80, 112, 128, 128] {
        let done = pair.commit(0, 7, BY_DOCUMENT, ONES, &[DEADLINE], &SECONDS);
        let now = pair.as_pair().fetch(0, 7).unwrap();
        assert_eq!(now.record.off, off);
        assert!(done == Ok(now) || done == Err(Refusal::NoSpace));
        for known in [first, last] {
            assert_eq!(pair.as_pair().refetch(0, known), Ok(now));
        }
        last = now;
    }
}

/// Behind a compaction the old record gives the old directory, and a fetch is due;
/// the compaction's own answer is one.
#[test]
fn a_refetch_behind_a_compaction_is_no_fetch() {
    let mut bytes = *LISTING;
    let mut pair = pair_mut(&mut bytes);
    let known = pair.as_pair().fetch(0, 7).unwrap();
    let compacted = pair.compact(0, 7, BY_DOCUMENT, ONES).unwrap();
    let reader = pair.as_pair();
    assert_eq!(reader.refetch(0, known), Ok(known));
    assert_eq!(reader.fetch(0, 7), Ok(compacted));
    assert_ne!(compacted, known);
    assert_eq!(reader.refetch(0, compacted), Ok(compacted));
}

/// A record whose end is below 8 or passes the block, or whose pair is another; a
/// number too high; more than 1,023 slots, with record and seed as read. The erased
/// mark is not read.
#[test]
fn a_refetch_takes_any_record() {
    let seed = 7;
    let refetch = |count, record| pair(LISTING).refetch(count, Fetched { record, seed });
    let ending = |off| Record { off, ..LISTED };
    for off in [0, 7, 129, u32::MAX] {
        assert_eq!(refetch(0, ending(off)), Err(Refusal::Invalid));
    }
    for off in [8, 128] {
        let record = ending(off);
        assert_eq!(refetch(0, record), Ok(Fetched { record, seed }));
    }
    let other = |pair| Record { pair, ..LISTED };
    assert_eq!(refetch(0, other([0, 2])), Err(Refusal::Invalid));
    let record = other([1, 0]);
    assert_eq!(refetch(0, record), Ok(Fetched { record, seed }));
    assert_eq!(refetch(1, LISTED), Err(Refusal::Corrupt));
    let crowded = Record {
        count: 1024,
        ..LISTED
    };
    let read = Fetched {
        record: crowded,
        seed,
    };
    assert_eq!(refetch(0, crowded), Err(Refusal::TooMany(read)));
    let marked = Record {
        erased: true,
        ..LISTED
    };
    assert_eq!(refetch(0, marked), refetch(0, LISTED));
}

/// A lookup reads neither the erased mark nor the forward check.
#[test]
fn lookups_take_a_record_with_any_forward_check() {
    let any = |size, sum| Some(ForwardCheck { size, sum });
    for forward in [None, UNIT, any(0, 0), any(u32::MAX, 1), any(7, u32::MAX)] {
        let record = Record { forward, ..LISTED };
        let looked = look(LISTING, record, MASK_TYPE, 0x374);
        assert_eq!(looked, (DUE, *b"\x90\x5f\x01\0\0\0"));
        let (reader, mut state) = (pair(LISTING), NO_MOVE);
        let (key, mut seconds) = (Tag::new(0x374, 0, 4), [0; 4]);
        assert_eq!(
            reader.get(record, NO_MOVE, MASK_TYPE, key, &mut seconds),
            DUE
        );
        let info = reader.get_info(record, NO_MOVE, NAME_MAX, 0).unwrap();
        assert_eq!((info.size, info.name()), (3, &b"q212"[..]));
        assert_eq!(reader.get_gstate(record, NO_MOVE, &mut state), Ok(()));
        assert_eq!(state, NO_MOVE);
    }
}

#[test]
fn a_committed_move_state_is_xored() {
    let mut bytes = *LISTING;
    let words = *b"\x01\0\0\0\x02\0\0\0\x03\0\0\0";
    let answer = pair_mut(&mut bytes).commit(
        0,
        0,
        BY_DOCUMENT,
        ONES,
        &[entry(0x7ff, 1023, 0, 12)],
        &words,
    );
    let mut state = Gstate {
        tag: 1 << 8,
        pair: [0, 3],
    };
    let record = answer.unwrap().record;
    assert_eq!(pair(&bytes).get_gstate(record, NO_MOVE, &mut state), Ok(()));
    let sum = Gstate {
        tag: 1 << 8 | 1,
        pair: [2, 0],
    };
    assert_eq!(state, sum);
    // None in the listing: the state stays.
    assert_eq!(
        pair(LISTING).get_gstate(LISTED, NO_MOVE, &mut state),
        Ok(())
    );
    assert_eq!(state, sum);
}

#[test]
fn compaction_writes_the_other_block() {
    let mut bytes = *LISTING;
    bytes[128..].fill(0x55);
    let answer = pair_mut(&mut bytes)
        .compact(0, 0, BY_DOCUMENT, ONES)
        .unwrap();
    let record = Record {
        pair: [1, 0],
        rev: 2,
        off: 64,
        etag: 0x500ffc11,
        erased: true,
        forward: UNIT,
        ..LISTED
    };
    assert_eq!(answer.record, record);
    // The same entries under revision 2, a forward check, and the check; erased
    // behind it.
    let mut renewed = [0xff; 128];
    renewed[..31].copy_from_slice(&LISTING[..31]);
    renewed[0] = 2;
    renewed[31..43].copy_from_slice(&LAID[8..20]);
    renewed[43..51].copy_from_slice(b"\x0f\xf0\0\x19\x1e\x91\x83\x45");
    assert_eq!(bytes[..128], LISTING[..128]);
    assert_eq!(bytes[128..], renewed);
    assert_eq!(pair(&bytes).fetch(0, 0), Ok(answer));
    // The same place, in the other block.
    assert_eq!(look(&bytes, record, 0x7ffffc00, 0x374).0, DUE);
    // Erased to 0x00, whatever the first block is: forward check and check differ.
    for listed in [*LISTING, listing_on(ZEROS, ZEROS)] {
        let mut bytes = listed;
        bytes[128..].fill(0x55);
        let answer = pair_mut(&mut bytes).compact(0, 0, BY_DOCUMENT, ZEROS);
        let record = Record {
            etag: 0xd01ffc11,
            forward: ZERO_UNIT,
            ..record
        };
        assert_eq!(answer.unwrap().record, record);
        renewed[31..43].copy_from_slice(&LAID_ON_ZEROS[8..20]);
        renewed[43..51].copy_from_slice(b"\x0f\xe0\0\x19\xf9\xee\xdf\x62");
        renewed[51..].fill(0);
        assert_eq!(bytes[..128], listed[..128]);
        assert_eq!(bytes[128..], renewed);
        assert_eq!(pair(&bytes).fetch(0, 0), answer);
    }
}

/// Document 01's types and lengths. That a commit takes each shows that it is
/// whole.
#[test]
fn entries_are_what_a_commit_takes() {
    let made = [
        (Entry::create(1), entry(0x401, 1, 0, 0)),
        (Entry::file_name(1, 2, 3), entry(0x001, 1, 2, 3)),
        (Entry::inline_struct(1, 2, 3), entry(0x201, 1, 2, 3)),
        (Entry::ctz_struct(1, 4), entry(0x202, 1, 4, 8)),
        (Entry::user_attr(0x74, 1, 2, 3), entry(0x374, 1, 2, 3)),
        (Entry::remove_attr(0xff, 1), entry(0x3ff, 1, 0, 1023)),
        (Entry::dir_name(1, 2, 3), entry(0x002, 1, 2, 3)),
        (Entry::dir_struct(1, 4), entry(0x200, 1, 4, 8)),
        (Entry::delete(1), entry(0x4ff, 1, 0, 0)),
        (Entry::soft_tail(4), entry(0x600, 1023, 4, 8)),
        (Entry::hard_tail(4), entry(0x601, 1023, 4, 8)),
        (Entry::move_state(0), entry(0x7ff, 1023, 0, 12)),
    ];
    let mut bytes = roomy(1024);
    let mut pair = pair_mut(&mut bytes);
    for (made, expected) in made {
        assert_eq!(made, expected);
    }
    let entries = made.map(|(made, _)| made);
    assert!(pair
        .commit(0, 0, BY_DOCUMENT, ONES, &entries, &[7; 12])
        .is_ok());
}

/// A commit that is refused, and leaves both images as they were.
fn refused(bytes: &[u8; 256], entries: &[Entry], data: &[u8]) -> Refusal {
    refused_by(16, ONES, bytes, entries, data)
}

/// The same with any program size and erased byte.
fn refused_by(
    prog_size: u32,
    erased: Erased,
    bytes: &[u8; 256],
    entries: &[Entry],
    data: &[u8],
) -> Refusal {
    let mut altered = *bytes;
    let mut pair = pair_mut(&mut altered);
    pair.geometry.prog_size = prog_size;
    let answer = pair.commit(0, 7, BY_DOCUMENT, erased, entries, data);
    assert_eq!(&altered, bytes);
    answer.unwrap_err()
}

#[test]
fn refused_commits_leave_the_images() {
    let one = [DEADLINE];
    let bad = [entry(0x401, 1, 0, 0), entry(0x001, 1, 1, 4)]; // passes the data
    let large = [entry(0x201, 0, 0, 69)]; // 68 would end at the block's end
    let chance = [0xc2, 0xf2, 0xb6, 0xb8]; // as in samples/writes/cases
    let cases = [
        (refused(LISTING, &one, &[0; 65537]), Refusal::Invalid, -22),
        (refused(&[0xff; 256], &one, &SECONDS), Refusal::Corrupt, -84),
        (refused(IRREGULAR, &one, &SECONDS), Refusal::Irregular, -202),
        (refused(LISTING, &bad, &SECONDS), Refusal::BadEntry(1), -201),
        (refused(LISTING, &large, &[0; 69]), Refusal::NoSpace, -28),
        (refused(LISTING, &one, &chance), Refusal::Coincidence, -204),
    ];
    for (answer, refusal, number) in cases {
        assert_eq!((answer, answer.number()), (refusal, number));
    }
}

/// The coincidence by the erased byte given: the data that coincide on one kind of
/// flash do not on the other. As in `samples/writes/cases`; behind one and two of
/// the check tag's bytes.
#[test]
fn a_coincidence_is_one_of_the_erased_byte() {
    for data in [[0xdf, 0xa9, 0xf8, 0xfa], [0x89, 0xdd, 0xad, 0xa9]] {
        let mut on_zeros = listing_on(ZEROS, ZEROS);
        let answer = refused_by(16, ZEROS, &on_zeros, &[DEADLINE], &data);
        assert_eq!(answer, Refusal::Coincidence);
        let mut pair = pair_mut(&mut on_zeros);
        pair.commit(0, 0, BY_DOCUMENT, ZEROS, &[DEADLINE], &SECONDS)
            .unwrap();
        let mut on_ones = *LISTING;
        let mut pair = pair_mut(&mut on_ones);
        pair.commit(0, 0, BY_DOCUMENT, ONES, &[DEADLINE], &data)
            .unwrap();
    }
}

/// The three reasons, each alone and then together, on both kinds of flash: the
/// listing's end, 48, is no multiple of 32; behind a check of the other kind the end
/// tag's top bit is the wrong one; bytes behind the end.
#[test]
fn why_there_is_no_room() {
    for (erased, other, etag) in [(ONES, ZEROS, 0xd01ffc0d), (ZEROS, ONES, 0x500ffc0d)] {
        let (clean, flipped) = (listing_on(erased, erased), listing_on(other, erased));
        assert_eq!(pair(&flipped).fetch(0, 0).unwrap().record.etag, etag);
        let dirty = |bytes: &[u8; 256]| {
            let mut bytes = *bytes;
            [bytes[70], bytes[127]] = [erased.byte() ^ 1, other.byte()];
            bytes
        };
        let cases = [
            (32, clean, Refusal::Misaligned, -211),
            (16, flipped, Refusal::WrongValidity, -212),
            (16, dirty(&clean), Refusal::NotErased(70), -213),
            (32, flipped, Refusal::Misaligned, -211),
            (32, dirty(&clean), Refusal::Misaligned, -211),
            (16, dirty(&flipped), Refusal::WrongValidity, -212),
        ];
        for (prog_size, mut bytes, refusal, number) in cases {
            let answer = refused_by(prog_size, erased, &bytes, &[DEADLINE], &SECONDS);
            assert_eq!((answer, answer.number()), (refusal, number));
            // and a compaction makes room
            assert!(answer.needs_compaction());
            let mut pair = pair_mut(&mut bytes);
            pair.geometry.prog_size = prog_size;
            pair.compact(0, 0, BY_DOCUMENT, erased).unwrap();
            pair.commit(0, 0, BY_DOCUMENT, erased, &[DEADLINE], &SECONDS)
                .unwrap();
        }
    }
    let said = "refused, -213: byte 70 of the block, behind the end, isn't erased";
    assert_eq!(Refusal::NotErased(70).to_string(), said);
    let said = "refused, -212: the end tag has the wrong validity bit for the erased byte";
    assert_eq!(Refusal::WrongValidity.to_string(), said);
}

#[test]
fn too_many_slots_come_with_the_record() {
    let Err(refusal @ Refusal::TooMany(read)) = pair(CROWDED).fetch(0, 7) else {
        panic!("a count of 1,024 is refused");
    };
    assert_eq!(refusal.number(), -2);
    let Record {
        rev, off, count, ..
    } = read.record;
    assert_eq!((rev, off, count), (1, 32, 1024));
    // The seed as read is that of fetch, and not the one given.
    assert_ne!(read.seed, 7);
    assert_eq!(refused(CROWDED, &[DEADLINE], &SECONDS), refusal);
}

#[test]
fn a_refused_compaction_leaves_the_images() {
    let mut bytes = *IRREGULAR;
    let answer = pair_mut(&mut bytes).compact(0, 0, BY_DOCUMENT, ONES);
    assert_eq!((answer, &bytes), (Err(Refusal::Irregular), IRREGULAR));
}

#[test]
fn littlefs_s_own_pair_needs_its_rules() {
    let mut bytes = *REAL;
    let mut pair = pair_mut(&mut bytes);
    let deadline = [Entry::user_attr(0x74, 3, 0, 4)];
    let refused = [
        pair.commit(0, 0, BY_DOCUMENT, ONES, &deadline, &SECONDS),
        pair.compact(0, 0, BY_DOCUMENT, ONES),
    ];
    assert_eq!(refused, [Err(Refusal::Irregular); 2]);
    assert_eq!(&bytes, REAL);

    // What shown.txt has of slot 3, and of its eight bytes of deadline the new.
    let shown = |pair: &PairMut, record: Record| {
        let info = pair.as_pair().get_info(record, NO_MOVE, NAME_MAX, 3);
        let info = info.unwrap();
        assert_eq!(
            (info.type_, info.size, info.name()),
            (0x001, 3, &b"q212"[..])
        );
        let (key, mut seconds) = (Tag::new(0x374, 3, 0), [0; 8]);
        let reader = pair.as_pair();
        let found = reader.get_slice(record, NO_MOVE, MASK_TYPE, key, 0, &mut seconds);
        assert_eq!((found.unwrap().size(), &seconds[..4]), (4, &SECONDS[..]));
    };
    let mut pair = pair_mut(&mut bytes);
    let done = pair.commit(0, 0, BY_LITTLEFS, ONES, &deadline, &SECONDS);
    shown(&pair, done.unwrap().record);
    let done = pair.compact(0, 0, BY_LITTLEFS, ONES).unwrap();
    assert_eq!((done.record.count, done.record.tail), (5, [2, 3]));
    shown(&pair, done.record);
    // What a compaction writes has its creates.
    pair.commit(0, 0, BY_DOCUMENT, ONES, &deadline, &SECONDS)
        .unwrap();
    pair.compact(0, 0, BY_DOCUMENT, ONES).unwrap();
}

/// What a real littlefs wrote on 0x00 flash is read as it showed it, and written
/// to.
#[test]
fn littlefs_s_own_pair_on_zeros() {
    let mut bytes = *REAL_ON_ZEROS;
    let mut pair = pair_mut(&mut bytes);
    let shown = Record {
        pair: [1, 0],
        rev: 4,
        off: 256,
        etag: 3491757061, // its line in samples/zero/shown.txt
        count: 5,
        erased: true,
        split: false,
        tail: [30, 31],
        forward: ZERO_UNIT,
    };
    assert_eq!(pair.as_pair().fetch(0, 0).unwrap().record, shown);
    let deadline = [Entry::user_attr(0x74, 3, 0, 4)];
    let moved = pair.commit(0, 0, BY_LITTLEFS, ONES, &deadline, &SECONDS);
    assert_eq!(moved, Err(Refusal::WrongValidity));
    for _ in 0..2 {
        let done = pair.commit(0, 0, BY_LITTLEFS, ZEROS, &deadline, &SECONDS);
        let record = done.unwrap().record;
        assert_eq!((record.etag >> 31, record.forward), (1, ZERO_UNIT));
        let (key, mut seconds) = (Tag::new(0x374, 3, 0), [0; 4]);
        let reader = pair.as_pair();
        let found = reader.get_slice(record, NO_MOVE, MASK_TYPE, key, 0, &mut seconds);
        assert_eq!((found.unwrap().size(), seconds), (4, SECONDS));
        let info = reader.get_info(record, NO_MOVE, NAME_MAX, 3).unwrap();
        assert_eq!((info.size, info.name()), (3, &b"q212"[..]));
        let done = pair.compact(0, 0, BY_LITTLEFS, ZEROS).unwrap();
        assert_eq!((done.record.count, done.record.tail), (5, [30, 31]));
    }
}

/// The checksum of a commit, bit by bit.
fn crc(bytes: &[u8]) -> u32 {
    bytes.iter().fold(u32::MAX, |sum, &byte| {
        (0..8).fold(sum ^ u32::from(byte), |sum, _| {
            (sum >> 1) ^ ((sum & 1) * 0xedb8_8320)
        })
    })
}

/// Names of one byte, and no create: the log ends at the block's end.
fn full_of_names() -> [u8; 256] {
    let mut bytes = [0xff; 256];
    let mut previous = u32::MAX;
    bytes[..4].copy_from_slice(&1u32.to_le_bytes());
    for id in 0..23 {
        let (tag, at) = (Tag::new(TYPE_REG, id, 1).0, 4 + 5 * id as usize);
        bytes[at..at + 4].copy_from_slice(&(previous ^ tag).to_be_bytes());
        bytes[at + 4] = b'a' + id as u8;
        previous = tag;
    }
    let tag = Tag::new(TYPE_CCRC, NO_SLOT, 5).0;
    bytes[119..123].copy_from_slice(&(previous ^ tag).to_be_bytes());
    let sum = crc(&bytes[..123]);
    bytes[123..127].copy_from_slice(&sum.to_le_bytes());
    bytes
}

/// The creates that a compaction adds have no room there.
#[test]
fn a_full_block_without_creates_has_no_room_for_them() {
    let full = full_of_names();
    let mut bytes = full;
    let mut pair = pair_mut(&mut bytes);
    let record = pair.as_pair().fetch(0, 0).unwrap().record;
    assert_eq!((record.count, record.off), (23, 128));
    assert_eq!(
        pair.compact(0, 0, BY_DOCUMENT, ONES),
        Err(Refusal::Irregular)
    );
    assert_eq!(pair.compact(0, 0, BY_LITTLEFS, ONES), Err(Refusal::NoSpace));
    assert_eq!(bytes, full);
    // One name of id 1,022 makes 1,023 slots.
    let mut bytes = *IRREGULAR;
    let answer = pair_mut(&mut bytes).compact(0, 0, BY_LITTLEFS, ONES);
    assert_eq!((answer, &bytes), (Err(Refusal::NoSpace), IRREGULAR));
    let answer = pair_mut(&mut bytes).commit(0, 0, BY_LITTLEFS, ONES, &[DEADLINE], &SECONDS);
    assert_eq!(answer.unwrap().record.count, 1023);
}

/// A pair that this library wrote gets the same answer and bytes by both rules.
#[test]
fn the_listing_is_written_alike_by_both_rules() {
    let written = |rules| {
        let mut bytes = *LISTING;
        let mut pair = pair_mut(&mut bytes);
        let answers = [
            pair.commit(0, 0, rules, ONES, &[DEADLINE], &SECONDS),
            pair.compact(0, 0, rules, ONES),
        ];
        assert!(answers.iter().all(Result::is_ok));
        (answers, bytes)
    };
    assert_eq!(written(BY_DOCUMENT), written(BY_LITTLEFS));
    assert_eq!(Rules::default(), BY_DOCUMENT);
    let numbers = [BY_DOCUMENT.number(), BY_LITTLEFS.number()];
    assert_eq!(numbers, [RULES_DOCUMENT, RULES_LITTLEFS]);
}

#[test]
fn broken_sizes_and_numbers_are_invalid() {
    let good = pair(LISTING);
    let [b0, b1] = good.images;
    let geometry = Geometry {
        prog_size: 3,
        ..GEOMETRY
    };
    let broken = [
        Pair { geometry, ..good },
        Pair {
            numbers: [1, 1],
            ..good
        },
        Pair {
            images: [b0, &b1[1..]],
            ..good
        },
        Pair {
            images: [&[], &[]],
            ..good
        },
    ];
    for pair in broken {
        assert_eq!(pair.fetch(0, 0), Err(Refusal::Invalid));
        assert_eq!(file(&pair, b"q212"), Err(Refusal::Invalid));
    }
    // number 1 is too high
    assert_eq!(good.fetch(1, 0), Err(Refusal::Corrupt));
    let answer = good.find(1, 0, BY_DOCUMENT, b"q212", TYPE_REG);
    assert_eq!(answer, Err(Refusal::Corrupt));
}

/// A number as the header writes it: `1022`, `(-22)`, `0x401`, `0x7ffffc00u`.
fn number(written: &str) -> i64 {
    let plain = written.trim_matches(['(', ')', 'u']);
    match plain.strip_prefix("0x") {
        Some(hex) => i64::from_str_radix(hex, 16).unwrap(),
        None => plain.parse().unwrap(),
    }
}

/// Each `#define LANOLIN_NAME number` of the header, and no other name, is here
/// with the same number.
#[test]
fn the_names_are_the_header_s() {
    macro_rules! named {
        ($($name:ident)*) => { [$((stringify!($name), $name as i64)),*] };
    }
    let names = named![
        VERSION_MAJOR VERSION_MINOR
        OK ERR_INVAL ERR_CORRUPT ERR_NOENT ERR_NOSPC ERR_BADENTRY ERR_IRREGULAR ERR_MISALIGNED
        ERR_VALIDITY ERR_NOTERASED ERR_COINCIDENCE ERR_TABLE
        TYPE_NAME TYPE_REG TYPE_DIR TYPE_SUPERBLOCK TYPE_STRUCT TYPE_DIRSTRUCT TYPE_INLINESTRUCT
        TYPE_CTZSTRUCT TYPE_USERATTR TYPE_SPLICE TYPE_CREATE TYPE_DELETE TYPE_CCRC TYPE_FCRC
        TYPE_TAIL TYPE_SOFTTAIL TYPE_HARDTAIL TYPE_MOVESTATE
        MASK_TYPE MASK_CLASS RULES_DOCUMENT RULES_LITTLEFS ERASED_ONES ERASED_ZEROS
        NO_SLOT REMOVAL BLOCK_NULL
        ATTR_MAX SLOTS_MAX NAME_MAX BUFFER_MAX ENTRIES_MAX DATA_MAX
    ];
    let header = include_str!("../../../include/lanolin.h").lines();
    let defined: Vec<(&str, i64)> = header
        .filter_map(|line| line.strip_prefix("#define LANOLIN_")?.split_once(' '))
        .filter(|(name, _)| *name != "VERSION" && !name.contains('('))
        .map(|(name, rest)| (name, number(rest.split(' ').next().unwrap())))
        .collect();
    assert_eq!(defined, names);
    assert_eq!(VERSION, VERSION_MAJOR << 16 | VERSION_MINOR);
    let package = concat!(
        env!("CARGO_PKG_VERSION_MAJOR"),
        ".",
        env!("CARGO_PKG_VERSION_MINOR")
    );
    assert_eq!(package, format!("{VERSION_MAJOR}.{VERSION_MINOR}"));
}
