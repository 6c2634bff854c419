//! The index through the wrapper: on document 01's listing pair, on the yard's
//! instructions and on pairs that a real littlefs wrote. What is expected is worked
//! out from the bytes that `samples/make_pairs.py` put there, by hand, or is what the
//! lookups answer, which have tests of their own.

use lanolin::*;

const LISTING: &[u8; 256] = include_bytes!("../../../samples/q212.pair");
/// A yard's instructions: the second block answers.
const YARD: &[u8; 1024] = include_bytes!("../../../samples/instructions.pair");
/// Pairs that a real littlefs wrote: compacted, so that names have no creates; with
/// user attributes; torn; and on flash that erases to 0x00.
const REAL: [&[u8]; 4] = [
    include_bytes!("../../../samples/real/attrs-512-0-1.pair"),
    include_bytes!("../../../samples/real/churn-256-152-153.pair"),
    include_bytes!("../../../samples/real/cut-512-setattr-torn-0-0-1.pair"),
    include_bytes!("../../../samples/zero/attrs-512-0-1.pair"),
];

const BY_DOCUMENT: Rules = Rules::Document;
const BY_LITTLEFS: Rules = Rules::Littlefs;
const BOTH: [Rules; 2] = [BY_DOCUMENT, BY_LITTLEFS];
const ONES: Erased = Erased::Ones;

/// The listing's tags stand at 8, 16 and 23, and their data four bytes behind.
const LISTED: [u32; 6] = [0x00100004, 12, 0x20100003, 20, 0x37400004, 27];
/// Any words, as a table has them before it is lent.
const ANY: u32 = 0xa5a5a5a5;

fn pair(bytes: &[u8]) -> Pair<'_> {
    let (b0, b1) = bytes.split_at(bytes.len() / 2);
    let geometry = Geometry {
        block_size: b0.len() as u32,
        prog_size: 16,
    };
    Pair {
        geometry,
        images: [b0, b1],
        numbers: [0, 1],
    }
}

fn pair_mut(bytes: &mut [u8]) -> PairMut<'_> {
    let geometry = pair(bytes).geometry;
    let (b0, b1) = bytes.split_at_mut(bytes.len() / 2);
    PairMut {
        geometry,
        images: [b0, b1],
        numbers: [0, 1],
    }
}

fn record(pair: &Pair) -> Record {
    pair.fetch(0, 0).unwrap().record
}

/// The listing in blocks of 512 bytes.
fn roomy() -> [u8; 1024] {
    let mut bytes = [0xff; 1024];
    bytes[..128].copy_from_slice(&LISTING[..128]);
    bytes
}

/// The table of a build, of so many words.
fn built(pair: &Pair, record: Record, len: usize) -> Vec<u32> {
    let mut table = vec![ANY; len];
    Index::build(pair, record, BY_LITTLEFS, &mut table).unwrap();
    table
}

/// What each slot of the yard holds, as `samples/make_pairs.py` put it there: type,
/// offset of the data, and the data. Entries stand one behind the other, each four
/// bytes and its data, and commits end at 176, 256, 336, 352 and 432.
fn put_there() -> Vec<Vec<(u32, u32, &'static [u8])>> {
    let (zeros, old) = (&[0; 24][..], &[5, 0, 0, 0][..]);
    let day = &[0x80, 0x51, 1, 0][..]; // 86,400 seconds
    vec![
        vec![(0x0ff, 12, b"littlefs"), (0x201, 24, zeros)],
        vec![
            (0x002, 56, b"done"),
            (0x200, 64, &[6, 0, 0, 0, 7, 0, 0, 0]),
            (0x374, 76, old),
        ],
        // its deadline was set anew, by the first entry of the second commit
        vec![
            (0x001, 88, b"q212"),
            (0x201, 96, b"abc"),
            (0x374, 180, &[0x90, 0x5f, 1, 0]),
        ],
        vec![
            (0x001, 115, b"q213"),
            (0x201, 123, b"lift 7"),
            (0x374, 133, &[0x10, 0x0e, 0, 0]),
            (0x375, 141, &[1]),
        ],
        // behind an instruction that is gone
        vec![
            (0x001, 221, b"q214"),
            (0x202, 229, &[9, 0, 0, 0, 0, 0x10, 0, 0]),
            (0x374, 241, day),
        ],
        // its deadline was taken away
        vec![(0x001, 264, b"q215"), (0x201, 272, b"move to 12 C")],
        // its payload was cut to nothing
        vec![
            (0x001, 300, b"q216"),
            (0x201, 344, b""),
            (0x374, 317, &[0x18, 0x15, 0, 0]),
        ],
        vec![
            (0x001, 360, b"q217 \\\xb5"),
            (0x201, 371, b"go"),
            (0x374, 377, day),
        ],
        vec![
            (0x001, 389, b"q218"),
            (0x201, 397, b"stop"),
            (0x374, 405, &[0x3c, 0]),
        ],
        vec![(0x001, 415, b"note"), (0x201, 423, b"")],
    ]
}

/// Exactly long enough, longer and odd; whatever stood there.
#[test]
fn the_listing_has_three_places() {
    let listing = pair(LISTING);
    for rules in BOTH {
        for len in 6..20 {
            let mut table = vec![ANY; len];
            let index = Index::build(&listing, record(&listing), rules, &mut table).unwrap();
            assert_eq!(index.places(), 3);
            assert_eq!(index.record(), record(&listing));
            assert_eq!(index.table()[..6], LISTED);
            assert!(index.table()[6..].iter().all(|&word| word == 0));
        }
    }
}

/// The slots one after the other, and what each holds, in order.
#[test]
fn the_yard_s_slots_hold_what_was_put_there() {
    let (pair, mut table) = (pair(YARD), [ANY; 64]);
    let index = Index::build(&pair, record(&pair), BY_DOCUMENT, &mut table).unwrap();
    assert_eq!(index.places(), 28);
    let slots = index.slots(&pair).unwrap();
    let held: Vec<Vec<_>> = slots
        .clone()
        .map(|slot| slot.held().map(|it| (it.tag.type3(), it.off, it.bytes)))
        .map(Iterator::collect)
        .collect();
    assert_eq!(held, put_there());
    for ((slot, expected), id) in slots.zip(put_there()).zip(0..) {
        assert_eq!(slot.id(), id);
        assert!(slot.held().all(|it| it.tag.id() == id));
        assert!(slot
            .held()
            .all(|it| it.tag.size() as usize == it.bytes.len()));
        // by its kind: the first is the name, the second the struct, attributes follow
        let of = |it: Held<'static>| (it.tag.type3(), it.off, it.bytes);
        assert_eq!(slot.name().map(of), Some(expected[0]));
        assert_eq!(slot.struct_().map(of), Some(expected[1]));
        assert_eq!(slot.attrs().map(of).collect::<Vec<_>>(), expected[2..]);
        for attr in 0..=255 {
            let own = expected[2..].iter().find(|it| it.0 == 0x300 + attr as u32);
            assert_eq!(slot.attr(attr).map(of), own.copied());
        }
    }
}

/// Each lookup of the record, as the backward walk answers it where no move is
/// pending, and as the index does: answers and buffers.
fn lookups_agree(pair: &Pair, index: &Index) -> usize {
    let (record, mut there) = (index.record(), 0);
    for id in 0..u32::from(record.count) {
        for type_ in [0x000, 0x200].into_iter().chain(0x300..0x400) {
            let mask = if type_ < 0x300 { MASK_CLASS } else { MASK_TYPE };
            let key = Tag::new(type_, id, 0);
            for len in [0, 3, 40] {
                let (mut walked, mut halved) = (vec![7; len], vec![7; len]);
                let found = pair.get_slice(record, Gstate::default(), mask, key, 0, &mut walked);
                assert_eq!(index.get(pair, type_, id, &mut halved), found);
                assert_eq!(halved, walked);
                there += usize::from(len == 0 && found.is_ok());
            }
        }
    }
    there
}

/// What the slots hold, one by one: what a lookup finds, with its bytes.
fn slots_agree(pair: &Pair, index: &Index) -> usize {
    let mut there = 0;
    for held in index.slots(pair).unwrap().flat_map(|slot| slot.held()) {
        let attribute = held.tag.type1() == TYPE_USERATTR;
        let mask = if attribute { MASK_TYPE } else { MASK_CLASS };
        let mut bytes = vec![7; held.bytes.len()];
        let (record, still) = (index.record(), Gstate::default());
        let found = pair.get_slice(record, still, mask, held.tag, 0, &mut bytes);
        let found = found.unwrap();
        assert_eq!((found.tag, found.off), (held.tag, held.off));
        assert_eq!((found.size(), &bytes[..]), (bytes.len(), held.bytes));
        there += 1;
    }
    there
}

/// The same whichever way one asks, of our own pairs and of littlefs's; and no place
/// is in use that no lookup finds.
#[test]
fn an_index_answers_as_lookups_do() {
    for bytes in [&LISTING[..], YARD].into_iter().chain(REAL) {
        let pair = pair(bytes);
        for len in [512, 513] {
            let mut table = vec![ANY; len];
            let index = Index::build(&pair, record(&pair), BY_LITTLEFS, &mut table).unwrap();
            assert_eq!(lookups_agree(&pair, &index), index.places());
            assert_eq!(slots_agree(&pair, &index), index.places());
        }
    }
}

/// Which types ask for what; others, and ids that are not there, find nothing.
#[test]
fn get_takes_any_type_and_id() {
    let (pair, mut table) = (pair(YARD), [ANY; 64]);
    let index = Index::build(&pair, record(&pair), BY_DOCUMENT, &mut table).unwrap();
    let get = |type_, id| index.get(&pair, type_, id, &mut []);
    let found = |tag, length, off| {
        let tag = Tag(tag);
        Ok(Found { tag, length, off })
    };
    for kind in 0..0x100 {
        assert_eq!(get(kind, 0), found(0x0ff00008, 12, 12));
        assert_eq!(get(0x200 + kind, 4), found(0x20201008, 12, 229));
    }
    for type_ in [
        0x100, 0x1ff, 0x401, 0x4ff, 0x500, 0x601, 0x7ff, 0xb74, 0x10374,
    ] {
        assert_eq!(get(type_, 2), Err(Refusal::NoEntry), "{type_:#x}");
    }
    for id in [10, 1023, 1024, 1026, u32::MAX] {
        assert_eq!(get(0x374, id), Err(Refusal::NoEntry), "{id}");
    }
    // A lookup's refusals, which leave the buffer.
    let mut long = vec![7; BUFFER_MAX + 1];
    let answer = index.get(&pair, 0x374, 2, &mut long);
    assert_eq!(answer, Err(Refusal::Invalid));
    assert!(long.iter().all(|&byte| byte == 7));
    let other = Pair {
        numbers: [0, 2],
        ..pair
    };
    let answer = index.get(&other, 0x374, 2, &mut long[..4]);
    assert_eq!((answer, &long[..4]), (Err(Refusal::Invalid), &[7; 4][..]));
}

/// A slot without an entry takes no place; a slot that moved has its present id.
#[test]
fn bare_slots_take_no_place() {
    let (mut bytes, mut table) = (roomy(), [ANY; 8]);
    let mut pair = pair_mut(&mut bytes);
    // A bare slot before the listing's own, and one behind it.
    let entries = [Entry::create(0), Entry::create(2)];
    let done = pair.commit(0, 0, BY_DOCUMENT, ONES, &entries, &[]).unwrap();
    assert_eq!(done.record.count, 3);
    let reader = pair.as_pair();
    let index = Index::build(&reader, done.record, BY_DOCUMENT, &mut table).unwrap();
    let mut slots = index.slots(&reader).unwrap();
    let slot = slots.next().unwrap();
    assert_eq!((slot.id(), slot.name().unwrap().bytes), (1, &b"q212"[..]));
    assert_eq!(slot.attr(0x74).unwrap().tag, Tag::new(0x374, 1, 4));
    assert!(slots.next().is_none() && slots.next().is_none());
    // No slot at all.
    let gone = [Entry::delete(0), Entry::delete(0), Entry::delete(0)];
    let done = pair.commit(0, 0, BY_DOCUMENT, ONES, &gone, &[]).unwrap();
    let reader = pair.as_pair();
    let index = Index::build(&reader, done.record, BY_DOCUMENT, &mut table).unwrap();
    assert_eq!((index.places(), index.table()), (0, &[0; 8][..]));
    assert!(index.slots(&reader).unwrap().next().is_none());
}

/// A slot may have a name alone, or lack one, or have attributes alone: each is asked
/// for by its kind.
#[test]
fn a_slot_may_hold_one_thing_alone() {
    let (mut bytes, mut table) = (roomy(), [ANY; 16]);
    let mut pair = pair_mut(&mut bytes);
    let entries = [
        Entry::delete(0),
        Entry::create(0),
        Entry::file_name(0, 0, 3),
        Entry::create(1),
        Entry::inline_struct(1, 0, 0),
        Entry::create(2),
        Entry::user_attr(0xff, 2, 1, 2),
        Entry::user_attr(0x00, 2, 0, 1),
    ];
    let done = pair.commit(0, 0, BY_DOCUMENT, ONES, &entries, b"abc");
    let (reader, record) = (pair.as_pair(), done.unwrap().record);
    let index = Index::build(&reader, record, BY_DOCUMENT, &mut table).unwrap();
    let told: Vec<_> = index.slots(&reader).unwrap().collect();
    let bytes = |held: Option<Held>| held.map(|held| held.bytes.to_vec());
    let kinds = |slot: &Slot| {
        let attrs = slot.attrs().map(|held| held.bytes.to_vec());
        let attrs: Vec<Vec<u8>> = attrs.collect();
        (bytes(slot.name()), bytes(slot.struct_()), attrs)
    };
    let attrs = vec![b"a".to_vec(), b"bc".to_vec()]; // by rising type
    assert_eq!(kinds(&told[0]), (Some(b"abc".to_vec()), None, vec![]));
    assert_eq!(kinds(&told[1]), (None, Some(vec![]), vec![]));
    assert_eq!(kinds(&told[2]), (None, None, attrs));
    assert_eq!((told.len(), bytes(told[2].attr(0x74))), (3, None));
    assert_eq!(bytes(told[2].attr(0xff)), Some(b"bc".to_vec()));
}

/// What was live at one time counts: at 352 a deadline has gone again, so that 20
/// are live and 21 were.
#[test]
fn a_table_too_short_is_left_zero() {
    let pair = pair(YARD);
    let ends = [
        (176, 12, 12),
        (256, 15, 15),
        (336, 21, 21),
        (352, 20, 21),
        (432, 28, 28),
    ];
    for (off, live, most) in ends {
        let record = Record {
            off,
            ..record(&pair)
        };
        for len in 0..60 {
            let mut table = vec![ANY; len];
            let answer = Index::build(&pair, record, BY_DOCUMENT, &mut table);
            if len / 2 < most {
                assert_eq!(answer.unwrap_err(), Refusal::TableFull);
                assert_eq!(table, vec![0; len]);
            } else {
                assert_eq!(answer.unwrap().places(), live);
            }
        }
    }
    assert_eq!(Refusal::TableFull.number(), -221);
    let said = "refused, -221: the table has too few places";
    assert_eq!(Refusal::TableFull.to_string(), said);
    assert!(!Refusal::TableFull.needs_compaction());
}

/// A lookup's -22, a log that is irregular by the rules, an end that is no commit's:
/// the table is as it was, whatever its length.
#[test]
fn a_refused_build_leaves_the_table() {
    let refused = |pair: &Pair, record, rules| {
        let answers = [0, 7, 600].map(|len| {
            let mut table = vec![ANY; len];
            let refusal = Index::build(pair, record, rules, &mut table).unwrap_err();
            assert!(table.iter().all(|&word| word == ANY), "{refusal}");
            refusal
        });
        assert_eq!(answers, [answers[0]; 3]);
        answers[0]
    };
    let yard = pair(YARD);
    let known = record(&yard);
    for off in (0..=512).filter(|off| ![176, 256, 336, 352, 432].contains(off)) {
        let record = Record { off, ..known };
        assert_eq!(refused(&yard, record, BY_DOCUMENT), Refusal::Irregular);
    }
    let past = Record { off: 513, ..known };
    assert_eq!(refused(&yard, past, BY_DOCUMENT), Refusal::Invalid);
    let other = Record {
        pair: [1, 2],
        ..known
    };
    assert_eq!(refused(&yard, other, BY_DOCUMENT), Refusal::Invalid);
    let odd = Pair {
        geometry: Geometry {
            prog_size: 3,
            ..yard.geometry
        },
        ..yard
    };
    assert_eq!(refused(&odd, known, BY_DOCUMENT), Refusal::Invalid);
    // Names without creates.
    let real = pair(REAL[0]);
    let known = record(&real);
    assert_eq!(refused(&real, known, BY_DOCUMENT), Refusal::Irregular);
    // A byte of the log that is not as it was: its commit is none any more.
    let mut bytes = *YARD;
    bytes[512 + 100] ^= 1;
    let (torn, known) = (pair(&bytes), record(&pair(YARD)));
    assert_eq!(refused(&torn, known, BY_LITTLEFS), Refusal::Irregular);
}

/// Of a record pair and end are read.
#[test]
fn an_index_reads_pair_and_end() {
    let pair = pair(YARD);
    let odd = Record {
        rev: 0,
        etag: 7,
        count: 0,
        erased: true,
        split: false,
        tail: [0; 2],
        forward: Some(ForwardCheck { size: 1, sum: 2 }),
        ..record(&pair)
    };
    assert_eq!(built(&pair, odd, 57), built(&pair, record(&pair), 57));
}

/// From the end of each commit to that of each later one.
#[test]
fn an_extended_index_is_a_built_one() {
    let pair = pair(YARD);
    let ends = [176, 256, 336, 352, 432];
    let at = |off| Record {
        off,
        ..record(&pair)
    };
    for (i, &from) in ends.iter().enumerate() {
        for &to in &ends[i..] {
            let mut table = [ANY; 57];
            let mut index = Index::build(&pair, at(from), BY_DOCUMENT, &mut table).unwrap();
            assert_eq!(index.extend(&pair, at(to), BY_LITTLEFS), Ok(()));
            assert_eq!(index.record(), at(to));
            assert_eq!(index.table(), built(&pair, at(to), 57));
        }
    }
}

/// Behind each of several commits, with the record that it answered, and with that
/// of a refetch: slots that come and go, entries set anew and removed.
#[test]
fn an_index_is_extended_behind_each_commit() {
    let (mut bytes, mut table) = (roomy(), [ANY; 19]);
    let mut pair = pair_mut(&mut bytes);
    let mut known = pair.as_pair().fetch(0, 0).unwrap();
    let mut index = Index::build(&pair.as_pair(), known.record, BY_DOCUMENT, &mut table).unwrap();
    // The listing's name, struct and deadline; then what each commit leaves.
    let commits = [
        (vec![Entry::user_attr(0x74, 0, 0, 4)], 3),
        (vec![Entry::create(0), Entry::file_name(0, 0, 4)], 4),
        (
            vec![
                Entry::user_attr(0xff, 1, 0, 1),
                Entry::user_attr(0, 1, 0, 0),
            ],
            6,
        ),
        (
            vec![Entry::remove_attr(0x74, 1), Entry::remove_attr(0x74, 1)],
            5,
        ),
        (vec![Entry::soft_tail(0), Entry::delete(0)], 4),
        (vec![Entry::delete(0), Entry::create(0)], 0),
    ];
    for (entries, places) in commits {
        let done = pair.commit(0, 0, BY_DOCUMENT, ONES, &entries, b"q213abcd");
        let reader = pair.as_pair();
        known = reader.refetch(0, known).unwrap();
        assert_eq!(done, Ok(known));
        index.extend(&reader, known.record, BY_DOCUMENT).unwrap();
        assert_eq!(index.places(), places);
        assert_eq!(index.table(), built(&reader, known.record, 19));
        assert_eq!(lookups_agree(&reader, &index), places);
        assert_eq!(slots_agree(&reader, &index), places);
    }
}

/// An extension that finds no place leaves nothing, and the next is refused so too;
/// any other refusal leaves the index as it was.
#[test]
fn a_refused_extension() {
    let (mut bytes, mut table) = (roomy(), [ANY; 7]);
    let mut pair = pair_mut(&mut bytes);
    let first = record(&pair.as_pair());
    let mut index = Index::build(&pair.as_pair(), first, BY_DOCUMENT, &mut table).unwrap();
    let more = [Entry::user_attr(0x75, 0, 0, 4)];
    let done = pair.commit(0, 0, BY_DOCUMENT, ONES, &more, &[7; 4]);
    let done = done.unwrap().record;
    let reader = pair.as_pair();
    let moved = Record {
        pair: [1, 0],
        ..done
    };
    let off = |off| Record { off, ..done };
    let refusals = [
        (moved, Refusal::Invalid),
        (off(47), Refusal::Invalid), // before the old end
        (off(513), Refusal::Invalid),
        (off(79), Refusal::Irregular),
    ];
    for (record, refusal) in refusals {
        let answer = index.extend(&reader, record, BY_DOCUMENT);
        assert_eq!(answer, Err(refusal));
        assert_eq!((index.record(), index.places()), (first, 3));
        assert_eq!(index.table()[..6], LISTED);
    }
    for _ in 0..2 {
        let full = index.extend(&reader, done, BY_DOCUMENT);
        assert_eq!(full, Err(Refusal::TableFull));
        assert_eq!((index.places(), index.table()), (0, &[0; 7][..]));
        assert!(index.slots(&reader).unwrap().next().is_none());
        let none = index.get(&reader, 0x374, 0, &mut []);
        assert_eq!(none, Err(Refusal::NoEntry));
    }
    let answer = Index::build(&reader, done, BY_DOCUMENT, &mut table);
    assert_eq!(answer.unwrap_err(), Refusal::TableFull);
}

/// Behind a compaction the block is another: no extension leads there.
#[test]
fn behind_a_compaction_an_index_is_built_anew() {
    let (mut bytes, mut table) = (*YARD, [ANY; 56]);
    let mut pair = pair_mut(&mut bytes);
    let old = record(&pair.as_pair());
    let mut index = Index::build(&pair.as_pair(), old, BY_DOCUMENT, &mut table).unwrap();
    let new = pair.compact(0, 0, BY_DOCUMENT, ONES).unwrap().record;
    let reader = pair.as_pair();
    let answer = index.extend(&reader, new, BY_DOCUMENT);
    assert_eq!(answer, Err(Refusal::Invalid));
    let tags: Vec<u32> = index.table().iter().copied().step_by(2).collect();
    let index = Index::build(&reader, new, BY_DOCUMENT, &mut table).unwrap();
    assert_eq!(lookups_agree(&reader, &index), 28);
    // The same entries; and a compaction writes them in the table's own order.
    let places: Vec<&[u32]> = index.table().chunks(2).collect();
    assert!(places.iter().map(|place| place[0]).eq(tags));
    assert!(places.windows(2).all(|two| two[0][1] < two[1][1]));
}

/// Another pair than the index is of: what doesn't fit the record is refused.
#[test]
fn slots_want_a_pair_that_fits() {
    let (yard, mut table) = (pair(YARD), [ANY; 56]);
    let index = Index::build(&yard, record(&yard), BY_DOCUMENT, &mut table).unwrap();
    let [b0, b1] = yard.images;
    let others = [
        Pair {
            numbers: [2, 3],
            ..yard
        },
        Pair {
            images: [b0, &b1[..511]],
            ..yard
        },
        pair(LISTING), // its blocks end before the record does
    ];
    for other in others {
        assert_eq!(index.slots(&other).unwrap_err(), Refusal::Invalid);
    }
    // The blocks the other way round are the same pair.
    let turned = Pair {
        images: [b1, b0],
        numbers: [1, 0],
        ..yard
    };
    assert_eq!(slots_agree(&turned, &index), 28);
    // Another log of that size: its bytes, in bounds.
    let blank = [0x20; 1024];
    let slots = index.slots(&pair(&blank)).unwrap();
    let all: usize = slots
        .flat_map(|slot| slot.held())
        .map(|it| it.bytes.len())
        .sum();
    let own: usize = put_there().iter().flatten().map(|it| it.2.len()).sum();
    assert_eq!(all, own);
}

/// A compaction with a table and without: the same answer and bytes; and the table is
/// that of the log before, or as it was.
fn compacted(bytes: &[u8], rules: Rules, erased: Erased, len: usize) -> Result<Fetched, Refusal> {
    let (mut plain, mut with, mut table) = (bytes.to_vec(), bytes.to_vec(), vec![ANY; len]);
    let answer = pair_mut(&mut plain).compact(0, 7, rules, erased);
    let same = pair_mut(&mut with).compact_with(0, 7, rules, erased, &mut table);
    assert_eq!((same, with), (answer, plain), "{len} words");
    let mut expected = vec![ANY; len];
    if matches!(answer, Ok(_) | Err(Refusal::NoSpace | Refusal::Coincidence)) {
        let _ = Index::build(&pair(bytes), record(&pair(bytes)), rules, &mut expected);
        assert!(!expected.contains(&ANY));
    }
    assert_eq!(table, expected, "{len} words");
    answer
}

#[test]
fn a_compaction_with_a_table_is_the_same() {
    // Of the listing, but its deadline is compact-coincidence's of samples/writes/cases.
    let mut coincides = *LISTING;
    coincides[27..31].copy_from_slice(&[0xd2, 0xd9, 0xeb, 0x28]);
    coincides[35..39].copy_from_slice(&[0x3e, 0x7e, 0xf4, 0x8b]);
    // One name of id 1,022 alone: its 1,023 creates have no room.
    let names = include_bytes!("../../../crates/check_edges/data/count-1023");
    let crowded = include_bytes!("../../../crates/check_edges/data/count-1024");
    for len in (0..10).chain(54..60).chain([512, 16384]) {
        for rules in BOTH {
            for erased in [ONES, Erased::Zeros] {
                assert!(compacted(LISTING, rules, erased, len).is_ok());
                assert!(compacted(YARD, rules, erased, len).is_ok());
            }
            let answer = compacted(&coincides, rules, ONES, len);
            assert_eq!(answer, Err(Refusal::Coincidence));
            let answer = compacted(&[0xff; 256], rules, ONES, len);
            assert_eq!(answer, Err(Refusal::Corrupt));
            let answer = compacted(crowded, rules, ONES, len);
            assert!(matches!(answer, Err(Refusal::TooMany(_))));
        }
        for real in REAL {
            assert!(compacted(real, BY_LITTLEFS, ONES, len).is_ok());
        }
        let answer = compacted(names, BY_DOCUMENT, ONES, len);
        assert_eq!(answer, Err(Refusal::Irregular));
        let answer = compacted(names, BY_LITTLEFS, ONES, len);
        assert_eq!(answer, Err(Refusal::NoSpace));
    }
    // Sizes that don't fit.
    let (mut bytes, mut table) = (*LISTING, [ANY; 6]);
    let mut pair = pair_mut(&mut bytes);
    pair.geometry.prog_size = 3;
    let answer = pair.compact_with(0, 0, BY_DOCUMENT, ONES, &mut table);
    assert_eq!((answer, table), (Err(Refusal::Invalid), [ANY; 6]));
}
