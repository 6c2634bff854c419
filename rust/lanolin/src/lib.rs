//! littlefs metadata pairs from Rust: fetch and refetch, lookup, finding by name, an
//! index in memory, commit and compaction of one pair, each proved against its
//! definition, through the C-callable archive `liblanolin.a`, which `./lanolin lib`
//! builds.
//!
//! The deadline of a slot, its user attribute 0x74:
//!
//! ```
//! use lanolin::{Geometry, Gstate, Pair, Tag, MASK_TYPE, TYPE_USERATTR};
//!
//! // Both blocks of the pair, one behind the other.
//! let image = include_bytes!(concat!(env!("CARGO_MANIFEST_DIR"), "/../../samples/q212.pair"));
//! let (b0, b1) = image.split_at(image.len() / 2);
//! let geometry = Geometry { block_size: 128, prog_size: 16 };
//! let pair = Pair { geometry, images: [b0, b1], numbers: [0, 1] };
//!
//! let record = pair.fetch(0, 0)?.record;
//! let mut seconds = [0; 4];
//! let key = Tag::new(TYPE_USERATTR + 0x74, 0, 0);
//! let found = pair.get_slice(record, Gstate::default(), MASK_TYPE, key, 0, &mut seconds)?;
//! assert_eq!((found.size(), u32::from_le_bytes(seconds)), (4, 90_000));
//! # Ok::<(), lanolin::Refusal>(())
//! ```
//!
//! What is proved is said at each call in the words of `docs/PROMISES.md`, which
//! has the theorems' names, what they rest on and what they do not say. The
//! caller owes nothing: every call takes any bytes, numbers and records, ends,
//! and answers bad input with a [`Refusal`], which alters no byte of what was
//! lent, but for the table of an [`Index`]. "Document 01" is what this project calls the rules that it is built to;
//! `docs/FORMAT.md` tells the format, `docs/REFUSALS.md` each refusal and what to
//! do then.
//!
//! The constants are those of `include/lanolin.h` without their `LANOLIN_`. Whole
//! programs are `examples/first.rs`, in ten lines, `examples/deadline.rs`,
//! `examples/find.rs`, which asks by name, `examples/set_deadline.rs`, which
//! writes, `examples/restart.rs`, a controller's restart, and `examples/wheel.rs`,
//! the same from an index.
//!
//! The calls with a limit of stores, which are for trying what a power cut
//! leaves, and most of the leaves are not here; `include/lanolin.h` has them.
//!
//! Assumes that the archive is the one of this repository.

#![no_std]
#![deny(missing_docs, unsafe_code, unsafe_op_in_unsafe_fn)]

mod entry;
mod erased;
mod index;
mod names;
#[allow(unsafe_code)]
mod raw;
mod refusal;
mod rules;

pub use entry::Entry;
pub use erased::Erased;
pub use index::{Held, Holding, Index, Slot, Slots};
pub use names::*;
pub use refusal::Refusal;
pub use rules::Rules;

/// Block size 128 to 32,768, program size 4 to 512, block size a multiple of
/// it; else every call answers [`Refusal::Invalid`].
#[repr(C)]
#[derive(Clone, Copy, Debug, PartialEq, Eq)]
pub struct Geometry {
    /// Bytes of a block.
    pub block_size: u32,
    /// Bytes that the device programs at once: a commit ends at a multiple.
    pub prog_size: u32,
}

/// The record of a pair, as fetch reads it. A lookup reads `pair`, `off` and
/// `etag` alone.
#[derive(Clone, Copy, Debug, PartialEq, Eq)]
pub struct Record {
    /// The answering block's number first.
    pub pair: [u32; 2],
    /// Its revision.
    pub rev: u32,
    /// Where its committed log ends.
    pub off: u32,
    /// The tag there.
    pub etag: u32,
    /// Slots.
    pub count: u16,
    /// The room behind the end passed its forward check. It may still not be
    /// empty.
    pub erased: bool,
    /// The tail is hard: the directory goes on in the pair `tail`.
    pub split: bool,
    /// Two [`BLOCK_NULL`]: none.
    pub tail: [u32; 2],
    /// The last forward check that is committed, in whichever commit of the log;
    /// it decides `erased`.
    pub forward: Option<ForwardCheck>,
}

/// A forward check: what the bytes behind the end of a log were when it was
/// written. A commit carries one of the program unit behind its end, which is
/// erased, so that littlefs appends there; where with its 12 bytes no unit would
/// follow in the block, it is left out.
#[derive(Clone, Copy, Debug, PartialEq, Eq)]
pub struct ForwardCheck {
    /// Of how many bytes: the program size, as this library writes it.
    pub size: u32,
    /// Their checksum, CRC-32 from 0xffffffff without inversion at its end.
    pub sum: u32,
}

/// The global state: three words that XOR. [`Gstate::default`] is no pending
/// move.
#[repr(C)]
#[derive(Clone, Copy, Debug, Default, PartialEq, Eq)]
pub struct Gstate {
    /// A pending move's type and id; the number of orphans.
    pub tag: u32,
    /// The pair of a pending move.
    pub pair: [u32; 2],
}

/// A tag: type 11 bits, id 10 bits, size 10 bits.
#[derive(Clone, Copy, Debug, PartialEq, Eq)]
pub struct Tag(pub u32);

impl Tag {
    /// Masks nothing, as littlefs's macro: what passes a field runs into the
    /// next.
    pub fn new(type_: u32, id: u32, size: u32) -> Tag {
        Tag(raw::mktag(type_, id, size))
    }

    /// The type's upper three bits: its class, [`TYPE_NAME`], [`TYPE_STRUCT`],
    /// [`TYPE_USERATTR`], ..
    pub fn type1(self) -> u32 {
        raw::tag_type1(self.0)
    }

    /// All eleven bits of the type: one of the `TYPE_` names.
    pub fn type3(self) -> u32 {
        raw::tag_type3(self.0)
    }

    /// The slot, or [`NO_SLOT`].
    pub fn id(self) -> u32 {
        raw::tag_id(self.0)
    }

    /// How many bytes of data, or [`REMOVAL`].
    pub fn size(self) -> u32 {
        raw::tag_size(self.0)
    }
}

/// What fetch finds.
#[derive(Clone, Copy, Debug, PartialEq, Eq)]
pub struct Fetched {
    /// The record of the pair.
    pub record: Record,
    /// The seed with the checksums of the answering block's commits added.
    pub seed: u32,
}

/// The entry that a lookup found.
///
/// It is told whole, whatever the lookup's offset and buffer: a buffer that is
/// too short for the data hides nothing.
#[derive(Clone, Copy, Debug, PartialEq, Eq)]
pub struct Found {
    /// Its tag, with the slot's present id.
    pub tag: Tag,
    /// The bytes that it takes in the log: the tag's own four, and its data.
    pub length: u32,
    /// The offset of its first data byte in the block that answers, the record's
    /// `pair[0]`.
    pub off: u32,
}

impl Found {
    /// How many bytes of data it has.
    pub fn size(self) -> usize {
        // A lookup's length is 4 or more; one that a caller made up is no reason
        // to stop.
        self.length.saturating_sub(4) as usize
    }
}

/// What is shown of a slot.
#[derive(Clone, Copy, Debug, PartialEq, Eq)]
pub struct Info {
    /// The name's: [`TYPE_REG`] or [`TYPE_DIR`] in what littlefs writes.
    pub type_: u32,
    /// The file's length; 0 where the struct is neither inline nor CTZ.
    pub size: u32,
    name: [u8; 256],
}

impl Info {
    /// The name, up to its first zero byte, as C has it: at most `name_max` + 1
    /// bytes, so that one byte more than `name_max` says that there are more.
    /// [`Pair::get_slice`] reads a name whole.
    pub fn name(&self) -> &[u8] {
        let end = self.name.iter().position(|&byte| byte == 0);
        &self.name[..end.unwrap_or(self.name.len())]
    }
}

/// A pair to read: the images of two blocks, each `block_size` bytes, and their
/// numbers, which are not equal; else [`Refusal::Invalid`].
#[derive(Clone, Copy, Debug)]
pub struct Pair<'a> {
    /// The sizes.
    pub geometry: Geometry,
    /// The blocks' bytes.
    pub images: [&'a [u8]; 2],
    /// The blocks' numbers, in the same order.
    pub numbers: [u32; 2],
}

impl Pair<'_> {
    /// The newest valid log of the pair. A `block_count` of 0 tests no number.
    ///
    /// Proved: the answer equals `fetchOf`, a definition from littlefs's SPEC.md,
    /// for every input. It is `Invalid` exactly when a size or number is broken,
    /// and `Corrupt` exactly when neither block begins with a valid commit, or a
    /// number is not below a `block_count` that is not 0 (`invalid-exactly`,
    /// `corrupt-exactly`). With more than 1,023 slots it is `TooMany`.
    ///
    /// ```
    /// # use lanolin::{Geometry, Pair, Refusal};
    /// # let image = include_bytes!(concat!(env!("CARGO_MANIFEST_DIR"), "/../../samples/q212.pair"));
    /// # let (b0, b1) = image.split_at(128);
    /// # let geometry = Geometry { block_size: 128, prog_size: 16 };
    /// # let pair = Pair { geometry, images: [b0, b1], numbers: [0, 1] };
    /// let record = pair.fetch(0, 0)?.record;
    /// assert_eq!((record.rev, record.off, record.count), (1, 48, 1));
    ///
    /// let erased = [0xff; 128];
    /// let nothing = Pair { images: [&erased, &erased], ..pair };
    /// assert_eq!(nothing.fetch(0, 0), Err(Refusal::Corrupt));
    /// # Ok::<(), lanolin::Refusal>(())
    /// ```
    pub fn fetch(&self, block_count: u32, seed: u32) -> Result<Fetched, Refusal> {
        let answer = raw::fetch(self, block_count, seed);
        refusal::of_fetch(answer.result, 0, answer.dir.into(), answer.seed)
    }

    /// [`Pair::fetch`] again, from the end of a record that is known: it walks only
    /// what stands behind it, so that after a commit it takes a small part of a
    /// fetch's time. `known` is what an earlier fetch of the pair answered, or a
    /// refetch, a commit or a compaction.
    ///
    /// Proved: the answer equals `refetchOf`, for every input, and that is what a
    /// fetch answers from the seed that the earlier one was given
    /// (`refetch-is-fetch`), as long as both revisions, the other block and, of the
    /// record's block, every byte before its end and in its last checksum are as they
    /// were. So it is behind a commit, of this library or of another writer, also one
    /// that was cut short or refused (`refetch-behind-commit`). **It is not so behind
    /// a compaction**, which alters the other block: take [`PairMut::compact`]'s
    /// answer, or fetch anew; and fetch anew where the pair comes from a device on
    /// which another writer may have compacted it. With any other record the answer is
    /// the definition's, and says nothing of the directory.
    ///
    /// It is [`Refusal::Invalid`] also where the record's end is below 8 or passes the
    /// block, or its pair is not the two numbers, in either order.
    ///
    /// ```
    /// # use lanolin::*;
    /// # let mut image = *include_bytes!(concat!(env!("CARGO_MANIFEST_DIR"), "/../../samples/q212.pair"));
    /// # let (b0, b1) = image.split_at_mut(128);
    /// # let geometry = Geometry { block_size: 128, prog_size: 16 };
    /// # let mut pair = PairMut { geometry, images: [b0, b1], numbers: [0, 1] };
    /// let known = pair.as_pair().fetch(0, 0)?;
    /// let deadline = [Entry::user_attr(0x74, 0, 0, 4)];
    /// let seconds = 3600u32.to_le_bytes();
    /// pair.commit(0, 0, Rules::Document, Erased::Ones, &deadline, &seconds)?;
    /// let now = pair.as_pair().refetch(0, known)?;
    /// assert_eq!((known.record.off, now.record.off), (48, 80));
    /// assert_eq!(Ok(now), pair.as_pair().fetch(0, 0));
    /// # Ok::<(), lanolin::Refusal>(())
    /// ```
    pub fn refetch(&self, block_count: u32, known: Fetched) -> Result<Fetched, Refusal> {
        let answer = raw::refetch(self, block_count, known.seed, known.record);
        refusal::of_fetch(answer.result, 0, answer.dir.into(), answer.seed)
    }

    /// The newest entry that `key` matches under `mask`: its tag, length and
    /// place, and of its data as many bytes from `offset` on as there are and the
    /// buffer holds. The rest of the buffer is zeroed.
    ///
    /// `record` is fetch's of the same images; with another one the answer is
    /// the definition's still, and says nothing of the directory. `gdisk` is the
    /// global state on disk, the XOR of the move states of all pairs
    /// ([`Pair::get_gstate`]): a pending move hides its entry. At most
    /// [`BUFFER_MAX`] bytes of buffer.
    ///
    /// Proved: answer and buffer equal `getsliceOf`; a refusal leaves the buffer
    /// alone (`getslice-refused`). In a log that is regular by either rule, for ids
    /// below the count, no pending move and offset 0, name and struct
    /// ([`MASK_CLASS`]) and user attributes ([`MASK_TYPE`]) are those of the directory machine
    /// (`directory-lookups`). Of ids at or above the count nothing is promised
    /// beyond the definition: such a lookup may find an entry of a deleted slot.
    ///
    /// Proved of what is found, with any bytes and record: it is the same whatever
    /// the offset and the buffer (`found-whole`), its length is 4 plus the tag's
    /// size (`found-length`), its data end at or before the record's end
    /// (`found-inside`), and at offset 0 a buffer of their length gets them
    /// (`found-read`).
    ///
    /// ```
    /// # use lanolin::*;
    /// # let image = include_bytes!(concat!(env!("CARGO_MANIFEST_DIR"), "/../../samples/q212.pair"));
    /// # let (b0, b1) = image.split_at(128);
    /// # let geometry = Geometry { block_size: 128, prog_size: 16 };
    /// # let pair = Pair { geometry, images: [b0, b1], numbers: [0, 1] };
    /// # let record = pair.fetch(0, 0)?.record;
    /// // The name of slot 0, whatever its kind.
    /// let mut name = [0; ATTR_MAX];
    /// let key = Tag::new(TYPE_NAME, 0, 0);
    /// let found = pair.get_slice(record, Gstate::default(), MASK_CLASS, key, 0, &mut name)?;
    /// assert_eq!(found.tag.type3(), TYPE_REG);
    /// assert_eq!(&name[..found.size()], b"q212");
    ///
    /// // Where it stands, with no buffer at all: block 0 answers.
    /// let found = pair.get_slice(record, Gstate::default(), MASK_CLASS, key, 0, &mut [])?;
    /// assert_eq!((found.length, found.off), (8, 12));
    /// assert_eq!(&b0[12..][..found.size()], b"q212");
    ///
    /// // A user attribute that it doesn't have.
    /// let key = Tag::new(TYPE_USERATTR + 0x75, 0, 0);
    /// let none = pair.get_slice(record, Gstate::default(), MASK_TYPE, key, 0, &mut []);
    /// assert_eq!(none, Err(Refusal::NoEntry));
    /// # Ok::<(), lanolin::Refusal>(())
    /// ```
    pub fn get_slice(
        &self,
        record: Record,
        gdisk: Gstate,
        mask: u32,
        key: Tag,
        offset: u32,
        buffer: &mut [u8],
    ) -> Result<Found, Refusal> {
        found(raw::get_slice(
            self, record, gdisk, mask, key.0, offset, buffer,
        ))
    }

    /// As [`Pair::get_slice`] from 0 on, into the buffer's first `key.size()`
    /// bytes: a shorter buffer is [`Refusal::Invalid`].
    ///
    /// Proved: answer and buffer equal `getOf` and `getBuffer`; a refusal leaves
    /// the buffer alone (`get-refused`).
    pub fn get(
        &self,
        record: Record,
        gdisk: Gstate,
        mask: u32,
        key: Tag,
        buffer: &mut [u8],
    ) -> Result<Found, Refusal> {
        found(raw::get(self, record, gdisk, mask, key.0, buffer))
    }

    /// Type, size and name of the slot `id`; with [`NO_SLOT`] those of the root,
    /// `/`. Of the name at most `name_max` + 1 bytes are read; `name_max` is 1 to
    /// [`NAME_MAX`]. The superblock's slot is [`Refusal::NoEntry`].
    ///
    /// Proved: the answer equals `getinfoOf`.
    ///
    /// ```
    /// # use lanolin::*;
    /// # let image = include_bytes!(concat!(env!("CARGO_MANIFEST_DIR"), "/../../samples/q212.pair"));
    /// # let (b0, b1) = image.split_at(128);
    /// # let geometry = Geometry { block_size: 128, prog_size: 16 };
    /// # let pair = Pair { geometry, images: [b0, b1], numbers: [0, 1] };
    /// # let record = pair.fetch(0, 0)?.record;
    /// for id in 0..u32::from(record.count) {
    ///     let info = pair.get_info(record, Gstate::default(), NAME_MAX, id)?;
    ///     assert_eq!((info.type_, info.size, info.name()), (TYPE_REG, 3, &b"q212"[..]));
    /// }
    /// # Ok::<(), lanolin::Refusal>(())
    /// ```
    pub fn get_info(
        &self,
        record: Record,
        gdisk: Gstate,
        name_max: u32,
        id: u32,
    ) -> Result<Info, Refusal> {
        let raw::Info {
            result,
            type_,
            size,
            name,
        } = raw::get_info(self, record, gdisk, name_max, id);
        let type_ = type_.into();
        refusal::of_lookup(result, Info { type_, size, name })
    }

    /// The move state of the pair, XORed into `state`; none found leaves it as
    /// it is.
    ///
    /// Proved: answer and state equal `getgstateOf`; a refusal leaves the state
    /// alone (`getgstate-refused`).
    pub fn get_gstate(
        &self,
        record: Record,
        gdisk: Gstate,
        state: &mut Gstate,
    ) -> Result<(), Refusal> {
        refusal::of_lookup(raw::get_gstate(self, record, gdisk, state), ())
    }

    /// The lowest id whose slot's name has exactly these bytes and this type
    /// ([`TYPE_REG`] of a file, [`TYPE_DIR`] of a directory), or `None`; in one pass
    /// over the block that fetch answers from, whose log is regular by `rules`. An
    /// empty name is [`Refusal::Invalid`]. A type that no name has and a name of
    /// more than [`ATTR_MAX`] bytes are asked for in vain.
    ///
    /// It reads no global state: an entry that a pending move hides from a lookup
    /// is found.
    ///
    /// Proved: the answer equals `findOf`, for every input; a pair that fetch
    /// refuses is refused alike. It is what asking slot by slot gives, where no move
    /// is pending (`find-is-asking`).
    ///
    /// ```
    /// # use lanolin::*;
    /// # let image = include_bytes!(concat!(env!("CARGO_MANIFEST_DIR"), "/../../samples/q212.pair"));
    /// # let (b0, b1) = image.split_at(128);
    /// # let geometry = Geometry { block_size: 128, prog_size: 16 };
    /// # let pair = Pair { geometry, images: [b0, b1], numbers: [0, 1] };
    /// let rules = Rules::Littlefs; // the pair may be one that littlefs compacted
    /// assert_eq!(pair.find(0, 0, rules, b"q212", TYPE_REG)?, Some(0));
    /// // No directory has the name, and no file the first part of it.
    /// assert_eq!(pair.find(0, 0, rules, b"q212", TYPE_DIR)?, None);
    /// assert_eq!(pair.find(0, 0, rules, b"q21", TYPE_REG)?, None);
    /// # Ok::<(), lanolin::Refusal>(())
    /// ```
    pub fn find(
        &self,
        block_count: u32,
        seed: u32,
        rules: Rules,
        name: &[u8],
        type_: u32,
    ) -> Result<Option<u32>, Refusal> {
        let named = raw::find(self, block_count, seed, rules.number(), name, type_);
        if named.result == ERR_NOENT {
            // Fetch's own refusal, which comes with what fetch read.
            self.fetch(block_count, seed)?;
        }
        refusal::of_lookup(named.result, named.found.then_some(named.id))
    }
}

/// The answer of the lookups of an entry, and of an index.
fn found(got: raw::Got) -> Result<Found, Refusal> {
    let raw::Got {
        result,
        tag,
        length,
        off,
    } = got;
    let tag = Tag(tag);
    refusal::of_lookup(result, Found { tag, length, off })
}

/// A pair to write: as [`Pair`], with images that are altered where they stand.
///
/// The images are memory. Who keeps the pair on a device brings it there: the
/// bytes that changed, rising and one after the other, and before those of a
/// compaction the erase. What is proved of a power cut is said of stores of one
/// byte, made in that order.
#[derive(Debug)]
pub struct PairMut<'a> {
    /// The sizes.
    pub geometry: Geometry,
    /// The blocks' bytes.
    pub images: [&'a mut [u8]; 2],
    /// The blocks' numbers, in the same order.
    pub numbers: [u32; 2],
}

impl PairMut<'_> {
    /// The same pair, to read.
    pub fn as_pair(&self) -> Pair<'_> {
        let [b0, b1] = &self.images;
        Pair {
            geometry: self.geometry,
            images: [b0, b1],
            numbers: self.numbers,
        }
    }

    /// One commit of all the entries, appended to the block that answers, whose
    /// log is regular by `rules`, on flash that reads as `erased` after an erase.
    /// Gives what a fetch of the finished pair from the same seed gives. At most
    /// [`ENTRIES_MAX`] entries and [`DATA_MAX`] bytes of data. Behind the entries
    /// stands a [`ForwardCheck`], where one fits.
    ///
    /// Proved: it is accepted exactly when document 01, the rules and the erased
    /// byte say (`commit-accepted-exactly`), and lays down exactly its bytes; a
    /// refused commit alters no byte (`commit-all-refused`). Stopped after any
    /// number of its stores the pair reads as finished or as never begun; only the
    /// old record's erased mark may differ (`commit-stopped`).
    ///
    /// After a stop the room may be torn: `NotErased`, until [`PairMut::compact`]. Who
    /// has the record from before the commit reads the pair by [`Pair::refetch`].
    ///
    /// ```
    /// # use lanolin::*;
    /// # let mut image = *include_bytes!(concat!(env!("CARGO_MANIFEST_DIR"), "/../../samples/q212.pair"));
    /// # let (b0, b1) = image.split_at_mut(128);
    /// # let geometry = Geometry { block_size: 128, prog_size: 16 };
    /// # let mut pair = PairMut { geometry, images: [b0, b1], numbers: [0, 1] };
    /// // A new deadline for slot 0. A block that is full, or was torn by a power
    /// // cut, is compacted, and then it is tried once more.
    /// let deadline = [Entry::user_attr(0x74, 0, 0, 4)];
    /// let seconds = 3600u32.to_le_bytes();
    /// let rules = Rules::Littlefs; // the pair may be one that littlefs compacted
    /// let erased = Erased::Ones; // of this board's flash
    /// let record = match pair.commit(0, 0, rules, erased, &deadline, &seconds) {
    ///     Err(refusal) if refusal.needs_compaction() => {
    ///         pair.compact(0, 0, rules, erased)?;
    ///         pair.commit(0, 0, rules, erased, &deadline, &seconds)?
    ///     }
    ///     other => other?,
    /// }
    /// .record;
    /// assert_eq!((record.rev, record.off), (1, 80));
    /// // littlefs sees that the 16 bytes behind it are erased.
    /// assert_eq!((record.erased, record.forward.map(|check| check.size)), (true, Some(16)));
    /// # Ok::<(), lanolin::Refusal>(())
    /// ```
    pub fn commit(
        &mut self,
        block_count: u32,
        seed: u32,
        rules: Rules,
        erased: Erased,
        entries: &[Entry],
        data: &[u8],
    ) -> Result<Fetched, Refusal> {
        let (rules, erased) = (rules.number(), erased.byte());
        let answer = raw::commit(self, block_count, seed, rules, erased, entries, data);
        refusal::of_fetch(answer.result, answer.index, answer.dir.into(), answer.seed)
    }

    /// All that the pair holds, whose log is regular by `rules`, as one commit in
    /// the other block, which is erased first, to `erased`, under the next revision:
    /// of each slot a create, its name, its struct and its user attributes. Gives
    /// what a fetch of the finished pair from the same seed gives. It carries a
    /// [`ForwardCheck`] as a commit does.
    ///
    /// A full block that littlefs compacted has no creates, and may have no room
    /// for them: [`Refusal::NoSpace`].
    ///
    /// Proved: it is accepted exactly when document 01 and the rules say
    /// (`compact-accepted-exactly`), and lays down exactly its bytes; a refused
    /// compaction alters no byte (`compact-all-refused`). The finished pair shows
    /// the same directory. Stopped after any number of its stores, the erase
    /// being the first, the pair reads as finished or as never begun
    /// (`compact-stopped`).
    ///
    /// ```
    /// # use lanolin::*;
    /// # let mut image = *include_bytes!(concat!(env!("CARGO_MANIFEST_DIR"), "/../../samples/q212.pair"));
    /// # let (b0, b1) = image.split_at_mut(128);
    /// # let geometry = Geometry { block_size: 128, prog_size: 16 };
    /// # let mut pair = PairMut { geometry, images: [b0, b1], numbers: [0, 1] };
    /// let record = pair.compact(0, 0, Rules::Document, Erased::Ones)?.record;
    /// assert_eq!((record.pair, record.rev, record.count), ([1, 0], 2, 1));
    /// # Ok::<(), lanolin::Refusal>(())
    /// ```
    pub fn compact(
        &mut self,
        block_count: u32,
        seed: u32,
        rules: Rules,
        erased: Erased,
    ) -> Result<Fetched, Refusal> {
        let (rules, erased) = (rules.number(), erased.byte());
        let answer = raw::compact(self, block_count, seed, rules, erased);
        refusal::of_fetch(answer.result, answer.index, answer.dir.into(), answer.seed)
    }

    /// [`PairMut::compact`] with a table lent as working memory, of any length and
    /// with any words: the same images and the same answer, and sooner where the table
    /// has places enough for an [`Index`] of the pair. Where it has not, the old way is
    /// taken.
    ///
    /// Behind the call the table is as [`Index::build`] leaves it for the log that was
    /// compacted, also where there is no way to write it
    /// ([`Refusal::NoSpace`], [`Refusal::Coincidence`]): all zero where that would be
    /// [`Refusal::TableFull`]. With any other refusal it is as it was. It is not the index
    /// of the new block, which is built anew.
    ///
    /// Proved: images and answer are those of [`PairMut::compact`], whatever the table,
    /// and the table behind it equals `compactTable`.
    ///
    /// ```
    /// # use lanolin::*;
    /// # let mut image = *include_bytes!(concat!(env!("CARGO_MANIFEST_DIR"), "/../../samples/q212.pair"));
    /// # let (b0, b1) = image.split_at_mut(128);
    /// # let geometry = Geometry { block_size: 128, prog_size: 16 };
    /// # let mut pair = PairMut { geometry, images: [b0, b1], numbers: [0, 1] };
    /// let (rules, mut table) = (Rules::Document, [0; 64]);
    /// let record = pair.compact_with(0, 0, rules, Erased::Ones, &mut table)?.record;
    /// assert_eq!((record.pair, record.rev, record.count), ([1, 0], 2, 1));
    /// let index = Index::build(&pair.as_pair(), record, rules, &mut table)?;
    /// # assert_eq!(index.places(), 3);
    /// # Ok::<(), lanolin::Refusal>(())
    /// ```
    pub fn compact_with(
        &mut self,
        block_count: u32,
        seed: u32,
        rules: Rules,
        erased: Erased,
        table: &mut [u32],
    ) -> Result<Fetched, Refusal> {
        let (rules, erased) = (rules.number(), erased.byte());
        let answer = raw::compact_with(self, block_count, seed, rules, erased, table);
        refusal::of_fetch(answer.result, answer.index, answer.dir.into(), answer.seed)
    }
}
