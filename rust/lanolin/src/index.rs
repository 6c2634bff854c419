//! An index in memory in place of the backward walk: where each live entry of a
//! log stands, in a table of words that the caller lends, and the slots and what
//! they hold, from one pass over it.

use crate::names::*;
use crate::{found, raw, refusal, Found, Pair, Record, Refusal, Rules, Tag};
use core::slice::ChunksExact;

/// Where every live name, struct and user attribute of a pair stands, in a table
/// that the caller lends.
///
/// A lookup walks the log back, once for each entry that is asked for. An index is
/// built in one pass over the log; then an entry is found by halving
/// ([`Index::get`]), or all of them slot by slot ([`Index::slots`]).
///
/// A place of the table is two words: the entry's tag with the slot's present id,
/// and the offset of its first data byte in the block that answers, the record's
/// `pair[0]`. Places are sorted by id, and in a slot the name comes first, then the
/// struct, then the attributes by rising type. A slot that has none of them, a tail,
/// the move state and a forward check take no place. Places that are not in use, and
/// an odd last word, are zero. An entry takes four bytes of the log or more, so that
/// a table of `block_size / 2` words is always long enough.
///
/// It reads no global state: what a pending move hides from a lookup has its place.
///
/// An index is of one block's log up to one end, [`Index::record`]. Behind a commit
/// [`Index::extend`] brings it on; behind a compaction the block is another, and it
/// is built anew.
///
/// ```
/// use lanolin::{Geometry, Index, Pair, Rules};
///
/// # let image = include_bytes!(concat!(env!("CARGO_MANIFEST_DIR"), "/../../samples/q212.pair"));
/// # let (b0, b1) = image.split_at(128);
/// # let geometry = Geometry { block_size: 128, prog_size: 16 };
/// # let pair = Pair { geometry, images: [b0, b1], numbers: [0, 1] };
/// let record = pair.fetch(0, 0)?.record;
/// let mut table = [0; 64]; // 32 places
/// let index = Index::build(&pair, record, Rules::Littlefs, &mut table)?;
/// assert_eq!(index.places(), 3);
/// for slot in index.slots(&pair)? {
///     let name = slot.name().map(|name| name.bytes);
///     let deadline = slot.attr(0x74).map(|deadline| deadline.bytes);
///     assert_eq!((slot.id(), name, deadline), (0, Some(&b"q212"[..]), Some(&[0x90, 0x5f, 1, 0][..])));
/// }
/// # Ok::<(), lanolin::Refusal>(())
/// ```
#[derive(Debug)]
pub struct Index<'t> {
    table: &'t mut [u32],
    record: Record,
    places: usize,
    /// An extension found no place: the table is zero, and of no record.
    full: bool,
}

impl<'t> Index<'t> {
    /// The index of the log that ends at the record's end, which is regular by
    /// `rules`. The table may have any length and any words.
    ///
    /// It is [`Refusal::Invalid`] as a lookup is: sizes and numbers, a record of
    /// another pair, an end past the block. It is [`Refusal::Irregular`] where the log
    /// is not regular by the rules, or no commit of it ends there. Both leave the table
    /// as it was. And it is [`Refusal::TableFull`] where after some entry of the log
    /// more are live than the table has places: what was live at one time counts, and
    /// not what is at the end. **The table is then all zero**; lend a longer one.
    ///
    /// Proved: answer and table equal `indexOf` and `indexTable`, for every input.
    /// The table is a function of the log and of its own length: two builds can't
    /// differ.
    ///
    /// ```
    /// # use lanolin::*;
    /// # let image = include_bytes!(concat!(env!("CARGO_MANIFEST_DIR"), "/../../samples/q212.pair"));
    /// # let (b0, b1) = image.split_at(128);
    /// # let geometry = Geometry { block_size: 128, prog_size: 16 };
    /// # let pair = Pair { geometry, images: [b0, b1], numbers: [0, 1] };
    /// let record = pair.fetch(0, 0)?.record;
    /// // A table that is too short is answered by one that is longer.
    /// let mut table = vec![0; 2];
    /// let index = loop {
    ///     match Index::build(&pair, record, Rules::Littlefs, &mut table) {
    ///         Err(Refusal::TableFull) => table.resize(2 * table.len(), 0),
    ///         built => break built?,
    ///     }
    /// };
    /// // Name, struct and deadline, and where their bytes stand; the rest is zero.
    /// let expected = [0x00100004, 12, 0x20100003, 20, 0x37400004, 27, 0, 0];
    /// assert_eq!(index.table(), expected);
    /// # Ok::<(), lanolin::Refusal>(())
    /// ```
    pub fn build(
        pair: &Pair,
        record: Record,
        rules: Rules,
        table: &'t mut [u32],
    ) -> Result<Index<'t>, Refusal> {
        let answer = raw::index(pair, record, rules.number(), table);
        let places = refusal::of_lookup(answer.result, answer.places)? as usize;
        Ok(Index {
            table,
            record,
            places,
            full: false,
        })
    }

    /// The index brought on to a later end of the same log, as behind a commit:
    /// `record` is what the commit, or a [`Pair::refetch`], answered.
    ///
    /// Proved: answer and table equal `extendOf` and `extendTable`, and where the bytes
    /// before the old end are as they were when it was built, these are what a build for
    /// `record` gives (`index-extends`); behind a commit they are so
    /// (`index-behind-commit`).
    ///
    /// It is refused as [`Index::build`] is, and [`Refusal::Invalid`] also where the two
    /// records are not of one block, as behind a compaction, or the new end is before the
    /// old one. With these, and with [`Refusal::Irregular`], the index is as it was. With
    /// [`Refusal::TableFull`] it has nothing any more, and every later call of this is
    /// refused so too, as a build would be: lend a longer table.
    ///
    /// ```
    /// # use lanolin::*;
    /// # let mut image = *include_bytes!(concat!(env!("CARGO_MANIFEST_DIR"), "/../../samples/q212.pair"));
    /// # let (b0, b1) = image.split_at_mut(128);
    /// # let geometry = Geometry { block_size: 128, prog_size: 16 };
    /// # let mut pair = PairMut { geometry, images: [b0, b1], numbers: [0, 1] };
    /// let (rules, record) = (Rules::Littlefs, pair.as_pair().fetch(0, 0)?.record);
    /// let mut table = [0; 64];
    /// let mut index = Index::build(&pair.as_pair(), record, rules, &mut table)?;
    /// let deadline = [Entry::user_attr(0x74, 0, 0, 4)];
    /// let done = pair.commit(0, 0, rules, Erased::Ones, &deadline, &3600u32.to_le_bytes())?;
    /// index.extend(&pair.as_pair(), done.record, rules)?;
    /// let mut seconds = [0; 4];
    /// index.get(&pair.as_pair(), TYPE_USERATTR + 0x74, 0, &mut seconds)?;
    /// assert_eq!(u32::from_le_bytes(seconds), 3600);
    /// # Ok::<(), lanolin::Refusal>(())
    /// ```
    pub fn extend(&mut self, pair: &Pair, record: Record, rules: Rules) -> Result<(), Refusal> {
        if self.full {
            return Err(Refusal::TableFull);
        }
        let answer = raw::index_extend(pair, self.record, record, rules.number(), self.table);
        match refusal::of_lookup(answer.result, answer.places) {
            Ok(places) => (self.record, self.places) = (record, places as usize),
            Err(Refusal::TableFull) => {
                (self.places, self.full) = (0, true);
                return Err(Refusal::TableFull);
            }
            Err(refusal) => return Err(refusal),
        }
        Ok(())
    }

    /// The entry of the slot `id`, found by halving, and of its data as many bytes as
    /// there are and the buffer holds; the rest of the buffer is zeroed. Any type from
    /// 0x000 to 0x0ff asks for the name, any from 0x200 to 0x2ff for the struct, 0x300 to
    /// 0x3ff for that user attribute; of any other there is [`Refusal::NoEntry`]. At
    /// most [`BUFFER_MAX`] bytes of buffer.
    ///
    /// Proved: answer and buffer equal `indexGetOf` and `indexGetBuffer`; and for ids
    /// below the record's count and no pending move they are those of
    /// [`Pair::get_slice`] with this record, from offset 0, by [`MASK_CLASS`] for a name
    /// or a struct and by [`MASK_TYPE`] for an attribute (`index-answers`).
    ///
    /// `pair` is the pair that the index was built of; of any other the answer is the
    /// definition's still, in the bounds of its block.
    pub fn get(
        &self,
        pair: &Pair,
        type_: u32,
        id: u32,
        buffer: &mut [u8],
    ) -> Result<Found, Refusal> {
        found(raw::index_get(
            pair,
            self.record,
            self.table,
            type_,
            id,
            buffer,
        ))
    }

    /// The slots in the order of their ids, each with what it holds, from one pass over
    /// the table. A slot that holds nothing is not among them.
    ///
    /// `pair` is the pair that the index was built of. One whose sizes or numbers don't
    /// fit the record is [`Refusal::Invalid`]; of another that does, the bytes are those
    /// that stand there.
    pub fn slots<'b>(&self, pair: &Pair<'b>) -> Result<Slots<'_, 'b>, Refusal> {
        // A table of no words has nothing, so this tests the record, as a lookup does.
        if raw::index_get(pair, self.record, &[], TYPE_NAME, 0, &mut []).result == ERR_INVAL {
            return Err(Refusal::Invalid);
        }
        let [b0, b1] = pair.images;
        let first = self.record.pair[0] == pair.numbers[0];
        Ok(Slots {
            places: &self.table[..2 * self.places],
            block: if first { b0 } else { b1 },
        })
    }

    /// How many places of the table are in use.
    pub fn places(&self) -> usize {
        self.places
    }

    /// The record whose log it is of, of which pair and end count.
    pub fn record(&self) -> Record {
        self.record
    }

    /// The table: two words for each place, and zeros behind those in use.
    pub fn table(&self) -> &[u32] {
        self.table
    }
}

/// The slots of an [`Index`] that hold something.
#[derive(Clone, Debug)]
pub struct Slots<'i, 'b> {
    places: &'i [u32],
    block: &'b [u8],
}

impl<'i, 'b> Iterator for Slots<'i, 'b> {
    type Item = Slot<'i, 'b>;

    fn next(&mut self) -> Option<Slot<'i, 'b>> {
        let id = Tag(*self.places.first()?).id();
        let own = counted(self.places, |tag| tag.id() == id);
        let (places, behind) = self.places.split_at(2 * own);
        self.places = behind;
        let block = self.block;
        Some(Slot { id, places, block })
    }
}

/// A slot of an [`Index`]: its id, and what it holds.
#[derive(Clone, Copy, Debug)]
pub struct Slot<'i, 'b> {
    id: u32,
    places: &'i [u32],
    block: &'b [u8],
}

impl<'i, 'b> Slot<'i, 'b> {
    /// Its id: the slots of a pair are numbered from 0 on.
    pub fn id(&self) -> u32 {
        self.id
    }

    /// All that it holds: its name, its struct, its user attributes by rising type.
    pub fn held(&self) -> Holding<'i, 'b> {
        self.from(0)
    }

    /// Its name, of whichever type: [`TYPE_REG`], [`TYPE_DIR`], [`TYPE_SUPERBLOCK`].
    pub fn name(&self) -> Option<Held<'b>> {
        self.held().find(|held| held.tag.type1() == TYPE_NAME)
    }

    /// Its struct, of whichever type: where the contents are.
    pub fn struct_(&self) -> Option<Held<'b>> {
        self.held().find(|held| held.tag.type1() == TYPE_STRUCT)
    }

    /// Its user attribute of the byte `attr`.
    pub fn attr(&self, attr: u8) -> Option<Held<'b>> {
        let type_ = TYPE_USERATTR + u32::from(attr);
        self.attrs().find(|held| held.tag.type3() == type_)
    }

    /// Its user attributes, by rising type.
    pub fn attrs(&self) -> Holding<'i, 'b> {
        self.from(counted(self.places, |tag| tag.type1() != TYPE_USERATTR))
    }

    fn from(&self, place: usize) -> Holding<'i, 'b> {
        Holding {
            places: self.places[2 * place..].chunks_exact(2),
            block: self.block,
        }
    }
}

/// What a slot holds, one after the other.
#[derive(Clone, Debug)]
pub struct Holding<'i, 'b> {
    places: ChunksExact<'i, u32>,
    block: &'b [u8],
}

impl<'b> Iterator for Holding<'_, 'b> {
    type Item = Held<'b>;

    fn next(&mut self) -> Option<Held<'b>> {
        let place = self.places.next()?;
        let (tag, off) = (Tag(place[0]), place[1]);
        // The data of a place end at or before the record's end, which is in the block.
        let behind = self.block.get(off as usize..).unwrap_or_default();
        let bytes = behind.get(..tag.size() as usize).unwrap_or_default();
        Some(Held { tag, off, bytes })
    }
}

/// A name, a struct or a user attribute that a slot holds.
#[derive(Clone, Copy, Debug, PartialEq, Eq)]
pub struct Held<'b> {
    /// Its tag, with the slot's present id: type, id and size.
    pub tag: Tag,
    /// The offset of its first data byte in the block that answers, the record's
    /// `pair[0]`.
    pub off: u32,
    /// Its data, where they stand in that block.
    pub bytes: &'b [u8],
}

/// How many of the first places have such tags.
fn counted(places: &[u32], has: impl Fn(Tag) -> bool) -> usize {
    let tags = places.chunks_exact(2).map(|place| Tag(place[0]));
    tags.take_while(|&tag| has(tag)).count()
}
