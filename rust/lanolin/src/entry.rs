//! The entries of a commit: one constructor for each kind that document 01
//! lets a commit have. Nothing is tested here; a bad entry is the commit's to
//! refuse, with its index.

use crate::names::*;

/// An entry of a commit: `len` bytes of the commit's data from `off` on. The
/// functions below make every kind that a commit takes; any other entry is
/// [`Refusal::BadEntry`](crate::Refusal::BadEntry), and so is one whose data
/// pass the buffer.
///
/// Entries take effect one after the other. An id is below the number of slots,
/// as the entries before leave it.
///
/// ```
/// use lanolin::Entry;
///
/// // A new instruction in slot 1: its name, its payload, its deadline.
/// let data = [b"q213", &b"lift 7"[..], &3600u32.to_le_bytes()].concat();
/// let entries = [
///     Entry::create(1),
///     Entry::file_name(1, 0, 4),
///     Entry::inline_struct(1, 4, 6),
///     Entry::user_attr(0x74, 1, 10, 4),
/// ];
/// # use lanolin::{Erased, Geometry, PairMut, Rules};
/// # let mut image = *include_bytes!(concat!(env!("CARGO_MANIFEST_DIR"), "/../../samples/q212.pair"));
/// # let (b0, b1) = image.split_at_mut(128);
/// # let geometry = Geometry { block_size: 128, prog_size: 16 };
/// # let mut pair = PairMut { geometry, images: [b0, b1], numbers: [0, 1] };
/// let (rules, erased) = (Rules::Document, Erased::Ones);
/// let record = pair.commit(0, 0, rules, erased, &entries, &data)?.record;
/// assert_eq!(record.count, 2);
/// # Ok::<(), lanolin::Refusal>(())
/// ```
#[repr(C)]
#[derive(Clone, Copy, Debug, PartialEq, Eq)]
pub struct Entry {
    /// One of the `TYPE_` names.
    pub type_: u16,
    /// The slot, or [`NO_SLOT`].
    pub id: u16,
    /// Where its data begin in the commit's.
    pub off: u32,
    /// How many they are. [`REMOVAL`] removes a user attribute, and has none.
    pub len: u32,
}

impl Entry {
    const fn new(type_: u32, id: u16, off: u32, len: u32) -> Entry {
        Entry {
            type_: type_ as u16,
            id,
            off,
            len,
        }
    }

    /// A slot comes in at `id`, and those from there on move up by one. The id
    /// is at most the number of slots, which stays at most [`SLOTS_MAX`].
    pub const fn create(id: u16) -> Entry {
        Entry::new(TYPE_CREATE, id, 0, 0)
    }

    /// The slot goes, and those behind it move down by one.
    pub const fn delete(id: u16) -> Entry {
        Entry::new(TYPE_DELETE, id, 0, 0)
    }

    /// The name of a file, 1 to [`ATTR_MAX`] bytes.
    pub const fn file_name(id: u16, off: u32, len: u32) -> Entry {
        Entry::new(TYPE_REG, id, off, len)
    }

    /// The name of a directory, 1 to [`ATTR_MAX`] bytes.
    pub const fn dir_name(id: u16, off: u32, len: u32) -> Entry {
        Entry::new(TYPE_DIR, id, off, len)
    }

    /// A directory's struct: the two numbers of its pair, little-endian.
    pub const fn dir_struct(id: u16, off: u32) -> Entry {
        Entry::new(TYPE_DIRSTRUCT, id, off, 8)
    }

    /// A file's bytes, 0 to [`ATTR_MAX`] of them.
    pub const fn inline_struct(id: u16, off: u32, len: u32) -> Entry {
        Entry::new(TYPE_INLINESTRUCT, id, off, len)
    }

    /// The struct of a file in blocks of its own: its last block and its
    /// length, little-endian.
    pub const fn ctz_struct(id: u16, off: u32) -> Entry {
        Entry::new(TYPE_CTZSTRUCT, id, off, 8)
    }

    /// The user attribute of the byte `attr`, 0 to [`ATTR_MAX`] bytes. A length
    /// of [`REMOVAL`], one more, is [`Entry::remove_attr`].
    pub const fn user_attr(attr: u8, id: u16, off: u32, len: u32) -> Entry {
        Entry::new(TYPE_USERATTR + attr as u32, id, off, len)
    }

    /// The user attribute of the byte `attr` goes.
    pub const fn remove_attr(attr: u8, id: u16) -> Entry {
        Entry::new(TYPE_USERATTR + attr as u32, id, 0, REMOVAL)
    }

    /// The tail to another directory: two block numbers, little-endian.
    pub const fn soft_tail(off: u32) -> Entry {
        Entry::new(TYPE_SOFTTAIL, NO_SLOT as u16, off, 8)
    }

    /// The tail to the rest of the same directory: two block numbers,
    /// little-endian.
    pub const fn hard_tail(off: u32) -> Entry {
        Entry::new(TYPE_HARDTAIL, NO_SLOT as u16, off, 8)
    }

    /// The pair's part of the global state: its three words, little-endian.
    pub const fn move_state(off: u32) -> Entry {
        Entry::new(TYPE_MOVESTATE, NO_SLOT as u16, off, 12)
    }
}
