//! The names of `include/lanolin.h` without their `LANOLIN_`, with the same
//! numbers: the test `the_names_are_the_header_s` holds one against the other.
//!
//! What counts memory is a `usize`, a result an `i32`, an erased byte a `u8`, every
//! other name a `u32`, as the calls take and give them.

/// The version of the header, major number.
pub const VERSION_MAJOR: u32 = 0;
/// The version of the header, minor number.
pub const VERSION_MINOR: u32 = 9;
/// Both: the major number in the upper half, the minor in the lower.
pub const VERSION: u32 = VERSION_MAJOR << 16 | VERSION_MINOR;

/// The archive's result where nothing was refused.
pub const OK: i32 = 0;
/// The number of [`Refusal::Invalid`](crate::Refusal::Invalid).
pub const ERR_INVAL: i32 = -22;
/// The number of [`Refusal::Corrupt`](crate::Refusal::Corrupt).
pub const ERR_CORRUPT: i32 = -84;
/// The number of [`Refusal::NoEntry`](crate::Refusal::NoEntry) and of
/// [`Refusal::TooMany`](crate::Refusal::TooMany).
pub const ERR_NOENT: i32 = -2;
/// The number of [`Refusal::NoSpace`](crate::Refusal::NoSpace).
pub const ERR_NOSPC: i32 = -28;
/// The number of [`Refusal::BadEntry`](crate::Refusal::BadEntry).
pub const ERR_BADENTRY: i32 = -201;
/// The number of [`Refusal::Irregular`](crate::Refusal::Irregular).
pub const ERR_IRREGULAR: i32 = -202;
/// The number of [`Refusal::Misaligned`](crate::Refusal::Misaligned).
pub const ERR_MISALIGNED: i32 = -211;
/// The number of [`Refusal::WrongValidity`](crate::Refusal::WrongValidity).
pub const ERR_VALIDITY: i32 = -212;
/// The number of [`Refusal::NotErased`](crate::Refusal::NotErased).
pub const ERR_NOTERASED: i32 = -213;
/// The number of [`Refusal::Coincidence`](crate::Refusal::Coincidence).
pub const ERR_COINCIDENCE: i32 = -204;
/// The number of [`Refusal::TableFull`](crate::Refusal::TableFull).
pub const ERR_TABLE: i32 = -221;

/// The class of names.
pub const TYPE_NAME: u32 = 0x000;
/// The name of a file.
pub const TYPE_REG: u32 = 0x001;
/// The name of a directory.
pub const TYPE_DIR: u32 = 0x002;
/// The name of the superblock. It is read, but not written.
pub const TYPE_SUPERBLOCK: u32 = 0x0ff;
/// The class of structs, which say where the contents are.
pub const TYPE_STRUCT: u32 = 0x200;
/// The struct of a directory: the two block numbers of its pair.
pub const TYPE_DIRSTRUCT: u32 = 0x200;
/// The struct of a file whose bytes stand in the log: these bytes.
pub const TYPE_INLINESTRUCT: u32 = 0x201;
/// The struct of a file in blocks of its own: its last block and its length.
pub const TYPE_CTZSTRUCT: u32 = 0x202;
/// The class of user attributes: plus a byte of the user's choice.
pub const TYPE_USERATTR: u32 = 0x300;
/// The class of creates and deletes.
pub const TYPE_SPLICE: u32 = 0x400;
/// A slot comes in; those from its id on move up.
pub const TYPE_CREATE: u32 = 0x401;
/// A slot goes; those behind it move down.
pub const TYPE_DELETE: u32 = 0x4ff;
/// The check that closes a commit, of whose type the upper four bits count. The
/// commit makes it.
pub const TYPE_CCRC: u32 = 0x500;
/// The forward check of the room behind a commit. The commit makes it.
pub const TYPE_FCRC: u32 = 0x5ff;
/// The class of tails: the two block numbers of the next pair.
pub const TYPE_TAIL: u32 = 0x600;
/// A tail to another directory.
pub const TYPE_SOFTTAIL: u32 = 0x600;
/// A tail to the rest of the same directory.
pub const TYPE_HARDTAIL: u32 = 0x601;
/// The pair's part of the global state: three words.
pub const TYPE_MOVESTATE: u32 = 0x7ff;

/// The mask of a lookup that asks for this type exactly, of this slot: a user
/// attribute.
pub const MASK_TYPE: u32 = 0x7ffffc00;
/// The mask of a lookup that asks for any type of the same class, of this slot:
/// the name, the struct.
pub const MASK_CLASS: u32 = 0x700ffc00;

/// The number of [`Rules::Document`](crate::Rules::Document).
pub const RULES_DOCUMENT: u32 = 0;
/// The number of [`Rules::Littlefs`](crate::Rules::Littlefs).
pub const RULES_LITTLEFS: u32 = 1;

/// The byte of [`Erased::Ones`](crate::Erased::Ones).
pub const ERASED_ONES: u8 = 0xff;
/// The byte of [`Erased::Zeros`](crate::Erased::Zeros).
pub const ERASED_ZEROS: u8 = 0x00;

/// The id of what belongs to no slot: tails, the move state, the root.
pub const NO_SLOT: u32 = 0x3ff;
/// The length that removes a user attribute; a tag of this size has no data.
pub const REMOVAL: u32 = 0x3ff;
/// The number of no block.
pub const BLOCK_NULL: u32 = 0xffffffff;

/// The most bytes of a name, an inline file or a user attribute that is written.
pub const ATTR_MAX: usize = 1022;
/// The most slots of a pair.
pub const SLOTS_MAX: usize = 1023;
/// The largest `name_max` of [`Pair::get_info`](crate::Pair::get_info).
pub const NAME_MAX: u32 = 255;
/// The most bytes of a lookup's buffer.
pub const BUFFER_MAX: usize = 65536;
/// The most entries of a commit.
pub const ENTRIES_MAX: usize = 8192;
/// The most bytes of their data.
pub const DATA_MAX: usize = 65536;
