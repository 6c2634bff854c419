/* lanolin.h: the proved littlefs metadata calls, from C (C99 or later) and C++ (C++11 or later). Link with
 * target/staticlib/liblanolin.a, x86-64, which `./lanolin lib` builds.
 *
 * Every call takes any bytes, numbers and records, and ends. A result is LANOLIN_OK or one of the LANOLIN_ERR_
 * refusals, and a refused call alters no byte of what it was lent. The one exception is the table of an index: with
 * LANOLIN_ERR_TABLE it is all zero, and lanolin_compact_with has used it also where it then can't write.
 *
 * The caller's duties, all of them: a pointer is valid for its count (null with count 0 is allowed), lent buffers do
 * not overlap each other, and a bool is 0 or 1.
 *
 * "Document 01" is what this project calls the rules that it is built to: which sizes are taken, what is read, what may
 * be written, what is refused. docs/FORMAT.md tells the format, docs/REFUSALS.md each refusal and what to do then. */
#ifndef LANOLIN_H
#define LANOLIN_H

#include <stdbool.h>
#include <stddef.h>
#include <stdint.h>

#ifdef __cplusplus
extern "C" {
#endif

/* ---- names: the results, the types of entries, the masks of a lookup, and the limits */

/* The version, as littlefs has its own: the major number in the upper half, the minor in the lower. 0.9 adds the index:
 * lanolin_index, lanolin_index_extend, lanolin_index_get and lanolin_compact_with, and LANOLIN_ERR_TABLE. With 0.8 the
 * writing calls take the erased byte, right behind `rules`, and LANOLIN_ERR_TOPBIT is LANOLIN_ERR_VALIDITY: callers of
 * 0.7 and before are altered there. 0.7 adds lanolin_refetch. With 0.6 lanolin_mdir has the forward check at its end:
 * callers of 0.5 and before are compiled again. */
#define LANOLIN_VERSION_MAJOR 0
#define LANOLIN_VERSION_MINOR 9
#define LANOLIN_VERSION (LANOLIN_VERSION_MAJOR << 16 | LANOLIN_VERSION_MINOR)

/* Results. The first four refusals are littlefs's LFS_ERR_ numbers, the others are this project's own. */
#define LANOLIN_OK 0
#define LANOLIN_ERR_INVAL (-22)        /* a size or number is outside the limits, or they don't fit each other */
#define LANOLIN_ERR_CORRUPT (-84)      /* no valid commit, a block number too high, or a read would pass the block */
#define LANOLIN_ERR_NOENT (-2)         /* a lookup: no such entry; the other calls: a pair of more than 1,023 slots */
#define LANOLIN_ERR_NOSPC (-28)        /* writing: what is to be written passes the block */
#define LANOLIN_ERR_BADENTRY (-201)    /* commit: an entry is bad; `index` says which */
#define LANOLIN_ERR_IRREGULAR (-202)   /* writing, finding by name, an index: the log isn't regular by the rules */
#define LANOLIN_ERR_MISALIGNED (-211)  /* commit: the log's end is no multiple of the program size: compact */
#define LANOLIN_ERR_VALIDITY (-212)    /* commit: the end tag has the wrong validity bit for the erased byte: compact */
#define LANOLIN_ERR_NOTERASED (-213)   /* commit: a byte behind the end isn't erased; `index` is its offset: compact */
#define LANOLIN_ERR_COINCIDENCE (-204) /* writing: cut short, this very commit could be taken for a whole one */
#define LANOLIN_ERR_TABLE (-221)       /* an index: after some entry of the log more are live than there are places */

/* Whether a refused commit is one that a compaction makes room for: compact, and commit once more. */
#define LANOLIN_NEEDS_COMPACTION(result) \
    ((result) == LANOLIN_ERR_NOSPC || (result) == LANOLIN_ERR_MISALIGNED || (result) == LANOLIN_ERR_VALIDITY || \
     (result) == LANOLIN_ERR_NOTERASED)

/* Types of entries, littlefs's LFS_TYPE_ names: what lanolin_tag_type3 answers, and what lanolin_mktag and an entry of
 * a commit take. One marked (class) stands for every type with the same upper three bits: lanolin_tag_type1. */
#define LANOLIN_TYPE_NAME 0x000         /* (class) a name */
#define LANOLIN_TYPE_REG 0x001          /* the name of a file */
#define LANOLIN_TYPE_DIR 0x002          /* the name of a directory */
#define LANOLIN_TYPE_SUPERBLOCK 0x0ff   /* the name of the superblock; read, but not written */
#define LANOLIN_TYPE_STRUCT 0x200       /* (class) a struct: where the contents are */
#define LANOLIN_TYPE_DIRSTRUCT 0x200    /* of a directory: the two block numbers of its pair */
#define LANOLIN_TYPE_INLINESTRUCT 0x201 /* of a file whose bytes stand in the log: these bytes */
#define LANOLIN_TYPE_CTZSTRUCT 0x202    /* of a file in blocks of its own: its last block and its length */
#define LANOLIN_TYPE_USERATTR 0x300     /* (class) user attributes: plus a byte of the user's choice */
#define LANOLIN_TYPE_SPLICE 0x400       /* (class) a create or a delete */
#define LANOLIN_TYPE_CREATE 0x401       /* a slot comes in; those from its id on move up */
#define LANOLIN_TYPE_DELETE 0x4ff       /* a slot goes; those behind it move down */
#define LANOLIN_TYPE_CCRC 0x500         /* the check that closes a commit, by lanolin_tag_type2; the commit makes it */
#define LANOLIN_TYPE_FCRC 0x5ff         /* the forward check of the room behind a commit; the commit makes it */
#define LANOLIN_TYPE_TAIL 0x600         /* (class) a tail: the two block numbers of the next pair */
#define LANOLIN_TYPE_SOFTTAIL 0x600     /* to another directory */
#define LANOLIN_TYPE_HARDTAIL 0x601     /* to the rest of the same directory */
#define LANOLIN_TYPE_MOVESTATE 0x7ff    /* the pair's part of the global state: three words */

/* Masks of a lookup: which bits of the key must agree. */
#define LANOLIN_MASK_TYPE 0x7ffffc00u  /* this type exactly, of this slot: a user attribute */
#define LANOLIN_MASK_CLASS 0x700ffc00u /* any type of the same class, of this slot: the name, the struct */

/* Rules of a regular log, which lanolin_find, an index and a writing call take. The slots of a pair that this library
 * wrote are made by creates. littlefs's own compaction writes no creates: there a name makes its slot. */
#define LANOLIN_RULES_DOCUMENT 0 /* document 01's: for pairs that this library wrote */
#define LANOLIN_RULES_LITTLEFS 1 /* littlefs's too: also for pairs that littlefs itself compacted */

/* The erased byte, which a writing call takes: what the flash reads as after an erase. */
#define LANOLIN_ERASED_ONES 0xff  /* most flash */
#define LANOLIN_ERASED_ZEROS 0x00 /* flash that erases to zeros */

/* Marks. */
#define LANOLIN_NO_SLOT 0x3ff          /* the id of what belongs to no slot: tails, the move state, the root */
#define LANOLIN_REMOVAL 0x3ff          /* the length that removes a user attribute; a tag of this size has no data */
#define LANOLIN_BLOCK_NULL 0xffffffffu /* the number of no block: littlefs's LFS_BLOCK_NULL */

/* Limits: more is refused. */
#define LANOLIN_ATTR_MAX 1022    /* bytes of a name, an inline file or a user attribute that is written */
#define LANOLIN_SLOTS_MAX 1023   /* slots of a pair */
#define LANOLIN_NAME_MAX 255     /* name_max of lanolin_getinfo */
#define LANOLIN_BUFFER_MAX 65536 /* bytes of a lookup's buffer */
#define LANOLIN_ENTRIES_MAX 8192 /* entries of a commit */
#define LANOLIN_DATA_MAX 65536   /* bytes of their data */

/* ---- what goes in and what comes back */

/* Block size 128 to 32,768, program size 4 to 512, block size a multiple of it: else LANOLIN_ERR_INVAL. */
typedef struct { uint32_t block_size, prog_size; } lanolin_geometry;

/* The record of a metadata pair, as lanolin_fetch reads it. Lookups read pair, off and etag alone. Two records are
 * compared field by field: the bytes between `forward` and `forward_size` may be any. Where `forward` is false, the two
 * fields behind it are not read. */
typedef struct {
    uint32_t pair[2];      /* the answering block's number first */
    uint32_t rev;          /* its revision */
    uint32_t off;          /* where its committed log ends */
    uint32_t etag;         /* the tag there */
    uint16_t count;        /* slots */
    bool erased;           /* the room behind the end passed its forward check; that it is empty this does not say */
    bool split;            /* the tail is hard */
    uint32_t tail[2];      /* two LANOLIN_BLOCK_NULL: none */
    bool forward;          /* the log has a committed forward check; its last one, which decides `erased`, is */
    uint32_t forward_size; /* over so many bytes behind the end: the program size, as this library writes it */
    uint32_t forward_sum;  /* with this checksum, lanolin_crc from 0xffffffff; both are 0 where there is none */
} lanolin_mdir;

/* The global state: three words that XOR. */
typedef struct { uint32_t tag; uint32_t pair[2]; } lanolin_gstate;

/* An entry of a commit: `len` bytes of the data buffer from `off` on. These types are taken, with these lengths; any
 * other entry is LANOLIN_ERR_BADENTRY, as is one whose data pass the buffer:
 *
 *     CREATE                 0
 *     DELETE                 0
 *     REG, DIR               1 to LANOLIN_ATTR_MAX
 *     DIRSTRUCT, CTZSTRUCT   8
 *     INLINESTRUCT           0 to LANOLIN_ATTR_MAX
 *     USERATTR + a byte      0 to LANOLIN_ATTR_MAX; or LANOLIN_REMOVAL, which removes it and has no data
 *     SOFTTAIL, HARDTAIL     8
 *     MOVESTATE              12
 *
 * The id of the last two lines is LANOLIN_NO_SLOT. Every other id is below the number of slots, as the entries before
 * it leave it; a create's may be that number itself, up to LANOLIN_SLOTS_MAX slots in all. */
typedef struct { uint16_t type; uint16_t id; uint32_t off; uint32_t len; } lanolin_entry;

/* value: 0 on a refusal */
typedef struct { int32_t result; uint32_t value; } lanolin_value;
typedef struct { uint32_t pair[2]; } lanolin_pair;
/* LANOLIN_ERR_NOENT: dir and seed as read; any other refusal: dir all zero, seed as given */
typedef struct { int32_t result; lanolin_mdir dir; uint32_t seed; } lanolin_fetched;
/* The entry that a lookup found. tag: its tag, with the slot's present id; length: the bytes that it takes in the log,
 * the tag's own four and its data, so 4 plus lanolin_tag_size(tag); off: the offset in the block of its first data
 * byte. All 0 on a refusal but the result */
typedef struct { int32_t result; uint32_t tag; uint32_t length; uint32_t off; } lanolin_got;
/* type: the name's, LANOLIN_TYPE_REG or LANOLIN_TYPE_DIR as littlefs writes it; all zero but the result on a refusal */
typedef struct { int32_t result; uint8_t type; uint32_t size; uint8_t name[256]; } lanolin_info;
/* dir and seed as lanolin_fetched has them; index: of LANOLIN_ERR_BADENTRY the entry's, from 0, of
 * LANOLIN_ERR_NOTERASED the offset in the block of the first such byte, else 0 */
typedef struct { int32_t result; uint32_t index; lanolin_mdir dir; uint32_t seed; } lanolin_committed;
/* index as lanolin_committed has it; stores: those made, 0 on a refusal */
typedef struct { int32_t result; uint32_t index; uint32_t stores; } lanolin_stored;
/* found: whether a slot has the name; id: the slot's. That none has it is no refusal: LANOLIN_OK, false, 0 */
typedef struct { int32_t result; bool found; uint32_t id; } lanolin_named;
/* places: how many of the table are in use, from its beginning; 0 on a refusal */
typedef struct { int32_t result; uint32_t places; } lanolin_indexed;

/* ---- reading a pair: b0 and b1 are the images of the blocks n0 and n1, each block_size bytes. The
 * first word at each call is littlefs's name for it */

/* lfs_dir_fetch: the newest valid log of the pair. A block_count of 0 tests no number. */
lanolin_fetched lanolin_fetch(lanolin_geometry g, const uint8_t *b0, size_t b0_len, const uint8_t *b1, size_t b1_len,
                              uint32_t n0, uint32_t n1, uint32_t block_count, uint32_t seed);

/* lanolin_fetch again, from the end of a record that is known: it walks only what stands behind dir.off, so after a
 * commit it takes a small part of a fetch's time. `dir` and `seed` are what an earlier lanolin_fetch, lanolin_refetch,
 * lanolin_commit or lanolin_compact of the pair answered.
 *
 * It answers what lanolin_fetch answers from the seed that the earlier fetch was given, as long as both revisions, the
 * other block and, of the block dir.pair[0], every byte before dir.off and the four of its last checksum are as they
 * were, and the blocks are given in the same order. (The last checksum lies before dir.off in all that this library
 * writes. With LANOLIN_ERR_INVAL and LANOLIN_ERR_CORRUPT the seed comes back as it is given here.) So behind a commit,
 * of this library or of another writer, also one that was cut short or refused. It is NOT so behind a compaction, of
 * whomever, nor where the pair was read anew from a device on which another may have compacted it: then a full
 * lanolin_fetch is due. The answer of lanolin_compact is one.
 *
 * Of any other record and bytes it answers what the definition says: pair and revision are the record's own, and what
 * is committed behind its end is added to it. LANOLIN_ERR_INVAL also where dir.off is below 8 or above block_size, or
 * dir.pair is not n0 and n1, in either order. Of dir all is read but `erased`. */
lanolin_fetched lanolin_refetch(lanolin_geometry g, const uint8_t *b0, size_t b0_len, const uint8_t *b1, size_t b1_len,
                                uint32_t n0, uint32_t n1, uint32_t block_count, uint32_t seed, lanolin_mdir dir);

/* lfs_dir_getslice: the newest entry that gtag matches under gmask. Answers its tag, length and place, and
 * min(size, gsize) bytes of its data from goff on; the rest of the buffer is zeroed. Tag, length and place are the
 * entry's own, whatever goff and gsize: a length above 4 plus gsize says that it has more data than the buffer has room
 * for. Its place is in the block dir.pair[0], and its data end at or before dir.off. gdisk is the global state on
 * disk: a pending move hides its entry. At most LANOLIN_BUFFER_MAX bytes of buffer. */
lanolin_got lanolin_getslice(lanolin_geometry g, const uint8_t *b0, size_t b0_len, const uint8_t *b1, size_t b1_len,
                             uint32_t n0, uint32_t n1, lanolin_mdir dir, lanolin_gstate gdisk,
                             uint32_t gmask, uint32_t gtag, uint32_t goff, uint8_t *buffer, size_t gsize);

/* lfs_dir_get: the same answer, and the data from 0 on, into the buffer's first lanolin_tag_size(gtag) bytes; a shorter
 * buffer is LANOLIN_ERR_INVAL. */
lanolin_got lanolin_get(lanolin_geometry g, const uint8_t *b0, size_t b0_len, const uint8_t *b1, size_t b1_len,
                        uint32_t n0, uint32_t n1, lanolin_mdir dir, lanolin_gstate gdisk,
                        uint32_t gmask, uint32_t gtag, uint8_t *buffer, size_t gsize);

/* lfs_dir_getinfo: type, size and name of the slot id (LANOLIN_NO_SLOT: the root). The superblock's slot is
 * LANOLIN_ERR_NOENT, as in littlefs. Of the name at most name_max + 1 bytes are read (name_max 1 to LANOLIN_NAME_MAX),
 * and the rest of the 256 is zero. So there is a zero behind it, but for one case: a stored name of more than 255
 * bytes, read with name_max 255, fills all 256. A name_max of 254 or less always leaves a zero. */
lanolin_info lanolin_getinfo(lanolin_geometry g, const uint8_t *b0, size_t b0_len, const uint8_t *b1, size_t b1_len,
                             uint32_t n0, uint32_t n1, lanolin_mdir dir, lanolin_gstate gdisk,
                             uint32_t name_max, uint32_t id);

/* lfs_dir_getgstate: the move state of the pair, XORed into *gstate where it stands; none found leaves it as it is. */
int32_t lanolin_getgstate(lanolin_geometry g, const uint8_t *b0, size_t b0_len, const uint8_t *b1, size_t b1_len,
                          uint32_t n0, uint32_t n1, lanolin_mdir dir, lanolin_gstate gdisk, lanolin_gstate *gstate);

/* The lowest id whose slot's name has exactly these bytes and this type (LANOLIN_TYPE_REG, LANOLIN_TYPE_DIR; any number
 * may be asked for), or none, in one pass over the block that lanolin_fetch answers from: what asking slot by slot
 * gives, where no move is pending. It reads no global state. An empty name is LANOLIN_ERR_INVAL; a pair that
 * lanolin_fetch refuses is refused alike, LANOLIN_ERR_NOENT too (more than 1,023 slots); `rules` is as the writing
 * calls take it, and a log that is not regular by it is LANOLIN_ERR_IRREGULAR. */
lanolin_named lanolin_find(lanolin_geometry g, const uint8_t *b0, size_t b0_len, const uint8_t *b1, size_t b1_len,
                           uint32_t n0, uint32_t n1, uint32_t block_count, uint32_t seed, uint32_t rules,
                           const uint8_t *name, size_t name_len, uint32_t type);

/* ---- an index: where each live entry stands, in a table of words that the caller lends
 *
 * A lookup walks the log back, once for each entry that is asked for. An index is built in one pass over the log; then
 * an entry is found by halving, or all of them by going once over the table, as examples/c/wheel.c does.
 *
 * A place is two words of the table:
 *
 *     table[2 * i]       the entry's tag: its type, the slot's present id, its size (lanolin_tag_type3, _id, _size)
 *     table[2 * i + 1]   the offset of its first data byte, in the block dir.pair[0]
 *
 * Every live name, struct and user attribute of every slot has one; a slot that has none of them, a tail, the move
 * state and a forward check take no place. The places are sorted by id, and in a slot the name comes first, then the
 * struct, then the attributes by rising type. A table of table_len words has table_len / 2 places. Those that are not
 * in use are zero and stand last, and an odd last word is zero too: so the table is a function of the log and of its
 * own length, and two builds can't differ. An entry takes four bytes of the log or more, so that block_size / 2 words
 * are always enough.
 *
 * The three calls below, and lanolin_compact_with, may be lent a table of any length, with any words in it; null with
 * length 0 too. Of a record the three read `pair` and `off` alone: the log is that of the block dir.pair[0], up to the
 * end dir.off. The global state is not read: what a pending move hides from a lookup has its place. */

/* The table of the log that ends at dir.off, whatever words stood in it. Refused, in this order:
 *
 *     LANOLIN_ERR_INVAL       as a lookup: sizes and numbers, a record of another pair, an end past the block; and a
 *                             number that is no rule. The table is as it was
 *     LANOLIN_ERR_IRREGULAR   the log is not regular by `rules`, as the writing calls take it; or no commit of the
 *                             block's log ends at dir.off. The table is as it was
 *     LANOLIN_ERR_TABLE       after some entry of the log more are live than the table has places: the most that were
 *                             live at one time count, not those that are at the end. The table is then all zero. Lend a
 *                             longer one; behind a compaction a shorter one may do */
lanolin_indexed lanolin_index(lanolin_geometry g, const uint8_t *b0, size_t b0_len, const uint8_t *b1, size_t b1_len,
                              uint32_t n0, uint32_t n1, lanolin_mdir dir, uint32_t rules,
                              uint32_t *table, size_t table_len);

/* The table of `old` brought on by the entries between the two ends: behind a commit, `old` is the record from before
 * and `dir` what the commit, or a lanolin_refetch, answered. Where the table is the one that lanolin_index, or this
 * call, left for `old` of the same bytes, it is afterwards the one that lanolin_index leaves for `dir`, with the same
 * answer. Behind a compaction the block is another: there build anew.
 *
 * Any other table gets an answer too, inside its bounds: its places are those before the first whose tag is 0, each
 * entry moves, sets and clears what halving finds, and all behind them becomes zero.
 *
 * Refused as lanolin_index. LANOLIN_ERR_INVAL also where the same is wrong with `old`, where the two are not of one
 * block, old.pair[0] and dir.pair[0], or old.off is above dir.off; LANOLIN_ERR_IRREGULAR also where no commit ends at
 * old.off. LANOLIN_ERR_TABLE leaves the table all zero here too, so that it is no longer that of `old`. */
lanolin_indexed lanolin_index_extend(lanolin_geometry g, const uint8_t *b0, size_t b0_len,
                                     const uint8_t *b1, size_t b1_len, uint32_t n0, uint32_t n1,
                                     lanolin_mdir old, lanolin_mdir dir, uint32_t rules,
                                     uint32_t *table, size_t table_len);

/* The entry of the slot id that the table has a place for: any type from 0x000 to 0x0ff asks for the name, any from
 * 0x200 to 0x2ff for the struct, 0x300 to 0x3ff for that user attribute. Answers as lanolin_getslice from 0 on: tag,
 * length and place, and min(size, gsize) bytes of its data; the rest of the buffer is zeroed.
 *
 * With the table that lanolin_index left for `dir`, an id below dir.count and no pending move, answer and buffer are
 * those of lanolin_getslice, by LANOLIN_MASK_CLASS for a name or a struct and by LANOLIN_MASK_TYPE for an attribute.
 *
 * LANOLIN_ERR_INVAL as a lookup; LANOLIN_ERR_NOENT where the table has no such place, and for any other type and id.
 * A table that no build made is answered as it stands: nothing is asked of it but that what it says lies in the block,
 * and LANOLIN_ERR_CORRUPT is the answer where its bytes would pass that. A refusal leaves the buffer alone. */
lanolin_got lanolin_index_get(lanolin_geometry g, const uint8_t *b0, size_t b0_len, const uint8_t *b1, size_t b1_len,
                              uint32_t n0, uint32_t n1, lanolin_mdir dir, const uint32_t *table, size_t table_len,
                              uint32_t type, uint32_t id, uint8_t *buffer, size_t gsize);

/* ---- writing; a refused call alters no byte of the images
 *
 * `rules` says which logs are regular; any other log is LANOLIN_ERR_IRREGULAR.
 *
 *     LANOLIN_RULES_DOCUMENT   the log's entries keep to what lanolin_entry says, from no slot on; superblock names, as
 *                              names, and forward checks may be among them
 *     LANOLIN_RULES_LITTLEFS   the same, but as long as no create and no delete has come in the log, a name whose id is
 *                              at or above the number of slots, and below LANOLIN_SLOTS_MAX, first makes its slot, and
 *                              those in between, empty
 *
 * Any other number is LANOLIN_ERR_INVAL. Use the first for pairs that this library wrote; the second takes these too,
 * with the same answers and bytes, and pairs that littlefs itself compacted. The entries of a commit are judged by
 * lanolin_entry alone, and what a compaction writes is regular by both.
 *
 * `erased` is the byte that the flash reads as after an erase: LANOLIN_ERASED_ONES or LANOLIN_ERASED_ZEROS; any other
 * is LANOLIN_ERR_INVAL. A commit goes where the block still reads as that byte, and a compaction erases to it. The
 * check that closes a commit says which of the two it was (LANOLIN_TYPE_CCRC for ones, plus 1 for zeros), so that the
 * bytes behind it are no valid tag. Reading does not ask: a log may have commits of both kinds. A pair that was moved
 * between boards is read and compacted as any other; but a commit to it, with the byte of the new board, is
 * LANOLIN_ERR_VALIDITY, or LANOLIN_ERR_NOTERASED where only the room is of the other byte. A compaction with the new
 * byte heals it.
 *
 * Behind its entries a commit, and so a compaction, carries a forward check of the program unit behind its new end: by
 * it littlefs sees that this is erased, and appends there. It takes 12 bytes, and is left out where with them no unit
 * would follow in the block; so it never makes the difference to LANOLIN_ERR_NOSPC. */

/* One commit of all the entries, appended to the block that answers; answers what a fetch of the finished pair from the
 * same seed gives. Where there is no room for it the result says why; LANOLIN_NEEDS_COMPACTION says that a compaction
 * serves. */
lanolin_committed lanolin_commit(lanolin_geometry g, uint8_t *b0, size_t b0_len, uint8_t *b1, size_t b1_len,
                                 uint32_t n0, uint32_t n1, uint32_t block_count, uint32_t seed, uint32_t rules,
                                 uint8_t erased, const lanolin_entry *entries, size_t entries_len,
                                 const uint8_t *data, size_t data_len);

/* The same, stopped after so many single-byte stores. */
lanolin_stored lanolin_commit_stores(lanolin_geometry g, uint8_t *b0, size_t b0_len, uint8_t *b1, size_t b1_len,
                                     uint32_t n0, uint32_t n1, uint32_t block_count, uint32_t seed, uint32_t rules,
                                     uint8_t erased, const lanolin_entry *entries, size_t entries_len,
                                     const uint8_t *data, size_t data_len, uint32_t stores);

/* All that the pair holds as one commit in the other block, which is erased first, under the next revision: of each
 * slot a create, its name, its struct and its user attributes. A full block that littlefs compacted has no creates, and
 * may have no room for them: LANOLIN_ERR_NOSPC. */
lanolin_committed lanolin_compact(lanolin_geometry g, uint8_t *b0, size_t b0_len, uint8_t *b1, size_t b1_len,
                                  uint32_t n0, uint32_t n1, uint32_t block_count, uint32_t seed, uint32_t rules,
                                  uint8_t erased);

/* The same, stopped after so many stores; the erase is the first. */
lanolin_stored lanolin_compact_stores(lanolin_geometry g, uint8_t *b0, size_t b0_len, uint8_t *b1, size_t b1_len,
                                      uint32_t n0, uint32_t n1, uint32_t block_count, uint32_t seed, uint32_t rules,
                                      uint8_t erased, uint32_t stores);

/* lanolin_compact with a table lent as working memory: the same images and the same answer, whatever its length, and
 * sooner where it has places enough for lanolin_index. Where it has not, the old way is taken.
 *
 * Behind the call the table is as lanolin_index leaves it for the log that was compacted, of the block that answered
 * before: all zero where that would be LANOLIN_ERR_TABLE. So it is not the index of the new block, which is built anew.
 * With LANOLIN_ERR_NOSPC and LANOLIN_ERR_COINCIDENCE, too, the table has been used; with LANOLIN_ERR_INVAL,
 * LANOLIN_ERR_IRREGULAR and what lanolin_fetch refuses it is as it was. */
lanolin_committed lanolin_compact_with(lanolin_geometry g, uint8_t *b0, size_t b0_len, uint8_t *b1, size_t b1_len,
                                       uint32_t n0, uint32_t n1, uint32_t block_count, uint32_t seed, uint32_t rules,
                                       uint8_t erased, uint32_t *table, size_t table_len);

/* ---- the leaves; a test answers exactly 0 or 1. lanolin_x is littlefs's lfs_x, but where another name is said */

/* The checksum, CRC-32 without inversion at its end, gone on with over the bytes; a commit's begins at 0xffffffff. */
uint32_t lanolin_crc(uint32_t crc, const uint8_t *bytes, size_t len);

/* A tag of its three fields, nothing masked: LFS_MKTAG. */
uint32_t lanolin_mktag(uint32_t type, uint32_t id, uint32_t size);
/* The same, or 0 where the condition is false: LFS_MKTAG_IF. */
uint32_t lanolin_mktag_if(bool cond, uint32_t type, uint32_t id, uint32_t size);
/* Whether bit 31 is clear. */
uint32_t lanolin_tag_isvalid(uint32_t tag);
/* Whether the size is LANOLIN_REMOVAL. */
uint32_t lanolin_tag_isdelete(uint32_t tag);
/* The type under 0x700: its class. */
uint32_t lanolin_tag_type1(uint32_t tag);
/* The type under 0x780: what tells a commit check, LANOLIN_TYPE_CCRC. */
uint32_t lanolin_tag_type2(uint32_t tag);
/* The type, all eleven bits. */
uint32_t lanolin_tag_type3(uint32_t tag);
/* The type's low eight bits: of a user attribute, the byte of the user's choice. */
uint32_t lanolin_tag_chunk(uint32_t tag);
/* The chunk as a signed number, -128 to 127: by how much a splice moves the count. */
int32_t lanolin_tag_splice(uint32_t tag);
/* The id: the slot, or LANOLIN_NO_SLOT. */
uint32_t lanolin_tag_id(uint32_t tag);
/* The size field: how many bytes of data, or LANOLIN_REMOVAL. */
uint32_t lanolin_tag_size(uint32_t tag);
/* The length that is stored, the tag's own four bytes with it; of a removal 4. */
uint32_t lanolin_tag_dsize(uint32_t tag);

/* The smaller of the two. */
uint32_t lanolin_min(uint32_t a, uint32_t b);
/* The larger of the two. */
uint32_t lanolin_max(uint32_t a, uint32_t b);
/* The last multiple of the alignment at or below a; alignment 0: LANOLIN_ERR_INVAL. */
lanolin_value lanolin_aligndown(uint32_t a, uint32_t alignment);
/* The first multiple at or above a, in 32 bits that wrap; alignment 0: LANOLIN_ERR_INVAL. */
lanolin_value lanolin_alignup(uint32_t a, uint32_t alignment);
/* The least n with a at most 2 to the n; but 1 for 1, and 32 for 0. */
uint32_t lanolin_npw2(uint32_t a);
/* How many zeros stand below the lowest set bit; 0 for 0. */
uint32_t lanolin_ctz(uint32_t a);
/* How many bits are set. */
uint32_t lanolin_popc(uint32_t a);
/* a - b, wrapping and read as signed: above 0 where a is the newer revision. */
int32_t lanolin_scmp(uint32_t a, uint32_t b);

/* The little-endian word at an offset, lfs_fromle32; past the end: LANOLIN_ERR_CORRUPT. */
lanolin_value lanolin_le32_at(const uint8_t *bytes, size_t len, size_t at);
/* The big-endian word at an offset, lfs_frombe32; past the end: LANOLIN_ERR_CORRUPT. */
lanolin_value lanolin_be32_at(const uint8_t *bytes, size_t len, size_t at);
/* Stores a word little-endian, lfs_tole32; past the end: LANOLIN_ERR_CORRUPT. */
int32_t lanolin_put_le32(uint8_t *bytes, size_t len, size_t at, uint32_t value);
/* Stores a word big-endian, lfs_tobe32; past the end: LANOLIN_ERR_CORRUPT. */
int32_t lanolin_put_be32(uint8_t *bytes, size_t len, size_t at, uint32_t value);

/* The pair with its two numbers exchanged. */
lanolin_pair lanolin_pair_swap(uint32_t p0, uint32_t p1);
/* Whether either number is LANOLIN_BLOCK_NULL. */
uint32_t lanolin_pair_isnull(uint32_t p0, uint32_t p1);
/* 0 where the two pairs share a block, else 1. */
int32_t lanolin_pair_cmp(uint32_t p0, uint32_t p1, uint32_t q0, uint32_t q1);
/* Whether they are the same two blocks, in either order. */
uint32_t lanolin_pair_issync(uint32_t p0, uint32_t p1, uint32_t q0, uint32_t q1);

/* Whether all three words are 0. */
uint32_t lanolin_gstate_iszero(const lanolin_gstate *a);
/* Whether the tag's size is not 0. */
uint32_t lanolin_gstate_hasorphans(const lanolin_gstate *a);
/* The number of orphans: the size's low eight bits. */
uint32_t lanolin_gstate_getorphans(const lanolin_gstate *a);
/* Whether a move is pending: the tag's class is not 0. */
uint32_t lanolin_gstate_hasmove(const lanolin_gstate *a);
/* Whether the superblock is to be written anew: the size's highest bit. */
uint32_t lanolin_gstate_needssuperblock(const lanolin_gstate *a);
/* Whether a move is pending whose pair shares a block with this one. */
uint32_t lanolin_gstate_hasmovehere(const lanolin_gstate *a, uint32_t p0, uint32_t p1);
/* XORs b into a where it stands: so the move states of all pairs give the global state. */
void lanolin_gstate_xor(lanolin_gstate *a, const lanolin_gstate *b);

/* ---- the layout of the structs: a compiler that lays them out otherwise than the archive is refused here (C11, C++11;
 * before them a header can't assert) */

#if defined(__cplusplus) && __cplusplus >= 201103L
#define LANOLIN_LAYOUT_(as) static_assert(as, "not the layout of liblanolin.a");
#elif defined(__STDC_VERSION__) && __STDC_VERSION__ >= 201112L
#define LANOLIN_LAYOUT_(as) _Static_assert(as, "not the layout of liblanolin.a");
#else
#define LANOLIN_LAYOUT_(as)
#endif
#define LANOLIN_AT_(type, field, at) (offsetof(lanolin_##type, field) == at)

LANOLIN_LAYOUT_(sizeof(bool) == 1)
LANOLIN_LAYOUT_(sizeof(lanolin_geometry) == 8 && LANOLIN_AT_(geometry, block_size, 0) &&
                LANOLIN_AT_(geometry, prog_size, 4))
LANOLIN_LAYOUT_(sizeof(lanolin_mdir) == 44 && LANOLIN_AT_(mdir, pair, 0) && LANOLIN_AT_(mdir, rev, 8) &&
                LANOLIN_AT_(mdir, off, 12) && LANOLIN_AT_(mdir, etag, 16) && LANOLIN_AT_(mdir, count, 20) &&
                LANOLIN_AT_(mdir, erased, 22) && LANOLIN_AT_(mdir, split, 23) && LANOLIN_AT_(mdir, tail, 24) &&
                LANOLIN_AT_(mdir, forward, 32) && LANOLIN_AT_(mdir, forward_size, 36) &&
                LANOLIN_AT_(mdir, forward_sum, 40))
LANOLIN_LAYOUT_(sizeof(lanolin_gstate) == 12 && LANOLIN_AT_(gstate, tag, 0) && LANOLIN_AT_(gstate, pair, 4))
LANOLIN_LAYOUT_(sizeof(lanolin_entry) == 12 && LANOLIN_AT_(entry, type, 0) && LANOLIN_AT_(entry, id, 2) &&
                LANOLIN_AT_(entry, off, 4) && LANOLIN_AT_(entry, len, 8))
LANOLIN_LAYOUT_(sizeof(lanolin_value) == 8 && LANOLIN_AT_(value, result, 0) && LANOLIN_AT_(value, value, 4))
LANOLIN_LAYOUT_(sizeof(lanolin_pair) == 8 && LANOLIN_AT_(pair, pair, 0))
LANOLIN_LAYOUT_(sizeof(lanolin_fetched) == 52 && LANOLIN_AT_(fetched, result, 0) && LANOLIN_AT_(fetched, dir, 4) &&
                LANOLIN_AT_(fetched, seed, 48))
LANOLIN_LAYOUT_(sizeof(lanolin_got) == 16 && LANOLIN_AT_(got, result, 0) && LANOLIN_AT_(got, tag, 4) &&
                LANOLIN_AT_(got, length, 8) && LANOLIN_AT_(got, off, 12))
LANOLIN_LAYOUT_(sizeof(lanolin_info) == 268 && LANOLIN_AT_(info, result, 0) && LANOLIN_AT_(info, type, 4) &&
                LANOLIN_AT_(info, size, 8) && LANOLIN_AT_(info, name, 12))
LANOLIN_LAYOUT_(sizeof(lanolin_committed) == 56 && LANOLIN_AT_(committed, result, 0) &&
                LANOLIN_AT_(committed, index, 4) && LANOLIN_AT_(committed, dir, 8) && LANOLIN_AT_(committed, seed, 52))
LANOLIN_LAYOUT_(sizeof(lanolin_stored) == 12 && LANOLIN_AT_(stored, result, 0) && LANOLIN_AT_(stored, index, 4) &&
                LANOLIN_AT_(stored, stores, 8))
LANOLIN_LAYOUT_(sizeof(lanolin_named) == 12 && LANOLIN_AT_(named, result, 0) && LANOLIN_AT_(named, found, 4) &&
                LANOLIN_AT_(named, id, 8))
LANOLIN_LAYOUT_(sizeof(lanolin_indexed) == 8 && LANOLIN_AT_(indexed, result, 0) && LANOLIN_AT_(indexed, places, 4))

#undef LANOLIN_AT_
#undef LANOLIN_LAYOUT_

#ifdef __cplusplus
}
#endif

#endif
