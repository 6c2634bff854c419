/* How deep each call of the archive really goes: the stack below a call is painted, the call is made, and the paint
 * that is gone is counted. A pair of 32,768-byte blocks with 1,000 slots is read, indexed, written and compacted, by
 * both rules and with both erased bytes, and refused calls are among them. Prints each call's name and the most bytes
 * that it took, return address included: a measure on these inputs, to hold beside the bounds of tools/stack.py. Exits
 * 1 if a call does not answer as it must.
 *
 * Compiled with -maccumulate-outgoing-args, so that the stack pointer stays where it is in a function that calls, and
 * linked with -z now, since a function of the C library that is bound at its first call goes through the loader. */
#include "lanolin.h"

#include <stdio.h>
#include <stdlib.h>
#include <string.h>

enum { BLOCK = 32768, PROG = 16, SLOTS = 1000, WORDS = BLOCK / 2, PAINTED = 65536, PAINT = 0xa5 };

static const lanolin_geometry G = {BLOCK, PROG};
static const lanolin_gstate STILL;
static uint8_t b0[BLOCK], b1[BLOCK], buffer[65536];
static uint32_t table[WORDS];

#define MUST(c) ((c) ? (void)0 : (printf("%s:%d: not so: %s\n", __FILE__, __LINE__, #c), exit(1)))

/* Names, and the most that each took. */
static struct { const char *name; long most; } calls[64];

static void took(const char *name, long bytes) {
    int i = 0;
    while (calls[i].name && strcmp(calls[i].name, name)) i++;
    MUST(i < 63);
    calls[i].name = name;
    if (bytes > calls[i].most) calls[i].most = bytes;
}

/* Paints, calls and counts in the function that calls, with no call in between: so what is gone, the call took. The
 * volatile bytes keep the compiler from making calls of the two loops. */
#define DEPTH(call, ...)                                                     \
    do {                                                                     \
        volatile uint8_t *sp;                                                \
        __asm__ volatile("mov %%rsp, %0" : "=r"(sp));                        \
        for (long i = 1; i <= PAINTED; i++) sp[-i] = PAINT;                  \
        (void)call(__VA_ARGS__);                                             \
        long below = PAINTED;                                                \
        while (below > 0 && sp[-below] == PAINT) below--;                    \
        took(#call, below);                                                  \
    } while (0)

#define PAIR b0, BLOCK, b1, BLOCK, 0, 1
enum { DOCUMENT = LANOLIN_RULES_DOCUMENT, LITTLEFS = LANOLIN_RULES_LITTLEFS, NONE };
enum { ONES = LANOLIN_ERASED_ONES, ZEROS = LANOLIN_ERASED_ZEROS, NO_ERASED = 0x7f };

/* The first commit, a check alone, one program unit long: what a writer finds when it is called for the first time. */
static void format(uint32_t prog_size) {
    memset(b0, ONES, BLOCK);
    memset(b1, ONES, BLOCK);
    MUST(lanolin_put_le32(b0, BLOCK, 0, 1) == 0);
    MUST(lanolin_put_be32(b0, BLOCK, 4, 0xffffffff ^ lanolin_mktag(0x500, 0x3ff, prog_size - 8)) == 0);
    MUST(lanolin_put_le32(b0, BLOCK, 8, lanolin_crc(0xffffffff, b0, 8)) == 0);
}

/* Slots as littlefs compacts them: names of one byte, without creates. */
static void name_all(int slots) {
    uint32_t at = 4, before = 0xffffffff, tag;
    memset(b0, 0xff, BLOCK);
    memset(b1, 0xff, BLOCK);
    MUST(lanolin_put_le32(b0, BLOCK, 0, 1) == 0);
    for (int id = 0; id < slots; id++, at += 5, before = tag) {
        tag = lanolin_mktag(0x001, (uint32_t)id, 1);
        MUST(lanolin_put_be32(b0, BLOCK, at, before ^ tag) == 0);
    }
    tag = lanolin_mktag(0x500, 0x3ff, 4 + (PROG - (at + 8) % PROG) % PROG);
    MUST(lanolin_put_be32(b0, BLOCK, at, before ^ tag) == 0);
    MUST(lanolin_put_le32(b0, BLOCK, at + 4, lanolin_crc(0xffffffff, b0, at + 4)) == 0);
}

/* Slots of a name of four bytes, a payload of three and a deadline of four, eight to a commit. */
static void fill(int slots) {
    static const uint8_t DATA[] = {'q', '2', '1', '2', 'a', 'b', 'c', 0x90, 0x5f, 0x01, 0x00};
    for (int id = 0; id < slots; id += 8) {
        lanolin_entry entries[32];
        size_t n = 0;
        for (int i = id; i < id + 8 && i < slots; i++) {
            entries[n++] = (lanolin_entry){0x401, (uint16_t)i, 0, 0};
            entries[n++] = (lanolin_entry){0x001, (uint16_t)i, 0, 4};
            entries[n++] = (lanolin_entry){0x201, (uint16_t)i, 4, 3};
            entries[n++] = (lanolin_entry){0x374, (uint16_t)i, 7, 4};
        }
        MUST(lanolin_commit(G, PAIR, 0, 0, DOCUMENT, ONES, entries, n, DATA, sizeof DATA).result == 0);
    }
}

static __attribute__((noinline)) void reading(void) {
    lanolin_mdir dir = lanolin_fetch(G, PAIR, 0, 0).dir;
    lanolin_gstate state = STILL, moving = {0x4ff00000, {0, 1}};
    MUST(dir.count == SLOTS);
    DEPTH(lanolin_fetch, G, PAIR, 0, 0);
    DEPTH(lanolin_fetch, G, PAIR, 1, 0);
    DEPTH(lanolin_fetch, G, b0, 0, b1, 0, 0, 1, 0, 0);
    lanolin_mdir half = dir;
    half.off = 8; /* any record is taken: it walks on from there */
    DEPTH(lanolin_refetch, G, PAIR, 0, 0, dir);
    DEPTH(lanolin_refetch, G, PAIR, 0, 0, half);
    DEPTH(lanolin_refetch, G, PAIR, 1, 0, dir);
    DEPTH(lanolin_refetch, G, b0, 0, b1, 0, 0, 1, 0, 0, dir);
    for (uint32_t id = 0; id < SLOTS + 2; id += 77) {
        DEPTH(lanolin_getslice, G, PAIR, dir, STILL, 0x7ffffc00, lanolin_mktag(0x374, id, 0), 0, buffer, 4);
        DEPTH(lanolin_getslice, G, PAIR, dir, moving, 0x700ffc00, lanolin_mktag(0, id, 0), 0, buffer, sizeof buffer);
        DEPTH(lanolin_get, G, PAIR, dir, STILL, 0x700ffc00, lanolin_mktag(0x200, id, 255), buffer, sizeof buffer);
        DEPTH(lanolin_get, G, PAIR, dir, STILL, 0x7ffffc00, lanolin_mktag(0x375, id, 1022), buffer, 1022);
        DEPTH(lanolin_getinfo, G, PAIR, dir, STILL, 255, id);
    }
    DEPTH(lanolin_getslice, G, PAIR, dir, STILL, 0x7ffffc00, lanolin_mktag(0x374, 1, 0), BLOCK, buffer, 4);
    DEPTH(lanolin_getinfo, G, PAIR, dir, STILL, 255, 0x3ff);
    DEPTH(lanolin_getgstate, G, PAIR, dir, STILL, &state);
    DEPTH(lanolin_getgstate, G, b0, BLOCK, b1, BLOCK, 0, 2, dir, STILL, &state);
}

/* A name that slots have, of their type and of another, one that none has and an empty one; a block number that is too
 * high, and a number that is no rule. */
static __attribute__((noinline)) void finding(const char *name, uint32_t rules, int32_t result) {
    const uint8_t *bytes = (const uint8_t *)name;
    const size_t n = strlen(name);
    MUST(lanolin_find(G, PAIR, 0, 0, rules, bytes, n, 0x001).result == result);
    MUST(lanolin_find(G, PAIR, 0, 0, rules, bytes, n, 0x001).found == (result == LANOLIN_OK));
    DEPTH(lanolin_find, G, PAIR, 0, 0, rules, bytes, n, 0x001);
    DEPTH(lanolin_find, G, PAIR, 0, 0, rules, bytes, n, 0x002);
    DEPTH(lanolin_find, G, PAIR, 0, 0, rules, buffer, 1022, 0x001);
    DEPTH(lanolin_find, G, PAIR, 0, 0, rules, buffer, 0, 0x001);
    DEPTH(lanolin_find, G, PAIR, 1, 0, rules, bytes, n, 0x001);
    DEPTH(lanolin_find, G, PAIR, 0, 0, NONE, bytes, n, 0x001);
}

/* An index of all slots, and one that is too short; extended from the end of the first commit, and from one that is
 * none; what it has and has not; and a number that is no rule. */
static __attribute__((noinline)) void indexing(uint32_t first, uint32_t rules, uint32_t places) {
    const lanolin_mdir dir = lanolin_fetch(G, PAIR, 0, 0).dir;
    lanolin_mdir old = dir, none = dir, past = dir;
    old.off = first;
    none.off = first + 1;
    past.off = BLOCK + 1;
    MUST(lanolin_index(G, PAIR, dir, rules, table, WORDS).places == places);
    DEPTH(lanolin_index, G, PAIR, dir, rules, table, WORDS);
    for (uint32_t id = 0; id < SLOTS + 2; id += 77) {
        DEPTH(lanolin_index_get, G, PAIR, dir, table, WORDS, 0x000, id, buffer, sizeof buffer);
        DEPTH(lanolin_index_get, G, PAIR, dir, table, 2 * places, 0x374, id, buffer, 4);
        DEPTH(lanolin_index_get, G, PAIR, dir, table, WORDS, 0x375, id, buffer, 4);
    }
    DEPTH(lanolin_index_get, G, PAIR, past, table, WORDS, 0x374, 0, buffer, 4);
    DEPTH(lanolin_index, G, PAIR, dir, rules, table, places); /* half as many: -221 */
    DEPTH(lanolin_index, G, PAIR, dir, NONE, table, WORDS);
    DEPTH(lanolin_index, G, PAIR, none, rules, table, WORDS);
    MUST(lanolin_index(G, PAIR, old, rules, table, WORDS).result == LANOLIN_OK);
    DEPTH(lanolin_index_extend, G, PAIR, old, dir, rules, table, WORDS);
    DEPTH(lanolin_index_extend, G, PAIR, old, dir, rules, table, places); /* any table: -221 */
    DEPTH(lanolin_index_extend, G, PAIR, none, dir, rules, table, WORDS);
    DEPTH(lanolin_index_extend, G, PAIR, dir, old, rules, table, WORDS);
    MUST(lanolin_index_extend(G, PAIR, dir, dir, rules, table, WORDS).result == LANOLIN_OK);
}

/* An entry of every kind, and one that is bad; the other erased byte, for which the end tag has the wrong bit, a byte
 * that is none, and a number that is no rule. */
static __attribute__((noinline)) void committing(uint32_t rules, uint8_t erased) {
    static const uint8_t DATA[16] = "0123456789abcde";
    static const lanolin_entry ENTRIES[] = {
        {0x401, 0, 0, 0},    {0x001, 0, 0, 9}, {0x201, 0, 1, 15}, {0x374, 0, 0, 4}, {0x374, 0, 0, 1023},
        {0x4ff, 0, 0, 0},    {0x002, 1, 0, 3}, {0x200, 1, 0, 8},  {0x202, 2, 0, 8}, {0x601, 0x3ff, 0, 8},
        {0x7ff, 0x3ff, 0, 12}, {0x500, 0, 0, 0}};
    const size_t good = sizeof ENTRIES / sizeof *ENTRIES - 1;
    lanolin_stored half = lanolin_commit_stores(G, PAIR, 0, 0, rules, erased, ENTRIES, good, DATA, sizeof DATA, 0);
    MUST(half.result == 0);
    const uint8_t other = erased ^ 0xff;
    MUST(lanolin_commit(G, PAIR, 0, 0, rules, other, ENTRIES, good, DATA, sizeof DATA).result == LANOLIN_ERR_VALIDITY);
    DEPTH(lanolin_commit, G, PAIR, 0, 0, rules, other, ENTRIES, good, DATA, sizeof DATA);
    DEPTH(lanolin_commit_stores, G, PAIR, 0, 0, rules, erased, ENTRIES, good + 1, DATA, sizeof DATA, 100);
    DEPTH(lanolin_commit, G, PAIR, 0, 0, rules, erased, ENTRIES, good + 1, DATA, sizeof DATA);
    DEPTH(lanolin_commit, G, PAIR, 0, 0, rules, erased, ENTRIES, good, DATA, sizeof DATA);
    DEPTH(lanolin_commit_stores, G, PAIR, 0, 0, rules, erased, ENTRIES, good, DATA, sizeof DATA, 50);
    DEPTH(lanolin_commit, G, PAIR, 0, 0, rules, erased, ENTRIES, good, DATA, sizeof DATA); /* torn: -213 */
    MUST(lanolin_commit(G, PAIR, 0, 0, rules, erased, ENTRIES, good, DATA, sizeof DATA).result == -213);
    DEPTH(lanolin_commit, G, PAIR, 1, 0, rules, erased, ENTRIES, good, DATA, sizeof DATA);
    DEPTH(lanolin_commit, G, PAIR, 0, 0, NONE, erased, ENTRIES, good, DATA, sizeof DATA);
    DEPTH(lanolin_commit, G, PAIR, 0, 0, rules, NO_ERASED, ENTRIES, good, DATA, sizeof DATA);
}

static __attribute__((noinline)) void compacting(uint32_t rules, uint8_t erased) {
    uint32_t answers = lanolin_fetch(G, PAIR, 0, 0).dir.pair[0];
    DEPTH(lanolin_compact_stores, G, PAIR, 0, 0, rules, erased, 1000);
    DEPTH(lanolin_compact, G, PAIR, 0, 0, rules, erased);
    MUST(lanolin_fetch(G, PAIR, 0, 0).dir.pair[0] != answers);
    DEPTH(lanolin_compact, G, PAIR, 0, 0, rules, erased);
    DEPTH(lanolin_compact_stores, G, PAIR, 0, 0, rules, erased, 0xffffffff);
    DEPTH(lanolin_compact, G, PAIR, 1, 0, rules, erased);
    DEPTH(lanolin_compact, G, PAIR, 0, 0, rules, NO_ERASED);
    DEPTH(lanolin_compact_with, G, PAIR, 0, 0, rules, erased, table, WORDS);
    DEPTH(lanolin_compact_with, G, PAIR, 0, 0, rules, erased, table, 1000); /* too short */
    DEPTH(lanolin_compact_with, G, PAIR, 1, 0, rules, erased, table, WORDS);
    DEPTH(lanolin_compact_with, G, PAIR, 0, 0, NONE, erased, table, WORDS);
    MUST(lanolin_fetch(G, PAIR, 0, 0).dir.count == SLOTS);
}

/* A block of one program unit compacted, and one of two committed to: no unit is left for a forward check. */
static __attribute__((noinline)) void without_forward(void) {
    const lanolin_geometry one = {128, 128}, two = {256, 128};
    lanolin_mdir dir;
    format(128);
    DEPTH(lanolin_compact, one, b0, 128, b1, 128, 0, 1, 0, 0, DOCUMENT, ONES);
    dir = lanolin_fetch(one, b0, 128, b1, 128, 0, 1, 0, 0).dir;
    MUST(dir.pair[0] == 1 && dir.off == 128 && !dir.forward);
    format(128);
    DEPTH(lanolin_commit, two, b0, 256, b1, 256, 0, 1, 0, 0, DOCUMENT, ONES, NULL, 0, NULL, 0);
    dir = lanolin_fetch(two, b0, 256, b1, 256, 0, 1, 0, 0).dir;
    MUST(dir.off == 256 && !dir.forward);
    DEPTH(lanolin_compact, two, b0, 256, b1, 256, 0, 1, 0, 0, DOCUMENT, ONES); /* here one is */
    dir = lanolin_fetch(two, b0, 256, b1, 256, 0, 1, 0, 0).dir;
    MUST(dir.off == 128 && dir.forward && dir.erased);
}

#define TAG_LEAVES(OF) OF(isvalid) OF(isdelete) OF(type1) OF(type2) OF(type3) OF(chunk) OF(splice) OF(id) OF(size) \
    OF(dsize)
#define TAG_DEPTH(leaf) DEPTH(lanolin_tag_##leaf, 0x4ff003ff);
#define STATE_LEAVES(OF) OF(iszero) OF(hasorphans) OF(getorphans) OF(hasmove) OF(needssuperblock)
#define STATE_DEPTH(leaf) DEPTH(lanolin_gstate_##leaf, &state);

static __attribute__((noinline)) void leaves(void) {
    lanolin_gstate state = {0x4ff00000, {0, 1}};
    DEPTH(lanolin_crc, 0xffffffff, b0, BLOCK);
    DEPTH(lanolin_mktag, 0x374, 3, 4);
    DEPTH(lanolin_mktag_if, true, 0x374, 3, 4);
    TAG_LEAVES(TAG_DEPTH)
    DEPTH(lanolin_min, 3, 4);
    DEPTH(lanolin_max, 3, 4);
    DEPTH(lanolin_aligndown, 100, 16);
    DEPTH(lanolin_alignup, 100, 16);
    DEPTH(lanolin_npw2, 0x80000001);
    DEPTH(lanolin_ctz, 0x80000000);
    DEPTH(lanolin_popc, 0xffffffff);
    DEPTH(lanolin_scmp, 1, 2);
    DEPTH(lanolin_le32_at, b0, BLOCK, BLOCK - 4);
    DEPTH(lanolin_be32_at, b0, BLOCK, BLOCK - 3);
    DEPTH(lanolin_put_le32, buffer, sizeof buffer, 0, 1);
    DEPTH(lanolin_put_be32, buffer, sizeof buffer, sizeof buffer, 1);
    DEPTH(lanolin_pair_swap, 1, 2);
    DEPTH(lanolin_pair_isnull, 1, 2);
    DEPTH(lanolin_pair_cmp, 1, 2, 3, 4);
    DEPTH(lanolin_pair_issync, 1, 2, 2, 1);
    STATE_LEAVES(STATE_DEPTH)
    DEPTH(lanolin_gstate_hasmovehere, &state, 1, 2);
    DEPTH(lanolin_gstate_xor, &state, &STILL);
}

int main(void) {
    leaves();
    without_forward();
    format(PROG);
    DEPTH(lanolin_compact, G, PAIR, 0, 0, DOCUMENT, ONES); /* no slot */
    const uint32_t first = lanolin_fetch(G, PAIR, 0, 0).dir.off;
    fill(SLOTS);
    reading();
    finding("q212", DOCUMENT, LANOLIN_OK);
    indexing(first, DOCUMENT, 3 * SLOTS);
    committing(DOCUMENT, ONES);
    finding("q212", DOCUMENT, LANOLIN_OK); /* a delete and a rename are in the log */
    indexing(first, DOCUMENT, 3 * SLOTS);
    compacting(DOCUMENT, ONES);
    DEPTH(lanolin_compact, G, PAIR, 0, 0, DOCUMENT, ZEROS); /* moved to a board of the other byte */
    committing(DOCUMENT, ZEROS);
    compacting(DOCUMENT, ZEROS);
    name_all(SLOTS);
    finding("\xff", DOCUMENT, LANOLIN_ERR_IRREGULAR);
    finding("\xff", LITTLEFS, LANOLIN_OK);
    indexing(lanolin_fetch(G, PAIR, 0, 0).dir.off, LITTLEFS, SLOTS); /* one commit */
    DEPTH(lanolin_compact, G, PAIR, 0, 0, DOCUMENT, ONES); /* -202 */
    DEPTH(lanolin_compact_with, G, PAIR, 0, 0, DOCUMENT, ONES, table, WORDS);
    committing(LITTLEFS, ONES);
    compacting(LITTLEFS, ONES);
    for (int i = 0; calls[i].name; i++) printf("%s %ld\n", calls[i].name, calls[i].most);
    return 0;
}
