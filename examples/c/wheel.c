/* wheel.c: the timer wheel of a controller's restart, rebuilt from an index: one build and one pass over its table,
 * where restart.c asks slot by slot and each lookup walks the block. Prints each instruction's slot, name and deadline
 * in the order in which they come due; then those that lack a deadline or a payload, so that none is dropped in
 * silence.
 *
 *     wheel FILE     FILE has both blocks of the pair, one behind the other: one that this library wrote, or littlefs
 *
 * Its rule is restart.c's. A deadline is the user attribute 0x74 of four bytes; of another length it can't be read, and
 * beside a payload it counts as missing. Exits 2 if it is no such file, 1 if its pair is refused.
 *
 * No heap: all that it needs stands below, for the largest pair that there is. */
#include "lanolin.h"

#include <stdio.h>
#include <stdlib.h>
#include <string.h>

enum { PROG_SIZE = 16, MOST_BLOCK = 32768 };
enum { SOME_WORDS = 32, MOST_WORDS = MOST_BLOCK / 2 }; /* the most that a block can need: see lanolin.h */
enum { DEADLINE = LANOLIN_TYPE_USERATTR + 0x74 };      /* the byte that this controller chose */
enum { BUCKETS = 64, NONE = 0xffff };

typedef struct {
    bool other;               /* a directory or the superblock, which are no instructions */
    bool payload, attribute;  /* whether there is one */
    uint32_t attribute_size;  /* of another length than four bytes a deadline is there, and can't be read */
    uint32_t deadline;        /* in seconds */
    uint32_t name, name_size; /* where the name stands in the block; of no bytes where there is none */
    uint16_t next;            /* the slot behind this one in its bucket */
} slot_t;

static uint8_t image[2 * MOST_BLOCK + 1]; /* one byte more: a longer file is seen */
static lanolin_geometry g;
static lanolin_mdir dir;
static const uint8_t *block; /* the one that answers */
static uint32_t table[MOST_WORDS];
static slot_t slots[LANOLIN_SLOTS_MAX];
static uint16_t wheel[BUCKETS]; /* the first slot of each bucket */

static void give_up(int status, const char *what, const char *why) {
    fprintf(stderr, "%s: %s\n", what, why);
    exit(status);
}

/* The refusals of fetch and of an index whose table is long enough. It's proved that they give no other. */
static const char *why(int32_t refusal) {
    if (refusal == LANOLIN_ERR_INVAL) return "refused, -22: a block has 128 to 32,768 bytes, a multiple of 16";
    if (refusal == LANOLIN_ERR_CORRUPT) return "refused, -84: neither block has a valid commit";
    if (refusal == LANOLIN_ERR_NOENT) return "refused, -2: more than 1,023 slots";
    if (refusal == LANOLIN_ERR_IRREGULAR) return "refused, -202: the log isn't regular; restart reads it all the same";
    return "no answer of theirs: the archive and lanolin.h don't belong together";
}

static void read_pair(const char *file) {
    FILE *f = fopen(file, "rb");
    if (!f) give_up(2, file, "can't be opened");
    size_t size = fread(image, 1, sizeof image, f);
    if (ferror(f)) give_up(2, file, "can't be read");
    fclose(f);
    if (size == 0 || size % 2 || size > 2 * MOST_BLOCK)
        give_up(2, file, "not two blocks of equal size, of 32,768 bytes at most");
    g = (lanolin_geometry){.block_size = (uint32_t)size / 2, .prog_size = PROG_SIZE};

    lanolin_fetched fetched = lanolin_fetch(g, image, g.block_size, image + g.block_size, g.block_size, 0, 1, 0, 0);
    if (fetched.result != LANOLIN_OK) give_up(1, file, why(fetched.result));
    dir = fetched.dir;
    block = dir.pair[0] == 0 ? image : image + g.block_size;
}

/* Builds the index, and answers how many places are in use. A short table is soon built; where it is too short, one of
 * twice its length is lent, up to the longest, which always does. */
static uint32_t build_index(const char *file) {
    for (size_t words = SOME_WORDS;; words *= 2) {
        lanolin_indexed indexed = lanolin_index(g, image, g.block_size, image + g.block_size, g.block_size, 0, 1, dir,
                                                LANOLIN_RULES_LITTLEFS, table, words);
        if (indexed.result == LANOLIN_OK) return indexed.places;
        if (indexed.result != LANOLIN_ERR_TABLE || words == MOST_WORDS) give_up(1, file, why(indexed.result));
    }
}

/* What a place says of its slot. No move is pending, as far as one pair alone can tell. */
static void read_place(uint32_t tag, uint32_t off) {
    slot_t *slot = &slots[lanolin_tag_id(tag)];
    const uint32_t type = lanolin_tag_type3(tag), size = lanolin_tag_size(tag);
    if (lanolin_tag_type1(tag) == LANOLIN_TYPE_NAME) {
        slot->other = type == LANOLIN_TYPE_DIR || type == LANOLIN_TYPE_SUPERBLOCK;
        slot->name = off;
        slot->name_size = size;
    } else if (lanolin_tag_type1(tag) == LANOLIN_TYPE_STRUCT) {
        slot->payload = type == LANOLIN_TYPE_CTZSTRUCT || (type == LANOLIN_TYPE_INLINESTRUCT && size > 0);
    } else if (type == DEADLINE) {
        slot->attribute = true;
        slot->attribute_size = size;
        slot->deadline = size == 4 ? lanolin_le32_at(block, g.block_size, off).value : 0;
    }
}

static bool has_deadline(const slot_t *slot) { return slot->attribute && slot->attribute_size == 4; }

/* A slot's bucket is its deadline modulo their number, and each bucket has its earliest first. Equal deadlines share a
 * bucket and keep the order of their slots. */
static void hang(uint16_t id) {
    uint16_t *link = &wheel[slots[id].deadline % BUCKETS];
    while (*link != NONE && slots[*link].deadline <= slots[id].deadline) link = &slots[*link].next;
    slots[id].next = *link;
    *link = id;
}

/* Takes the next one to come due off the wheel: the earliest of the heads. */
static uint16_t next_due(void) {
    uint16_t *first = &wheel[0];
    for (int b = 1; b < BUCKETS; b++)
        if (*first == NONE || (wheel[b] != NONE && slots[wheel[b]].deadline < slots[*first].deadline))
            first = &wheel[b];
    uint16_t id = *first;
    if (id != NONE) *first = slots[id].next;
    return id;
}

static void print_slot(const char *mark, uint16_t id) {
    const slot_t *slot = &slots[id];
    const uint8_t *name = block + slot->name;
    printf("%s %u ", mark, id);
    if (slot->name_size == 0) printf("-");
    for (uint32_t i = 0; i < slot->name_size; i++)
        printf(name[i] >= 0x21 && name[i] <= 0x7e && name[i] != '\\' ? "%c" : "\\x%02x", name[i]);
    if (has_deadline(slot)) printf(" deadline %lu\n", (unsigned long)slot->deadline);
    else if (slot->attribute) printf(" deadline of %lu bytes\n", (unsigned long)slot->attribute_size);
    else printf(" deadline -\n");
}

int main(int argc, char **argv) {
    if (argc != 2)
        return fprintf(stderr, "usage: wheel FILE   (both blocks of a pair, as in samples/q212.pair)\n"), 2;
    read_pair(argv[1]);
    const uint32_t places = build_index(argv[1]);
    for (uint32_t i = 0; i < places; i++) read_place(table[2 * i], table[2 * i + 1]);
    memset(wheel, 0xff, sizeof wheel); /* NONE everywhere */
    for (uint16_t id = 0; id < dir.count; id++)
        if (!slots[id].other && slots[id].payload && has_deadline(&slots[id])) hang(id);
    for (uint16_t id = next_due(); id != NONE; id = next_due()) print_slot("due", id);
    for (uint16_t id = 0; id < dir.count; id++)
        if (!slots[id].other && slots[id].payload && !has_deadline(&slots[id])) print_slot("NO DEADLINE", id);
    for (uint16_t id = 0; id < dir.count; id++)
        if (!slots[id].other && !slots[id].payload && slots[id].attribute) print_slot("NO PAYLOAD", id);
    /* a hard tail: the rest of the directory is in another pair */
    if (dir.split) printf("goes on in blocks %lu and %lu\n", (unsigned long)dir.tail[0], (unsigned long)dir.tail[1]);
    return 0;
}
