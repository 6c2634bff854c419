/* restart.c: a controller's restart. It reads a metadata pair, finds every instruction's payload and deadline, hangs
 * the instructions on a timer wheel and prints them in the order in which they come due; then those that lack a
 * deadline or a payload, so that none is dropped in silence.
 *
 *     restart FILE     FILE has both blocks of the pair, one behind the other
 *
 * Exits 2 if it is no such file, 1 if its pair is refused.
 *
 * No heap: all that it needs stands below, for the largest pair that there is. */
#include "lanolin.h"

#include <stdio.h>
#include <stdlib.h>
#include <string.h>

enum { PROG_SIZE = 16, MOST_BLOCK = 32768 };
enum { DEADLINE = LANOLIN_TYPE_USERATTR + 0x74 }; /* the byte that this controller chose */
enum { BUCKETS = 64, NONE = 0xffff };

typedef struct {
    bool payload, attribute; /* whether there is one */
    uint32_t length;         /* the payload's, in bytes */
    uint32_t attribute_size; /* of another length than four bytes a deadline is there, and can't be read */
    uint32_t deadline;       /* in seconds */
    uint16_t next;           /* the slot behind this one in its bucket */
} slot_t;

static uint8_t image[2 * MOST_BLOCK + 1]; /* one byte more: a longer file is seen */
static lanolin_geometry g;
static lanolin_mdir dir;
static slot_t slots[LANOLIN_SLOTS_MAX];
static uint16_t wheel[BUCKETS]; /* the first slot of each bucket */

static void give_up(int status, const char *what, const char *why) {
    fprintf(stderr, "%s: %s\n", what, why);
    exit(status);
}

/* Fetch's three refusals. It's proved that it gives no other. */
static const char *why(int32_t refusal) {
    if (refusal == LANOLIN_ERR_INVAL) return "refused, -22: a block has 128 to 32,768 bytes, a multiple of 16";
    if (refusal == LANOLIN_ERR_CORRUPT) return "refused, -84: neither block has a valid commit";
    if (refusal == LANOLIN_ERR_NOENT) return "refused, -2: more than 1,023 slots";
    return "no answer of fetch's: the archive and lanolin.h don't belong together";
}

static void read_pair(const char *file) {
    FILE *f = fopen(file, "rb");
    if (!f) give_up(2, file, "can't be opened");
    size_t size = fread(image, 1, sizeof image, f);
    if (ferror(f)) give_up(2, file, "can't be read");
    fclose(f);
    if (size == 0 || size % 2 || size > 2 * MOST_BLOCK)
        give_up(2, file, "not two blocks of equal size, of 32,768 bytes at most");
    g = (lanolin_geometry){.block_size = (uint32_t)size / 2, .prog_size = PROG_SIZE};

    lanolin_fetched fetched = lanolin_fetch(g, image, g.block_size, image + g.block_size, g.block_size, 0, 1, 0, 0);
    if (fetched.result != LANOLIN_OK) give_up(1, file, why(fetched.result));
    dir = fetched.dir;
}

/* The newest entry of a slot, and as many of its bytes as are asked for; its length says how many there are, whatever
 * the buffer's. The global state is zero, no pending move: one pair alone can't tell. A controller with several pairs
 * XORs the move states of all of them (lanolin_getgstate) and hands in the sum. */
static bool look(uint32_t mask, uint32_t type, uint16_t id, uint8_t *buffer, size_t size, lanolin_got *got) {
    *got = lanolin_getslice(g, image, g.block_size, image + g.block_size, g.block_size, 0, 1, dir, (lanolin_gstate){0},
                            mask, lanolin_mktag(type, id, 0), 0, buffer, size);
    /* With the record that fetch gave no other refusal comes; if one did, to go on would be to lose an instruction. */
    if (got->result != LANOLIN_OK && got->result != LANOLIN_ERR_NOENT) give_up(1, "lookup", "refused");
    return got->result == LANOLIN_OK;
}

/* How many bytes of data an entry has: the tag's own four are counted in its length. */
static uint32_t size_of(lanolin_got got) { return got.length - 4; }

/* Reads what the slot has. Directories and the superblock are no instructions; they stay without payload and
 * attribute. */
static void read_slot(uint16_t id) {
    slot_t *slot = &slots[id];
    uint8_t ctz[8], seconds[4];
    lanolin_got got;
    if (look(LANOLIN_MASK_CLASS, LANOLIN_TYPE_NAME, id, NULL, 0, &got)) {
        uint32_t type = lanolin_tag_type3(got.tag);
        if (type == LANOLIN_TYPE_DIR || type == LANOLIN_TYPE_SUPERBLOCK) return;
    }
    if (look(LANOLIN_MASK_CLASS, LANOLIN_TYPE_STRUCT, id, ctz, sizeof ctz, &got)) {
        uint32_t type = lanolin_tag_type3(got.tag), size = size_of(got);
        slot->payload = type == LANOLIN_TYPE_CTZSTRUCT || (type == LANOLIN_TYPE_INLINESTRUCT && size > 0);
        /* a CTZ struct: last block, then length */
        slot->length = type == LANOLIN_TYPE_CTZSTRUCT ? lanolin_le32_at(ctz, sizeof ctz, 4).value : size;
    }
    if (look(LANOLIN_MASK_TYPE, DEADLINE, id, seconds, sizeof seconds, &got)) {
        slot->attribute = true;
        slot->attribute_size = size_of(got);
        slot->deadline = lanolin_le32_at(seconds, sizeof seconds, 0).value;
    }
}

static bool has_deadline(const slot_t *slot) { return slot->attribute && slot->attribute_size == 4; }

/* A slot's bucket is its deadline modulo their number, and each bucket has its earliest first: a tick looks at one
 * head. Equal deadlines share a bucket and keep the order of their slots. */
static void hang(uint16_t id) {
    uint16_t *link = &wheel[slots[id].deadline % BUCKETS];
    while (*link != NONE && slots[*link].deadline <= slots[id].deadline) link = &slots[*link].next;
    slots[id].next = *link;
    *link = id;
}

/* Takes the next one to come due off the wheel. It may be years off, so no tick is counted: it's the earliest of the
 * heads. */
static uint16_t next_due(void) {
    uint16_t *first = &wheel[0];
    for (int b = 1; b < BUCKETS; b++)
        if (*first == NONE || (wheel[b] != NONE && slots[wheel[b]].deadline < slots[*first].deadline))
            first = &wheel[b];
    uint16_t id = *first;
    if (id != NONE) *first = slots[id].next;
    return id;
}

static void print_name(uint16_t id) {
    static uint8_t name[LANOLIN_ATTR_MAX];
    lanolin_got got;
    bool found = look(LANOLIN_MASK_CLASS, LANOLIN_TYPE_NAME, id, name, sizeof name, &got);
    if (!found) printf("-");
    for (uint32_t i = 0; found && i < size_of(got); i++)
        printf(name[i] >= 0x21 && name[i] <= 0x7e && name[i] != '\\' ? "%c" : "\\x%02x", name[i]);
}

static void print_slot(const char *mark, uint16_t id) {
    const slot_t *slot = &slots[id];
    printf("%s %u ", mark, id);
    print_name(id);
    if (slot->payload) printf(" payload %lu", (unsigned long)slot->length);
    else printf(" payload -");
    if (has_deadline(slot)) printf(" deadline %lu\n", (unsigned long)slot->deadline);
    else if (slot->attribute) printf(" deadline of %lu bytes\n", (unsigned long)slot->attribute_size);
    else printf(" deadline -\n");
}

int main(int argc, char **argv) {
    if (argc != 2)
        return fprintf(stderr, "usage: restart FILE   (both blocks of a pair, as in samples/q212.pair)\n"), 2;
    read_pair(argv[1]);
    memset(wheel, 0xff, sizeof wheel); /* NONE everywhere */
    for (uint16_t id = 0; id < dir.count; id++) {
        read_slot(id);
        if (slots[id].payload && has_deadline(&slots[id])) hang(id);
    }
    for (uint16_t id = next_due(); id != NONE; id = next_due()) print_slot("due", id);
    for (uint16_t id = 0; id < dir.count; id++)
        if (slots[id].payload && !has_deadline(&slots[id])) print_slot("NO DEADLINE", id);
    for (uint16_t id = 0; id < dir.count; id++)
        if (!slots[id].payload && slots[id].attribute) print_slot("NO PAYLOAD", id);
    /* a hard tail: the rest of the directory is in another pair */
    if (dir.split) printf("goes on in blocks %lu and %lu\n", (unsigned long)dir.tail[0], (unsigned long)dir.tail[1]);
    return 0;
}
