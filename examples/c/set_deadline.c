/* set_deadline.c: gives a slot a new deadline, in seconds: a commit of its user attribute 0x74. Where there is no room
 * for it, says why, compacts the pair and commits once more.
 *
 *     set_deadline FILE SLOT SECONDS [PROG_SIZE [ERASED]]
 *
 * FILE has both blocks of a pair, one behind the other, and is written anew: one that this library wrote, or littlefs
 * itself. Without PROG_SIZE it is 16. ERASED is what the flash reads as after an erase, ff or 00; without it ff. A pair
 * that comes from a board of the other byte is compacted first. Exits 1 if it is refused, with FILE as it was; 2 if it
 * is used wrongly or the file can't be read or written. */
#include "lanolin.h"

#include <stdio.h>
#include <stdlib.h>
#include <string.h>

/* What the service desk is told. `end` is where the log ends: there a commit begins, and there a torn one shows. */
static void say_why(lanolin_committed refused, uint32_t end) {
    printf("no room, %d: ", (int)refused.result);
    switch (refused.result) {
    case LANOLIN_ERR_NOSPC: puts("the block is full"); break;
    case LANOLIN_ERR_MISALIGNED: puts("the log's end is no multiple of the program size"); break;
    case LANOLIN_ERR_VALIDITY: puts("the end tag has the wrong validity bit"); break;
    case LANOLIN_ERR_NOTERASED:
        printf("byte %lu isn't erased, %s\n", (unsigned long)refused.index,
               refused.index == end ? "as after a commit that was cut short" : "which no commit of ours left");
    }
}

static int set_deadline(uint8_t *b0, uint8_t *b1, lanolin_geometry g, uint8_t erased, uint16_t slot, uint32_t seconds) {
    const uint32_t size = g.block_size;
    const uint32_t rules = LANOLIN_RULES_LITTLEFS; /* the pair may be one that littlefs itself compacted */
    const lanolin_entry entry = {LANOLIN_TYPE_USERATTR + 0x74, slot, 0, 4};
    uint8_t data[4];
    lanolin_put_le32(data, sizeof data, 0, seconds);
    lanolin_fetched known = lanolin_fetch(g, b0, size, b1, size, 0, 1, 0, 0);
    lanolin_committed c =
        lanolin_commit(g, b0, size, b1, size, 0, 1, 0, 0, rules, erased, &entry, 1, data, sizeof data);
    if (LANOLIN_NEEDS_COMPACTION(c.result)) {
        say_why(c, known.dir.off);
        c = lanolin_compact(g, b0, size, b1, size, 0, 1, 0, 0, rules, erased);
        if (c.result == LANOLIN_OK) {
            puts("compacted");
            /* behind a compaction the old record serves no more; this is a fetch's answer */
            known.dir = c.dir;
            known.seed = c.seed;
            c = lanolin_commit(g, b0, size, b1, size, 0, 1, 0, 0, rules, erased, &entry, 1, data, sizeof data);
        }
    }
    if (c.result != LANOLIN_OK) return fprintf(stderr, "refused: %d\n", (int)c.result), 1;
    /* behind a commit only what it wrote is walked again */
    lanolin_fetched now = lanolin_refetch(g, b0, size, b1, size, 0, 1, 0, known.seed, known.dir);
    if (now.result != LANOLIN_OK) return fprintf(stderr, "refused: %d\n", (int)now.result), 1;
    printf("committed: revision %lu, end %lu\n", (unsigned long)now.dir.rev, (unsigned long)now.dir.off);
    return 0;
}

/* A whole decimal number of at most `most`. */
static int number(const char *text, unsigned long most, unsigned long *value) {
    char *end;
    if (*text < '0' || *text > '9') return 0;
    *value = strtoul(text, &end, 10);
    return !*end && *value <= most;
}

/* The erased byte: ff or 00. */
static int erased_byte(const char *text, uint8_t *value) {
    *value = strcmp(text, "00") ? LANOLIN_ERASED_ONES : LANOLIN_ERASED_ZEROS;
    return *value == LANOLIN_ERASED_ZEROS || !strcmp(text, "ff");
}

int main(int argc, char **argv) {
    static uint8_t image[2 * 32768 + 2]; /* two bytes more than the largest pair: it is refused */
    unsigned long slot, seconds, prog_size = 16;
    uint8_t erased = LANOLIN_ERASED_ONES;
    if (argc < 4 || argc > 6 || !number(argv[2], 0xffff, &slot) || !number(argv[3], 0xffffffff, &seconds) ||
        (argc > 4 && !number(argv[4], 0xffffffff, &prog_size)) || (argc > 5 && !erased_byte(argv[5], &erased))) {
        fprintf(stderr, "usage: set_deadline FILE SLOT SECONDS [PROG_SIZE [ERASED]]   (both blocks of a pair)\n");
        return 2;
    }
    FILE *file = fopen(argv[1], "r+b");
    if (!file) return perror(argv[1]), 2;
    size_t read = fread(image, 1, sizeof image, file), half = read / 2;
    if (ferror(file)) return perror(argv[1]), 2;
    if (read % 2) return fprintf(stderr, "%s: not two blocks of one size\n", argv[1]), 2;
    const lanolin_geometry g = {(uint32_t)half, (uint32_t)prog_size};
    int status = set_deadline(image, image + half, g, erased, (uint16_t)slot, (uint32_t)seconds);
    if (status) return status;
    rewind(file);
    if (fwrite(image, 1, read, file) != read || fclose(file)) return perror(argv[1]), 2;
    return 0;
}
