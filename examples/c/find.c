/* find.c: prints the slot and the deadline of a file, asked for by its name: what a clerk at the gate wants to know of
 * an instruction. The deadline, in seconds, is the four bytes of its user attribute 0x74.
 *
 *     find FILE NAME     FILE has both blocks of a pair, one behind the other: one that this library wrote, or littlefs
 *
 * It looks in this pair alone; a directory may go on in another one. A deadline of another length can't be read: its
 * length is told. Exits 1 if no file has the name or it is refused; 2 if it is used wrongly or the file can't be
 * read. */
#include "lanolin.h"

#include <stdio.h>
#include <string.h>

static int refused(int32_t result) { return fprintf(stderr, "refused: %d\n", (int)result), 1; }

static int print_found(const uint8_t *b0, size_t len0, const uint8_t *b1, size_t len1, const char *name) {
    lanolin_geometry g = {.block_size = (uint32_t)len0, .prog_size = 16};
    const uint32_t rules = LANOLIN_RULES_LITTLEFS; /* the pair may be one that littlefs itself compacted */
    lanolin_named named = lanolin_find(g, b0, len0, b1, len1, 0, 1, 0, 0, rules, (const uint8_t *)name, strlen(name),
                                       LANOLIN_TYPE_REG);
    if (named.result != LANOLIN_OK) return refused(named.result);
    if (!named.found) return fprintf(stderr, "no file named %s\n", name), 1;

    uint8_t seconds[4];
    uint32_t key = lanolin_mktag(LANOLIN_TYPE_USERATTR + 0x74, named.id, 0);
    lanolin_mdir dir = lanolin_fetch(g, b0, len0, b1, len1, 0, 1, 0, 0).dir; /* what fetch refuses, find has refused */
    lanolin_got got = lanolin_getslice(g, b0, len0, b1, len1, 0, 1, dir, (lanolin_gstate){0},
                                       LANOLIN_MASK_TYPE, key, 0, seconds, sizeof seconds);
    if (got.result != LANOLIN_OK && got.result != LANOLIN_ERR_NOENT) return refused(got.result);
    printf("%s slot %lu ", name, (unsigned long)named.id);
    if (got.result == LANOLIN_ERR_NOENT) return puts("no deadline"), 0;
    unsigned long size = got.length - 4; /* the tag's own four bytes are counted */
    if (size != sizeof seconds) return printf("deadline of %lu bytes\n", size), 0;
    printf("deadline %lu\n", (unsigned long)lanolin_le32_at(seconds, 4, 0).value);
    return 0;
}

int main(int argc, char **argv) {
    static uint8_t image[2 * 32768 + 2]; /* two bytes more than the largest pair: a longer file is refused */
    if (argc != 3)
        return fprintf(stderr, "usage: find FILE NAME   (both blocks of a pair, as in samples/q212.pair)\n"), 2;
    FILE *file = fopen(argv[1], "rb");
    if (!file) return perror(argv[1]), 2;
    size_t size = fread(image, 1, sizeof image, file);
    if (ferror(file)) return perror(argv[1]), 2;
    return print_found(image, size / 2, image + size / 2, size - size / 2, argv[2]);
}
