/* deadline.c: prints the deadline of a slot, in seconds: the four bytes of its user attribute 0x74.
 *
 *     deadline FILE [SLOT]     FILE has both blocks of a pair, one behind the other; without SLOT it is slot 0
 *
 * Exits 1 if the pair is refused or the slot has no deadline or one of another length, which can't be read; 2 if it is
 * used wrongly or the file can't be read. */
#include "lanolin.h"

#include <stdio.h>
#include <stdlib.h>

static int print_deadline(const uint8_t *b0, size_t len0, const uint8_t *b1, size_t len1, unsigned long slot) {
    lanolin_geometry g = {.block_size = (uint32_t)len0, .prog_size = 16};
    lanolin_fetched pair = lanolin_fetch(g, b0, len0, b1, len1, 0, 1, 0, 0);
    if (pair.result != LANOLIN_OK) return fprintf(stderr, "the pair is refused: %d\n", (int)pair.result), 1;
    if (slot >= pair.dir.count) return fprintf(stderr, "there is no slot %lu\n", slot), 1;

    uint8_t seconds[4];
    uint32_t key = lanolin_mktag(LANOLIN_TYPE_USERATTR + 0x74, (uint32_t)slot, 0);
    lanolin_got got = lanolin_getslice(g, b0, len0, b1, len1, 0, 1, pair.dir, (lanolin_gstate){0},
                                       LANOLIN_MASK_TYPE, key, 0, seconds, sizeof seconds);
    if (got.result == LANOLIN_ERR_NOENT) return fprintf(stderr, "slot %lu has no deadline\n", slot), 1;
    if (got.result != LANOLIN_OK) return fprintf(stderr, "the lookup is refused: %d\n", (int)got.result), 1;
    unsigned long size = got.length - 4; /* the tag's own four bytes are counted */
    if (size != sizeof seconds) return fprintf(stderr, "slot %lu has a deadline of %lu bytes\n", slot, size), 1;
    printf("%lu\n", (unsigned long)lanolin_le32_at(seconds, 4, 0).value);
    return 0;
}

int main(int argc, char **argv) {
    static uint8_t image[2 * 32768 + 2]; /* two bytes more than the largest pair: fetch refuses a longer file */
    char *end = "";
    unsigned long slot = argc == 3 ? strtoul(argv[2], &end, 10) : 0;
    if (argc < 2 || argc > 3 || *end || (argc == 3 && !*argv[2]))
        return fprintf(stderr, "usage: deadline FILE [SLOT]   (both blocks of a pair, as in samples/q212.pair)\n"), 2;
    FILE *file = fopen(argv[1], "rb");
    if (!file) return perror(argv[1]), 2;
    size_t size = fread(image, 1, sizeof image, file);
    if (ferror(file)) return perror(argv[1]), 2;
    return print_deadline(image, size / 2, image + size / 2, size - size / 2, slot);
}
