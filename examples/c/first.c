#include "lanolin.h"
#include <stdio.h>

int main(void) { /* the deadline of slot 0 of samples/q212.pair, which stands on standard input */
    uint8_t b0[128], b1[128], seconds[4];
    if (fread(b0, 1, 128, stdin) != 128 || fread(b1, 1, 128, stdin) != 128) return 2;
    lanolin_geometry g = {.block_size = 128, .prog_size = 16};
    lanolin_fetched pair = lanolin_fetch(g, b0, 128, b1, 128, 0, 1, 0, 0);
    if (pair.result != LANOLIN_OK) return 1;
    lanolin_got got = lanolin_getslice(g, b0, 128, b1, 128, 0, 1, pair.dir, (lanolin_gstate){0}, LANOLIN_MASK_TYPE,
                                       lanolin_mktag(LANOLIN_TYPE_USERATTR + 0x74, 0, 0), 0, seconds, 4);
    if (got.result != LANOLIN_OK) return 1;
    if (got.length != 4 + sizeof seconds) return printf("deadline of %u bytes\n", (unsigned)got.length - 4), 1;
    printf("%u\n", (unsigned)lanolin_le32_at(seconds, 4, 0).value);
}
