/* Calls every function of include/lanolin.h through the archive, on document 01's listing pair and at the edges. Prints
 * each failed line and exits 1, or one line with the number of checks. What is expected comes from document 01 and from
 * the format, worked out by hand.
 *
 *     lanolin_test SAMPLES     the directory that has instructions.pair */
#include "lanolin.h"

#include <stdio.h>
#include <string.h>

static int checks, failures;
#define EXPECT(c) (checks++, (c) ? (void)0 : (failures++, (void)printf("%s:%d: not so: %s\n", __FILE__, __LINE__, #c)))

/* Document 01's listing input: one slot, q212, with the payload abc and the deadline 90 5f 01 00 under attribute type
 * 0x74. */
static const uint8_t LISTED[39] = {0x01, 0x00, 0x00, 0x00, 0xbf, 0xef, 0xff, 0xff, 0x40, 0x00, 0x00, 0x04, 'q',
                                   '2',  '1',  '2',  0x20, 0x00, 0x00, 0x07, 'a',  'b',  'c',  0x17, 0x50, 0x00,
                                   0x07, 0x90, 0x5f, 0x01, 0x00, 0x67, 0x4f, 0xfc, 0x09, 0x47, 0x38, 0xe4, 0x4d};

enum { DOCUMENT = LANOLIN_RULES_DOCUMENT, LITTLEFS = LANOLIN_RULES_LITTLEFS };
enum { ONES = LANOLIN_ERASED_ONES, ZEROS = LANOLIN_ERASED_ZEROS };

static const lanolin_geometry G = {128, 16};
static const lanolin_gstate STILL = {0, {0, 0}};
static uint8_t b0[128], b1[128];

static lanolin_fetched fetch(uint32_t n0, uint32_t n1, uint32_t block_count, uint32_t seed) {
    return lanolin_fetch(G, b0, sizeof b0, b1, sizeof b1, n0, n1, block_count, seed);
}

static lanolin_got slice(lanolin_mdir dir, lanolin_gstate gdisk, uint32_t mask, uint32_t key, uint32_t off,
                         uint8_t *buffer, size_t size) {
    return lanolin_getslice(G, b0, sizeof b0, b1, sizeof b1, 0, 1, dir, gdisk, mask, key, off, buffer, size);
}

static int is_zero(const void *p, size_t n) {
    for (size_t i = 0; i < n; i++)
        if (((const uint8_t *)p)[i]) return 0;
    return 1;
}

/* Field by field: between `forward` and `forward_size` any bytes may stand. */
static int same_dir(lanolin_mdir a, lanolin_mdir b) {
    return a.pair[0] == b.pair[0] && a.pair[1] == b.pair[1] && a.rev == b.rev && a.off == b.off && a.etag == b.etag &&
           a.count == b.count && a.erased == b.erased && a.split == b.split && a.tail[0] == b.tail[0] &&
           a.tail[1] == b.tail[1] && a.forward == b.forward && a.forward_size == b.forward_size &&
           a.forward_sum == b.forward_sum;
}

static int is_no_dir(lanolin_mdir dir) { return same_dir(dir, (lanolin_mdir){0}); }

/* The last forward check of the log: of so many bytes, with this checksum; of 0 and 0 none. The bool as the byte that
 * it is: exactly 0 or 1. */
static int has_forward(lanolin_mdir dir, uint32_t size, uint32_t sum) {
    return *(const uint8_t *)&dir.forward == (size || sum) && dir.forward_size == size && dir.forward_sum == sum;
}

/* Found, with these three words. */
static int is_found(lanolin_got got, uint32_t tag, uint32_t length, uint32_t off) {
    return got.result == 0 && got.tag == tag && got.length == length && got.off == off;
}

/* Refused so, and all else 0. */
static int is_refused(lanolin_got got, int32_t result) {
    return got.result == result && got.tag == 0 && got.length == 0 && got.off == 0;
}

static void test_fetch(void) {
    lanolin_fetched f = fetch(0, 1, 0, 0);
    EXPECT(f.result == 0 && f.dir.pair[0] == 0 && f.dir.pair[1] == 1 && f.dir.rev == 1 && f.dir.off == 48);
    EXPECT(f.dir.etag == 0x500ffc0d && f.dir.count == 1 && !f.dir.erased && !f.dir.split);
    EXPECT(f.dir.tail[0] == 0xffffffff && f.dir.tail[1] == 0xffffffff && f.seed == lanolin_crc(0, LISTED + 35, 4));
    EXPECT(has_forward(f.dir, 0, 0));
    f = fetch(3, 3, 0, 7);
    EXPECT(f.result == -22 && f.seed == 7 && is_no_dir(f.dir));
    f = fetch(0, 9, 9, 7);
    EXPECT(f.result == -84 && f.seed == 7 && is_no_dir(f.dir));
    EXPECT(lanolin_fetch(G, b1, sizeof b1, b1, sizeof b1, 0, 1, 0, 7).result == -84);
    EXPECT(lanolin_fetch(G, b0, 127, b1, sizeof b1, 0, 1, 0, 7).result == -22);
    EXPECT(lanolin_fetch(G, NULL, 0, NULL, 0, 0, 1, 0, 7).result == -22);
}

static void test_lookups(void) {
    lanolin_mdir dir = fetch(0, 1, 0, 0).dir;
    uint8_t buffer[6] = {9, 9, 9, 9, 9, 9};
    lanolin_got got = slice(dir, STILL, 0x700ffc00, 0x00000000, 0, buffer, 6);
    EXPECT(is_found(got, 0x00100004, 8, 12) && !memcmp(buffer, "q212\0\0", 6));
    got = slice(dir, STILL, 0x7ffffc00, 0x37400000, 1, buffer, 2);
    EXPECT(is_found(got, 0x37400004, 8, 27) && !memcmp(buffer, "\x5f\x01\x31\x32\0\0", 6));
    got = slice(dir, STILL, 0x7ffffc00, 0x37500000, 0, buffer, 6);
    EXPECT(is_refused(got, -2) && !memcmp(buffer, "\x5f\x01\x31\x32\0\0", 6));
    got = slice(dir, STILL, 0x7ffffc00, 0x37400000, 1000, buffer, 6);
    EXPECT(is_refused(got, -84) && !memcmp(buffer, "\x5f\x01\x31\x32\0\0", 6));
    lanolin_gstate moving = {0x4ff00000, {1, 9}};
    EXPECT(is_refused(slice(dir, moving, 0x700ffc00, 0, 0, buffer, 6), -2));
    lanolin_mdir wrong = dir;
    wrong.off = 129;
    EXPECT(is_refused(slice(wrong, STILL, 0x700ffc00, 0, 0, buffer, 6), -22));
    memset(buffer, 9, 6);
    got = lanolin_get(G, b0, sizeof b0, b1, sizeof b1, 0, 1, dir, STILL, 0x7ffffc00, 0x37400005, buffer, 6);
    EXPECT(is_found(got, 0x37400004, 8, 27) && !memcmp(buffer, "\x90\x5f\x01\0\0\x09", 6));
    got = lanolin_get(G, b0, sizeof b0, b1, sizeof b1, 0, 1, dir, STILL, 0x7ffffc00, 0x37400002, buffer, 2);
    EXPECT(is_found(got, 0x37400004, 8, 27));
    got = lanolin_get(G, b0, sizeof b0, b1, sizeof b1, 0, 1, dir, STILL, 0x7ffffc00, 0x37400007, buffer, 6);
    EXPECT(is_refused(got, -22) && !memcmp(buffer, "\x90\x5f\x01\0\0\x09", 6));
    got = lanolin_get(G, b0, sizeof b0, b1, sizeof b1, 0, 1, dir, STILL, 0x7ffffc00, 0x37500004, buffer, 6);
    EXPECT(is_refused(got, -2) && !memcmp(buffer, "\x90\x5f\x01\0\0\x09", 6));
}

/* Length and place, as the listing's bytes have them: its tags stand at 4, 8, 16, 23 and 31, with 0, 4, 3, 4 and 13
 * bytes behind them. Under a mask without an id a create and a check are found too: one has no data, so that its place
 * is that of the next tag, and the data of the other end where the log does. */
static void test_places(void) {
    static const uint32_t ENTRIES[5][5] = {{0x7ff00000, 0x40100000, 0x40100000, 4, 8},
                                           {0x700ffc00, 0x00000000, 0x00100004, 8, 12},
                                           {0x700ffc00, 0x20000000, 0x20100003, 7, 20},
                                           {0x7ffffc00, 0x37400000, 0x37400004, 8, 27},
                                           {0x7ff00000, 0x50000000, 0x500ffc0d, 17, 35}};
    lanolin_mdir dir = fetch(0, 1, 0, 0).dir;
    uint8_t buffer[128];
    for (int i = 0; i < 5; i++) {
        const uint32_t *e = ENTRIES[i], size = e[3] - 4, last = 128 - e[4];
        /* no buffer, one that is too short, one of the data's length, a longer one */
        EXPECT(is_found(slice(dir, STILL, e[0], e[1], 0, NULL, 0), e[2], e[3], e[4]));
        EXPECT(is_found(slice(dir, STILL, e[0], e[1], 0, buffer, 1), e[2], e[3], e[4]));
        EXPECT(is_found(slice(dir, STILL, e[0], e[1], 0, buffer, size), e[2], e[3], e[4]));
        EXPECT(!memcmp(buffer, b0 + e[4], size));
        EXPECT(is_found(slice(dir, STILL, e[0], e[1], 0, buffer, sizeof buffer), e[2], e[3], e[4]));
        /* from the second byte on, behind the data, up to the block's end, and past it */
        EXPECT(is_found(slice(dir, STILL, e[0], e[1], 1, buffer, 2), e[2], e[3], e[4]));
        EXPECT(is_found(slice(dir, STILL, e[0], e[1], size, buffer, 4), e[2], e[3], e[4]));
        EXPECT(is_found(slice(dir, STILL, e[0], e[1], last - size, buffer, size), e[2], e[3], e[4]));
        EXPECT(is_found(slice(dir, STILL, e[0], e[1], last, NULL, 0), e[2], e[3], e[4]));
        EXPECT(is_refused(slice(dir, STILL, e[0], e[1], last + 1, buffer, size), -84));
        EXPECT(is_refused(slice(dir, STILL, e[0], e[1], 0xffffffff, NULL, 0), -84));
        EXPECT(e[4] + size <= dir.off);
    }
}

/* A reader of deadlines has a buffer of four bytes: that an attribute is longer or shorter shows in its length. */
static void test_lengths(void) {
    static const uint32_t SIZES[7] = {0, 1, 2, 3, 4, 5, LANOLIN_ATTR_MAX};
    static uint8_t c0[4096], c1[4096], data[LANOLIN_ATTR_MAX];
    const lanolin_geometry g = {4096, 16};
    uint32_t end = 48;
    memset(c0, 0xff, sizeof c0);
    memset(c1, 0xff, sizeof c1);
    memcpy(c0, LISTED, sizeof LISTED);
    memset(data, 7, sizeof data);
    for (int i = 0; i < 7; i++) {
        uint8_t read[4] = {9, 9, 9, 9};
        lanolin_entry entry = {0x374, 0, 0, SIZES[i]};
        lanolin_mdir dir =
            lanolin_commit(g, c0, 4096, c1, 4096, 0, 1, 0, 0, DOCUMENT, ONES, &entry, 1, data, sizeof data).dir;
        lanolin_got got = lanolin_getslice(g, c0, 4096, c1, 4096, 0, 1, dir, STILL, 0x7ffffc00, 0x37400000, 0, read, 4);
        size_t n = SIZES[i] < 4 ? SIZES[i] : 4;
        /* the commit's only entry begins at the old end */
        EXPECT(is_found(got, 0x37400000 + SIZES[i], 4 + SIZES[i], end + 4) && got.length == lanolin_tag_dsize(got.tag));
        EXPECT(!memcmp(read, data, n) && is_zero(read + n, 4 - n));
        end = dir.off;
    }
}

/* The deadline of a slot that moved: the tag has the present id, the place is where the entry stands. */
static void test_moved_places(void) {
    const lanolin_entry before = {0x401, 0, 0, 0}, gone = {0x374, 1, 0, LANOLIN_REMOVAL};
    const uint32_t mask = 0x7ffffc00, key = 0x37400400;
    uint8_t c0[128], c1[128], read[4];
    memcpy(c0, b0, sizeof c0);
    memcpy(c1, b1, sizeof c1);
    lanolin_mdir dir = lanolin_commit(G, c0, 128, c1, 128, 0, 1, 0, 0, DOCUMENT, ONES, &before, 1, NULL, 0).dir;
    lanolin_got got = lanolin_getslice(G, c0, 128, c1, 128, 0, 1, dir, STILL, mask, key, 0, read, 4);
    EXPECT(dir.count == 2 && is_found(got, 0x37400404, 8, 27) && !memcmp(read, c0 + 27, 4));
    /* compacted into the other block, behind one create more */
    dir = lanolin_compact(G, c0, 128, c1, 128, 0, 1, 0, 0, DOCUMENT, ONES).dir;
    got = lanolin_getslice(G, c0, 128, c1, 128, 0, 1, dir, STILL, mask, key, 0, read, 4);
    EXPECT(dir.pair[0] == 1 && is_found(got, 0x37400404, 8, 31) && !memcmp(read, c1 + 31, 4));
    /* a removal is never found */
    dir = lanolin_commit(G, c0, 128, c1, 128, 0, 1, 0, 0, DOCUMENT, ONES, &gone, 1, NULL, 0).dir;
    got = lanolin_getslice(G, c0, 128, c1, 128, 0, 1, dir, STILL, mask, key, 0, read, 4);
    EXPECT(dir.off == 96 && is_refused(got, -2));
}

static void test_info_and_state(void) {
    lanolin_mdir dir = fetch(0, 1, 0, 0).dir;
    lanolin_info info = lanolin_getinfo(G, b0, sizeof b0, b1, sizeof b1, 0, 1, dir, STILL, 255, 0);
    EXPECT(info.result == 0 && info.type == 1 && info.size == 3 && !strcmp((char *)info.name, "q212"));
    info = lanolin_getinfo(G, b0, sizeof b0, b1, sizeof b1, 0, 1, dir, STILL, 255, 1023);
    EXPECT(info.result == 0 && info.type == 2 && info.size == 0 && !strcmp((char *)info.name, "/"));
    info = lanolin_getinfo(G, b0, sizeof b0, b1, sizeof b1, 0, 1, dir, STILL, 255, 1);
    EXPECT(info.result == -2 && info.type == 0 && info.size == 0 && is_zero(info.name, 256));
    EXPECT(lanolin_getinfo(G, b0, sizeof b0, b1, sizeof b1, 0, 1, dir, STILL, 0, 1023).result == -22);
    EXPECT(lanolin_getinfo(G, b0, sizeof b0, b1, sizeof b1, 0, 1, dir, STILL, 255, 1024).result == -22);
    lanolin_gstate state = {5, {6, 7}};
    EXPECT(lanolin_getgstate(G, b0, sizeof b0, b1, sizeof b1, 0, 1, dir, STILL, &state) == 0);
    EXPECT(state.tag == 5 && state.pair[0] == 6 && state.pair[1] == 7);
    EXPECT(lanolin_getgstate(G, b0, sizeof b0, b1, sizeof b1, 0, 2, dir, STILL, &state) == -22);
    EXPECT(state.tag == 5 && state.pair[0] == 6 && state.pair[1] == 7);
}

/* A tag behind another, stored XORed with it. Answers the tag. */
static uint32_t chain(uint8_t *block, uint32_t at, uint32_t before, uint32_t tag) {
    EXPECT(lanolin_put_be32(block, 512, at, before ^ tag) == 0);
    return tag;
}

/* One commit: slot 0 with the name and an empty inline file. */
static void lay_named(uint8_t *block, uint32_t type, const uint8_t *name, uint32_t n) {
    memset(block, 0xff, 512);
    EXPECT(lanolin_put_le32(block, 512, 0, 1) == 0);
    uint32_t tag = chain(block, 4, 0xffffffff, lanolin_mktag(0x401, 0, 0));
    tag = chain(block, 8, tag, lanolin_mktag(type, 0, n));
    memcpy(block + 12, name, n);
    tag = chain(block, 12 + n, tag, lanolin_mktag(0x201, 0, 0));
    chain(block, 16 + n, tag, lanolin_mktag(0x500, 1023, 4));
    EXPECT(lanolin_put_le32(block, 512, 20 + n, lanolin_crc(0xffffffff, block, 20 + n)) == 0);
}

/* A name is read into name_max + 1 bytes. One of 255 has a zero behind it; longer ones fill all 256 and have none. */
static void test_long_names(void) {
    static const uint32_t LENGTHS[3] = {255, 256, 300};
    const lanolin_geometry g = {512, 16};
    uint8_t block[512], erased[512], name[300];
    memset(erased, 0xff, sizeof erased);
    for (int i = 0; i < 300; i++) name[i] = (uint8_t)('a' + i % 26);
    for (int i = 0; i < 3; i++) {
        uint32_t n = LENGTHS[i];
        lay_named(block, 0x001, name, n);
        lanolin_fetched f = lanolin_fetch(g, block, 512, erased, 512, 0, 1, 0, 0);
        EXPECT(f.result == 0 && f.dir.count == 1 && f.dir.off == 24 + n);
        lanolin_info info = lanolin_getinfo(g, block, 512, erased, 512, 0, 1, f.dir, STILL, 255, 0);
        EXPECT(info.result == 0 && info.type == 1 && info.size == 0);
        EXPECT(!memcmp(info.name, name, n < 256 ? n : 256) && (memchr(info.name, 0, 256) != NULL) == (n == 255));
        info = lanolin_getinfo(g, block, 512, erased, 512, 0, 1, f.dir, STILL, 254, 0);
        EXPECT(info.result == 0 && !memcmp(info.name, name, 255) && info.name[255] == 0);
        info = lanolin_getinfo(g, block, 512, erased, 512, 0, 1, f.dir, STILL, 3, 0);
        EXPECT(info.result == 0 && !memcmp(info.name, name, 4) && is_zero(info.name + 4, 252));
    }
}

static lanolin_info info_of(const uint8_t *log, size_t n, uint32_t id) {
    uint8_t block[128];
    memset(block, 0xff, sizeof block);
    memcpy(block, log, n);
    lanolin_mdir dir = lanolin_fetch(G, block, 128, b1, 128, 0, 1, 0, 0).dir;
    return lanolin_getinfo(G, block, 128, b1, 128, 0, 1, dir, STILL, 1, id);
}

/* What is answered here to the inputs of docs/DIFFERENCES.md; the Rust's answers stand there. */
static void test_differences(void) {
    static const uint8_t BARE[12] = {0, 0, 0, 0, 0xaf, 0xf0, 0x03, 0xfb, 0x42, 0x22, 0x53, 0x3b};
    static const uint8_t NO_STRUCT[16] = {0,    0,    0,    0,    0xff, 0xef, 0xff, 0xff,
                                          0x50, 0x1f, 0xfc, 0x00, 0x96, 0xc0, 0x57, 0x1d};
    static const uint8_t NO_SIZE[20] = {0,    0,    0,    0,    0xff, 0xef, 0xff, 0xff, 0x20, 0x10,
                                        0x00, 0x00, 0x70, 0x0f, 0xfc, 0x00, 0x79, 0xfe, 0x5a, 0x7f};
    static const uint8_t BIT_31[24] = {0,    0,    0,    0,    0x80, 0x00, 0x07, 0xff, 0x60, 0x00, 0x00, 0x00,
                                       0x5f, 0xdf, 0xf8, 0x00, 0x10, 0x2f, 0xfc, 0x00, 0xa9, 0x32, 0xeb, 0x2f};
    static const uint8_t FORWARD[24] = {1,    0,    0,    0,    0xa0, 0x00, 0x03, 0xf7, 0x69, 0,    0,    0,
                                        0x4b, 0x40, 0x5a, 0x9a, 0x0f, 0xf0, 0x00, 0x0c, 0x7b, 0x75, 0xb6, 0x92};
    lanolin_info info = info_of(BARE, sizeof BARE, 1023);
    EXPECT(info.result == 0 && info.type == 2 && info.size == 0 && info.name[0] == '/' && is_zero(info.name + 1, 255));
    info = info_of(NO_STRUCT, sizeof NO_STRUCT, 0);
    EXPECT(info.result == -2 && info.type == 0 && info.size == 0 && is_zero(info.name, 256));
    info = info_of(NO_SIZE, sizeof NO_SIZE, 0);
    EXPECT(info.result == 0 && info.type == 1 && info.size == 0 && is_zero(info.name, 256));
    info = info_of(BIT_31, sizeof BIT_31, 0);
    EXPECT(info.result == 0 && info.type == 0 && info.size == 0 && is_zero(info.name, 256));
    lanolin_fetched f = lanolin_fetch(G, b1, 128, b1, 128, 0, 1, 0, 7);
    EXPECT(f.result == -84 && f.seed == 7 && is_no_dir(f.dir));
    uint8_t block[128];
    memset(block, 0xff, sizeof block);
    memcpy(block, FORWARD, sizeof FORWARD);
    f = lanolin_fetch((lanolin_geometry){128, 4}, block, 128, b1, 128, 0, 1, 0, 0);
    EXPECT(f.result == 0 && f.dir.off == 24 && !f.dir.erased);
    lanolin_gstate state = {5, {5, 5}};
    lanolin_mdir made_up = {.pair = {0, 1}, .off = 8, .etag = 0xfff00000};
    EXPECT(lanolin_getgstate(G, b1, 128, b1, 128, 0, 1, made_up, STILL, &state) == 0);
    EXPECT(state.tag == 5 && state.pair[0] == 5 && state.pair[1] == 5);
    lanolin_mdir named = {.pair = {0, 1}, .off = 9, .etag = 1};
    EXPECT(lanolin_get(G, b1, 128, b1, 128, 0, 1, named, STILL, 0, 1, NULL, 0).result == -22);
}

static void test_tags(void) {
    uint32_t t = lanolin_mktag(0x4ff, 0x155, 0x3ff);
    EXPECT(t == 0x4ff557ff && lanolin_mktag_if(true, 0x4ff, 0x155, 0x3ff) == t &&
           lanolin_mktag_if(false, 1, 2, 3) == 0);
    EXPECT(lanolin_tag_isvalid(t) == 1 && lanolin_tag_isvalid(0x80000000) == 0 && lanolin_tag_isdelete(t) == 1 &&
           lanolin_tag_isdelete(0) == 0);
    EXPECT(lanolin_tag_type1(t) == 0x400 && lanolin_tag_type2(t) == 0x480 && lanolin_tag_type3(t) == 0x4ff &&
           lanolin_tag_chunk(t) == 0xff);
    EXPECT(lanolin_tag_splice(t) == -1 && lanolin_tag_splice(0x47f00000) == 127 &&
           lanolin_tag_splice(0x48000000) == -128);
    EXPECT(lanolin_tag_id(t) == 0x155 && lanolin_tag_size(t) == 0x3ff && lanolin_tag_dsize(t) == 4 &&
           lanolin_tag_dsize(0x500ffc0d) == 17);
    EXPECT((lanolin_crc(0xffffffff, (const uint8_t *)"123456789", 9) ^ 0xffffffff) == 0xcbf43926 &&
           lanolin_crc(5, NULL, 0) == 5);
}

static void test_numbers(void) {
    EXPECT(lanolin_min(2, 3) == 2 && lanolin_max(2, 3) == 3 && lanolin_scmp(0, 0xffffffff) == 1 &&
           lanolin_scmp(0, 0x80000000) == INT32_MIN);
    EXPECT(lanolin_aligndown(130, 5).value == 130 && lanolin_aligndown(134, 5).value == 130 &&
           lanolin_alignup(131, 5).value == 135);
    EXPECT(lanolin_aligndown(7, 0).result == -22 && lanolin_aligndown(7, 0).value == 0 &&
           lanolin_alignup(7, 0).result == -22);
    EXPECT(lanolin_npw2(0) == 32 && lanolin_npw2(1) == 1 && lanolin_npw2(5) == 3 && lanolin_ctz(0) == 0 &&
           lanolin_ctz(0x80000000) == 31 && lanolin_popc(0xf0f00001) == 9);
    uint8_t bytes[5] = {1, 2, 3, 4, 5};
    EXPECT(lanolin_le32_at(bytes, 5, 1).value == 0x05040302 && lanolin_be32_at(bytes, 5, 1).value == 0x02030405);
    EXPECT(lanolin_le32_at(bytes, 5, 2).result == -84 && lanolin_be32_at(bytes, 5, SIZE_MAX).result == -84 &&
           lanolin_le32_at(NULL, 0, 0).result == -84);
    EXPECT(lanolin_put_le32(bytes, 5, 1, 0x0a0b0c0d) == 0 && !memcmp(bytes, "\x01\x0d\x0c\x0b\x0a", 5));
    EXPECT(lanolin_put_be32(bytes, 5, 0, 0x0a0b0c0d) == 0 && !memcmp(bytes, "\x0a\x0b\x0c\x0d\x0a", 5));
    EXPECT(lanolin_put_le32(bytes, 5, 2, 0) == -84 && lanolin_put_be32(bytes, 5, 2, 0) == -84 &&
           !memcmp(bytes, "\x0a\x0b\x0c\x0d\x0a", 5));
}

static void test_pairs_and_states(void) {
    EXPECT(lanolin_pair_swap(1, 2).pair[0] == 2 && lanolin_pair_swap(1, 2).pair[1] == 1);
    EXPECT(lanolin_pair_isnull(0xffffffff, 2) == 1 && lanolin_pair_isnull(1, 2) == 0);
    EXPECT(lanolin_pair_cmp(1, 2, 2, 3) == 0 && lanolin_pair_cmp(1, 2, 3, 4) == 1);
    EXPECT(lanolin_pair_issync(1, 2, 2, 1) == 1 && lanolin_pair_issync(1, 2, 2, 3) == 0);
    lanolin_gstate a = {0x4ff00201, {1, 2}}, b = {0x4ff00201, {1, 3}};
    EXPECT(lanolin_gstate_hasmove(&a) == 1 && lanolin_gstate_hasmovehere(&a, 9, 1) == 1 &&
           lanolin_gstate_hasmovehere(&a, 8, 9) == 0);
    EXPECT(lanolin_gstate_hasorphans(&a) == 1 && lanolin_gstate_getorphans(&a) == 1 &&
           lanolin_gstate_needssuperblock(&a) == 1);
    lanolin_gstate_xor(&a, &b);
    EXPECT(a.tag == 0 && a.pair[0] == 0 && a.pair[1] == 1 && b.pair[1] == 3 && lanolin_gstate_iszero(&a) == 0);
    EXPECT(lanolin_gstate_iszero(&STILL) == 1 && lanolin_gstate_hasmove(&STILL) == 0);
}

/* Flash of either kind: the erased byte; the listing's check on it, and a commit behind its log; the checksum of 16
 * erased bytes; the end tag without its size.
 *
 * The commit is the deadline 3,600 in place of 90,000. Tag chained to the check tag before, data; the forward check,
 * 0x5ffffc08, of 16 bytes, with the checksum of as many erased ones; check tag of size 8, checksum. The end is 80, a
 * multiple of 16, and four bytes of padding stand before it. On zeros a check is of type 0x501, so that the end tag has
 * its top bit, and so the next stored tag. */
typedef struct { uint8_t byte, check[8], more[28]; uint32_t unit_sum, end_tag; } flash;
static const flash FLASH[2] = {
    {ONES,
     {0x67, 0x4f, 0xfc, 0x09, 0x47, 0x38, 0xe4, 0x4d},
     {0x67, 0x4f, 0xfc, 0x09, 0x10, 0x0e, 0x00, 0x00, 0x68, 0xbf, 0xfc, 0x0c, 0x10, 0x00,
      0x00, 0x00, 0xe5, 0x39, 0x4c, 0xc0, 0x0f, 0xf0, 0x00, 0x00, 0x72, 0x6f, 0x0e, 0x8a},
     0xc04c39e5,
     0x500ffc00},
    {ZEROS,
     {0x67, 0x5f, 0xfc, 0x09, 0x37, 0x9b, 0xc2, 0x51},
     {0xe7, 0x5f, 0xfc, 0x09, 0x10, 0x0e, 0x00, 0x00, 0x68, 0xbf, 0xfc, 0x0c, 0x10, 0x00,
      0x00, 0x00, 0xaa, 0xb4, 0x44, 0x13, 0x0f, 0xe0, 0x00, 0x00, 0xb3, 0x63, 0x99, 0xe1},
     0x1344b4aa,
     0xd01ffc00},
};

static const uint32_t UNIT_SUM = 0xc04c39e5; /* of ones */

/* The listing as it is on such flash, in a block of so many bytes. */
static void list_on(const flash *f, uint8_t *block, size_t size) {
    memset(block, f->byte, size);
    memcpy(block, LISTED, 31);
    memcpy(block + 31, f->check, 8);
}

static int is_erased(const flash *f, const uint8_t *bytes, size_t n) {
    while (n && bytes[n - 1] == f->byte) n--;
    return n == 0;
}

static void test_commit(const flash *f) {
    uint8_t listed[128], empty[128], c0[128], c1[128];
    list_on(f, listed, 128);
    memset(empty, f->byte, sizeof empty);
    memcpy(c0, listed, sizeof c0);
    memcpy(c1, empty, sizeof c1);
    const uint8_t data[4] = {0x10, 0x0e, 0x00, 0x00}, erased = f->byte;
    lanolin_entry deadline = {0x374, 0, 0, 4}, bad[2] = {{0x401, 1, 0, 0}, {0x001, 1, 1, 4}};
    lanolin_committed refused = lanolin_commit(G, c0, 128, c1, 128, 0, 1, 0, 7, DOCUMENT, erased, bad, 2, data, 4);
    EXPECT(refused.result == -201 && refused.index == 1 && refused.seed == 7 && is_no_dir(refused.dir));
    EXPECT(lanolin_commit(G, c0, 128, c1, 128, 3, 3, 0, 7, DOCUMENT, erased, &deadline, 1, data, 4).result == -22);
    EXPECT(!memcmp(c0, listed, 128) && !memcmp(c1, empty, 128));
    lanolin_stored stored =
        lanolin_commit_stores(G, c0, 128, c1, 128, 0, 1, 0, 0, DOCUMENT, erased, &deadline, 1, data, 4, 5);
    EXPECT(stored.result == 0 && stored.index == 0 && stored.stores == 5 && !memcmp(c0 + 48, f->more, 5) &&
           c0[53] == f->byte);
    EXPECT(lanolin_fetch(G, c0, 128, c1, 128, 0, 1, 0, 0).dir.off == 48);
    memcpy(c0, listed, sizeof c0);
    lanolin_committed done = lanolin_commit(G, c0, 128, c1, 128, 0, 1, 0, 0, DOCUMENT, erased, &deadline, 1, data, 4);
    EXPECT(done.result == 0 && done.index == 0 && done.dir.off == 80 && done.dir.etag == f->end_tag + 8 &&
           done.dir.count == 1 && done.dir.erased && has_forward(done.dir, 16, f->unit_sum));
    EXPECT(!memcmp(c0, listed, 48) && !memcmp(c0 + 48, f->more, 28) && is_erased(f, c0 + 76, 52) &&
           !memcmp(c1, empty, 128));
    uint8_t read[4];
    lanolin_got got = lanolin_getslice(G, c0, 128, c1, 128, 0, 1, done.dir, STILL, 0x7ffffc00, 0x37400000, 0, read, 4);
    EXPECT(is_found(got, 0x37400004, 8, 52) && !memcmp(read, data, 4));
}

/* The listing compacted: the same entries in the same order under revision 2, so that all but the revision is as it
 * was; then the forward check, and the check, of size 17. From flash of either kind. */
static void test_compact(const flash *from, const flash *f) {
    uint8_t listed[128], c0[128], c1[128], expected[51];
    list_on(from, listed, 128);
    memcpy(c0, listed, sizeof c0);
    memset(c1, 0x55, sizeof c1);
    memcpy(expected, LISTED, 31);
    expected[0] = 2;
    memcpy(expected + 31, f->more + 8, 16); /* behind an attribute too */
    expected[46] = 0x08 ^ 17;
    EXPECT(lanolin_put_le32(expected, 51, 47, lanolin_crc(0xffffffff, expected, 47)) == 0);
    lanolin_stored stored = lanolin_compact_stores(G, c0, 128, c1, 128, 0, 1, 0, 0, DOCUMENT, f->byte, 1);
    EXPECT(stored.result == 0 && stored.stores == 1 && is_erased(f, c1, 128) && !memcmp(c0, listed, 128));
    stored = lanolin_compact_stores(G, c0, 128, c1, 128, 0, 1, 0, 0, DOCUMENT, f->byte, 1000);
    EXPECT(stored.result == 0 && stored.stores == 52 && !memcmp(c1, expected, 51) && is_erased(f, c1 + 51, 77));
    memset(c1, 0x55, sizeof c1);
    lanolin_committed done = lanolin_compact(G, c0, 128, c1, 128, 0, 1, 0, 0, DOCUMENT, f->byte);
    EXPECT(done.result == 0 && done.dir.pair[0] == 1 && done.dir.rev == 2 && done.dir.off == 64 && done.dir.count == 1);
    EXPECT(done.dir.etag == f->end_tag + 17 && done.dir.erased && has_forward(done.dir, 16, f->unit_sum));
    EXPECT(!memcmp(c1, expected, 51) && is_erased(f, c1 + 51, 77) && !memcmp(c0, listed, 128));
    EXPECT(lanolin_compact(G, b1, 128, c1, 64, 0, 1, 0, 7, DOCUMENT, f->byte).result == -22);
}

/* One entry and its check, in an erased block. */
static void lay_one(uint8_t *block, uint32_t tag, const uint8_t *data, uint32_t n) {
    memset(block, 0xff, 512);
    EXPECT(lanolin_put_le32(block, 512, 0, 1) == LANOLIN_OK);
    chain(block, 4, 0xffffffff, tag);
    memcpy(block + 8, data, n);
    chain(block, 8 + n, tag, lanolin_mktag(LANOLIN_TYPE_CCRC, LANOLIN_NO_SLOT, 4));
    EXPECT(lanolin_put_le32(block, 512, 12 + n, lanolin_crc(0xffffffff, block, 12 + n)) == LANOLIN_OK);
}

/* ---- the rules: a pair of images, written by the four calls */

typedef struct { uint8_t b0[512], b1[512]; } images;
static const lanolin_geometry WIDE = {512, 16};
static const lanolin_entry DEADLINE = {LANOLIN_TYPE_USERATTR + 0x74, 0, 0, 4};

static lanolin_committed commit_on(uint8_t erased, uint32_t rules, images *p) {
    return lanolin_commit(WIDE, p->b0, 512, p->b1, 512, 0, 1, 0, 7, rules, erased, &DEADLINE, 1, LISTED, 4);
}

static lanolin_committed compact_on(uint8_t erased, uint32_t rules, images *p) {
    return lanolin_compact(WIDE, p->b0, 512, p->b1, 512, 0, 1, 0, 7, rules, erased);
}

static lanolin_stored commit_stores_on(uint8_t erased, uint32_t rules, images *p, uint32_t stores) {
    return lanolin_commit_stores(WIDE, p->b0, 512, p->b1, 512, 0, 1, 0, 7, rules, erased, &DEADLINE, 1, LISTED, 4,
                                 stores);
}

static lanolin_stored compact_stores_on(uint8_t erased, uint32_t rules, images *p, uint32_t stores) {
    return lanolin_compact_stores(WIDE, p->b0, 512, p->b1, 512, 0, 1, 0, 7, rules, erased, stores);
}

static lanolin_committed commit_by(uint32_t rules, images *p) { return commit_on(ONES, rules, p); }

static lanolin_committed compact_by(uint32_t rules, images *p) { return compact_on(ONES, rules, p); }

static lanolin_stored commit_stores_by(uint32_t rules, images *p, uint32_t stores) {
    return commit_stores_on(ONES, rules, p, stores);
}

static lanolin_stored compact_stores_by(uint32_t rules, images *p, uint32_t stores) {
    return compact_stores_on(ONES, rules, p, stores);
}

/* The listing in the first block, and nothing in the second. */
static images listing_on(const flash *f) {
    images p;
    memset(&p, f->byte, sizeof p);
    list_on(f, p.b0, sizeof p.b0);
    return p;
}

static images listing(void) { return listing_on(&FLASH[0]); }

/* Refused so by all four calls: the record all zero, the seed as given, no store, no byte altered. */
static int all_refuse_on(uint8_t erased, uint32_t rules, const images *given, int32_t result) {
    images p = *given;
    lanolin_committed c[2] = {commit_on(erased, rules, &p), compact_on(erased, rules, &p)};
    lanolin_stored s[2] = {commit_stores_on(erased, rules, &p, 1000), compact_stores_on(erased, rules, &p, 1000)};
    int all = !memcmp(&p, given, sizeof p);
    for (int i = 0; i < 2; i++) {
        all &= c[i].result == result && c[i].index == 0 && c[i].seed == 7 && is_no_dir(c[i].dir);
        all &= s[i].result == result && s[i].index == 0 && s[i].stores == 0;
    }
    return all;
}

static int all_refuse(uint32_t rules, const images *given, int32_t result) {
    return all_refuse_on(ONES, rules, given, result);
}

/* A number that is no rule is -22, before fetch's own -84 and -2 and before -202. */
static void test_no_rules(void) {
    static const uint32_t NUMBERS[4] = {2, 3, 0x80000000, 0xffffffff};
    images good = listing(), erased, crowded, named;
    memset(&erased, 0xff, sizeof erased);
    named = crowded = erased;
    lay_one(named.b0, lanolin_mktag(LANOLIN_TYPE_REG, 0, 4), LISTED + 12, 4);
    lay_one(crowded.b0, lanolin_mktag(LANOLIN_TYPE_REG, LANOLIN_SLOTS_MAX, 4), LISTED + 12, 4);
    for (int i = 0; i < 4; i++) {
        EXPECT(all_refuse(NUMBERS[i], &good, LANOLIN_ERR_INVAL) && all_refuse(NUMBERS[i], &erased, LANOLIN_ERR_INVAL));
        EXPECT(all_refuse(NUMBERS[i], &named, LANOLIN_ERR_INVAL));
        EXPECT(all_refuse(NUMBERS[i], &crowded, LANOLIN_ERR_INVAL));
    }
    EXPECT(all_refuse(DOCUMENT, &erased, LANOLIN_ERR_CORRUPT) && all_refuse(LITTLEFS, &erased, LANOLIN_ERR_CORRUPT));
    EXPECT(commit_by(LITTLEFS, &crowded).result == LANOLIN_ERR_NOENT);
    EXPECT(compact_by(DOCUMENT, &crowded).result == LANOLIN_ERR_NOENT);
}

/* Accepted, with the same answers. */
static int same_done(lanolin_committed a, lanolin_committed b) {
    return !a.result && !b.result && a.index == b.index && a.seed == b.seed && same_dir(a.dir, b.dir);
}

/* A log that is regular by document 01 is so by littlefs's rule, and each call answers and leaves the same. */
static void test_same_under_both(void) {
    images p[2] = {listing(), listing()};
    lanolin_committed c[2];
    lanolin_stored s[2];
    for (uint32_t stores = 0; stores < 60; stores += 11) {
        for (uint32_t rules = 0; rules < 2; rules++) p[rules] = listing();
        for (uint32_t rules = 0; rules < 2; rules++) s[rules] = commit_stores_by(rules, &p[rules], stores);
        EXPECT(!s[0].result && !memcmp(&s[0], &s[1], sizeof *s) && !memcmp(&p[0], &p[1], sizeof *p));
        for (uint32_t rules = 0; rules < 2; rules++) s[rules] = compact_stores_by(rules, &p[rules], stores);
        EXPECT(!s[0].result && !memcmp(&s[0], &s[1], sizeof *s) && !memcmp(&p[0], &p[1], sizeof *p));
    }
    for (uint32_t rules = 0; rules < 2; rules++) p[rules] = listing();
    for (uint32_t rules = 0; rules < 2; rules++) c[rules] = commit_by(rules, &p[rules]);
    EXPECT(same_done(c[0], c[1]) && !memcmp(&p[0], &p[1], sizeof *p));
    for (uint32_t rules = 0; rules < 2; rules++) c[rules] = compact_by(rules, &p[rules]);
    EXPECT(same_done(c[0], c[1]) && !memcmp(&p[0], &p[1], sizeof *p));
}

/* A log of these tags with four bytes of data each, of a removal and a splice none, and its check. */
static images logged(const uint32_t *tags, int count) {
    images p;
    uint32_t at = 4, before = 0xffffffff;
    memset(&p, 0xff, sizeof p);
    EXPECT(lanolin_put_le32(p.b0, 512, 0, 1) == 0);
    for (int i = 0; i < count; i++) {
        before = chain(p.b0, at, before, tags[i]);
        memcpy(p.b0 + at + 4, LISTED + 12, lanolin_tag_dsize(tags[i]) - 4);
        at += lanolin_tag_dsize(tags[i]);
    }
    uint32_t size = (16 - (at + 8) % 16) % 16 + 4;
    chain(p.b0, at, before, lanolin_mktag(LANOLIN_TYPE_CCRC, LANOLIN_NO_SLOT, size));
    EXPECT(lanolin_put_le32(p.b0, 512, at + 4, lanolin_crc(0xffffffff, p.b0, at + 4)) == 0);
    return p;
}

static lanolin_got look_in(images *p, lanolin_mdir dir, uint32_t mask, uint32_t type, uint32_t id) {
    const uint32_t key = lanolin_mktag(type, id, 0);
    return lanolin_getslice(WIDE, p->b0, 512, p->b1, 512, 0, 1, dir, STILL, mask, key, 0, NULL, 0);
}

/* Names without creates, and a slot in between that none makes: refused by document 01's rules, taken by littlefs's. */
static void test_names_alone(void) {
    static const uint32_t TAGS[4] = {0x00100004, 0x20100004, 0x00200804, 0x37400804}; /* slots 0 and 2 */
    static const uint32_t CREATES[3] = {0x40100000, 0x40100400, 0x40100800};
    images p = logged(TAGS, 4);
    EXPECT(all_refuse(DOCUMENT, &p, LANOLIN_ERR_IRREGULAR));
    lanolin_committed done = commit_by(LITTLEFS, &p);
    EXPECT(done.result == LANOLIN_OK && done.dir.count == 3);
    EXPECT(look_in(&p, done.dir, LANOLIN_MASK_TYPE, 0x374, 0).tag == 0x37400004);
    EXPECT(all_refuse(DOCUMENT, &p, LANOLIN_ERR_IRREGULAR)); /* as it was before the commit */
    done = compact_by(LITTLEFS, &p);
    EXPECT(done.result == LANOLIN_OK && done.dir.count == 3 && done.dir.pair[0] == 1 && done.dir.rev == 2);
    /* a create for each slot, the empty one too, and each entry behind its slot's create; of no slot the two checks */
    uint32_t before = 0xffffffff, at = 4, creates = 0;
    for (; at < done.dir.off; at += lanolin_tag_dsize(before)) {
        before ^= lanolin_be32_at(p.b1, 512, at).value;
        if (lanolin_tag_type3(before) == LANOLIN_TYPE_CREATE) EXPECT(creates < 3 && before == CREATES[creates++]);
        else EXPECT(lanolin_tag_id(before) == creates - 1 || lanolin_tag_type1(before) == LANOLIN_TYPE_CCRC);
    }
    EXPECT(at == done.dir.off && creates == 3);
    EXPECT(look_in(&p, done.dir, LANOLIN_MASK_CLASS, 0x000, 0).tag == 0x00100004);
    EXPECT(look_in(&p, done.dir, LANOLIN_MASK_CLASS, 0x000, 1).result == LANOLIN_ERR_NOENT);
    EXPECT(look_in(&p, done.dir, LANOLIN_MASK_CLASS, 0x000, 2).tag == 0x00200804);
    EXPECT(look_in(&p, done.dir, LANOLIN_MASK_TYPE, 0x374, 2).tag == 0x37400804);
    images copy = p;
    EXPECT(commit_by(DOCUMENT, &p).result == LANOLIN_OK && compact_by(DOCUMENT, &copy).result == LANOLIN_OK);
}

/* The log without creates of docs/DIFFERENCES.md: read as any other, and written to by littlefs's rules alone. */
static void test_without_creates(void) {
    static const uint8_t NAMED[17] = {0,    0,    0,    0,    0xff, 0xef, 0xff, 0xfe, 'a',
                                      0x50, 0x1f, 0xfc, 0x06, 0x34, 0x0e, 0xd5, 0x77};
    const lanolin_geometry g = {128, 4};
    uint8_t x[128], y[128], name;
    memset(x, 0xff, sizeof x);
    memset(y, 0xff, sizeof y);
    memcpy(x, NAMED, sizeof NAMED);
    lanolin_fetched f = lanolin_fetch(g, x, 128, y, 128, 0, 1, 0, 0);
    EXPECT(f.result == LANOLIN_OK && f.dir.count == 1 && f.dir.off == 20);
    lanolin_got got = lanolin_getslice(g, x, 128, y, 128, 0, 1, f.dir, STILL, LANOLIN_MASK_CLASS, 0, 0, &name, 1);
    EXPECT(got.tag == lanolin_mktag(LANOLIN_TYPE_REG, 0, 1) && name == 'a');
    static const int32_t RESULTS[2] = {LANOLIN_ERR_IRREGULAR, LANOLIN_OK};
    for (uint32_t rules = DOCUMENT; rules <= LITTLEFS; rules++) {
        EXPECT(lanolin_commit(g, x, 128, y, 128, 0, 1, 0, 0, rules, ONES, NULL, 0, NULL, 0).result == RESULTS[rules]);
        EXPECT(lanolin_compact(g, x, 128, y, 128, 0, 1, 0, 0, rules, ONES).result == RESULTS[rules]);
    }
}

/* What makes no slot, under both rules: a struct, an attribute, and a name behind a create or a delete. */
static void test_what_makes_no_slot(void) {
    static const uint32_t LOGS[6][3] = {
        {0x00100004, 0x20100404, 0x00100404}, /* a struct at the count */
        {0x00100004, 0x37400404, 0x00100404}, /* an attribute */
        {0x00100004, 0x40100400, 0x00100804}, /* a name behind a create */
        {0x00100004, 0x4ff00000, 0x00100004}, /* a name behind a delete */
        {0x40100000, 0x00100004, 0x00100404}, /* a create, its name, and a name behind them */
        {0x00100004, 0x00100400, 0x00100404}, /* a name of no length makes its slot, and is bad all the same */
    };
    for (int i = 0; i < 6; i++) {
        images p = logged(LOGS[i], 3);
        EXPECT(all_refuse(DOCUMENT, &p, LANOLIN_ERR_IRREGULAR) && all_refuse(LITTLEFS, &p, LANOLIN_ERR_IRREGULAR));
    }
    /* within the count, behind a create or a delete, a name is as by document 01 */
    static const uint32_t RENAMED[4] = {0x00100404, 0x4ff00000, 0x40100400, 0x00100404};
    images p = logged(RENAMED, 4);
    EXPECT(all_refuse(DOCUMENT, &p, LANOLIN_ERR_IRREGULAR) && commit_by(LITTLEFS, &p).result == LANOLIN_OK);
}

/* A block full of names: its creates have no room. A commit's own entries make no slot by a name. */
static void test_no_room_for_creates(void) {
    uint32_t tags[61];
    for (uint32_t i = 0; i < 61; i++) tags[i] = lanolin_mktag(LANOLIN_TYPE_REG, i, 4);
    images p = logged(tags, 61), copy = p;
    EXPECT(lanolin_fetch(WIDE, p.b0, 512, p.b1, 512, 0, 1, 0, 7).dir.off == 512);
    lanolin_committed refused = compact_by(LITTLEFS, &p);
    EXPECT(refused.result == LANOLIN_ERR_NOSPC && refused.seed == 7 && is_no_dir(refused.dir));
    EXPECT(compact_stores_by(LITTLEFS, &p, 1000).result == LANOLIN_ERR_NOSPC && !memcmp(&p, &copy, sizeof p));
    const lanolin_entry name = {LANOLIN_TYPE_REG, 1, 0, 4};
    p = logged(tags, 1);
    refused = lanolin_commit(WIDE, p.b0, 512, p.b1, 512, 0, 1, 0, 7, LITTLEFS, ONES, &name, 1, LISTED, 4);
    EXPECT(refused.result == LANOLIN_ERR_BADENTRY && refused.index == 0);
}

/* ---- a slot by its name: the images in `large` blocks, where the longest name has room */

typedef struct { uint8_t b0[8192], b1[8192]; } large;
static const lanolin_geometry LARGE = {8192, 16};

/* Asks, and sees that no byte of what was lent is altered. */
static lanolin_named find_by(uint32_t rules, const large *p, const void *name, size_t n, uint32_t type) {
    static large before;
    static uint8_t kept[8192];
    before = *p;
    if (n) memcpy(kept, name, n);
    lanolin_named found = lanolin_find(LARGE, p->b0, 8192, p->b1, 8192, 0, 1, 0, 7, rules, name, n, type);
    EXPECT(!memcmp(p, &before, sizeof before) && (n == 0 || !memcmp(name, kept, n)));
    return found;
}

/* The bool as the byte that it is: exactly 0 or 1. */
static int is_at(lanolin_named found, uint32_t id) {
    return found.result == 0 && *(const uint8_t *)&found.found == 1 && found.id == id;
}

static int is_not(lanolin_named found, int32_t result) {
    return found.result == result && *(const uint8_t *)&found.found == 0 && found.id == 0;
}

static int is_none(lanolin_named found) { return is_not(found, LANOLIN_OK); }

/* A file's name, by document 01's rules. */
static lanolin_named file_named(const large *p, const char *name) {
    return find_by(DOCUMENT, p, name, strlen(name), LANOLIN_TYPE_REG);
}

static lanolin_named dir_named(const large *p, const char *name) {
    return find_by(DOCUMENT, p, name, strlen(name), LANOLIN_TYPE_DIR);
}

static void write_to(large *p, uint32_t rules, const lanolin_entry *entries, size_t count, const char *data) {
    const uint8_t *bytes = (const uint8_t *)data;
    const size_t n = strlen(data);
    EXPECT(lanolin_commit(LARGE, p->b0, 8192, p->b1, 8192, 0, 1, 0, 7, rules, ONES, entries, count, bytes, n).result ==
           LANOLIN_OK);
}

/* These bytes at the beginning of the first block, and nothing behind them and in the second. */
static large enlarged(const uint8_t *log, size_t n) {
    large p;
    memset(&p, 0xff, sizeof p);
    memcpy(p.b0, log, n);
    return p;
}

/* Neither a part of a name, nor a longer one, nor one of another type; nor a payload or a deadline, which are none. */
static void test_find(void) {
    static const char *OTHERS[6] = {"q", "q21", "212", "Q212", "q213", "q2122"};
    static const uint32_t TYPES[10] = {0, 2, 3, 0x0ff, 0x101, 0x401, 0x801, 0x10001, 0x80000001, 0xffffffff};
    const uint32_t types = sizeof TYPES / sizeof *TYPES;
    const large p = enlarged(LISTED, sizeof LISTED);
    for (uint32_t rules = DOCUMENT; rules <= LITTLEFS; rules++) {
        EXPECT(is_at(find_by(rules, &p, "q212", 4, LANOLIN_TYPE_REG), 0));
        for (int i = 0; i < 6; i++)
            EXPECT(is_none(find_by(rules, &p, OTHERS[i], strlen(OTHERS[i]), LANOLIN_TYPE_REG)));
        EXPECT(is_none(find_by(rules, &p, "q212", 5, LANOLIN_TYPE_REG))); /* with a zero behind it */
        for (uint32_t i = 0; i < types; i++) EXPECT(is_none(find_by(rules, &p, "q212", 4, TYPES[i])));
        EXPECT(is_none(find_by(rules, &p, "abc", 3, 0x201)) && is_none(find_by(rules, &p, LISTED + 27, 4, 0x374)));
    }
    /* the blocks' order, the block count and the seed change nothing */
    EXPECT(is_at(lanolin_find(LARGE, p.b1, 8192, p.b0, 8192, 5, 9, 10, 0, 0, LISTED + 12, 4, LANOLIN_TYPE_REG), 0));
    EXPECT(is_none(lanolin_find(LARGE, p.b1, 8192, p.b0, 8192, 5, 9, 10, 0, 0, LISTED + 12, 3, LANOLIN_TYPE_REG)));
}

/* A file of the name twice, and a directory of it in between: the lowest that is left, wherever the slots move. */
static void test_find_lowest(void) {
    static const lanolin_entry ENTRIES[6] = {{0x401, 1, 0, 0}, {0x001, 1, 0, 4}, {0x401, 2, 0, 0},
                                             {0x002, 2, 0, 4}, {0x401, 3, 0, 0}, {0x001, 3, 0, 4}};
    static const lanolin_entry STEPS[4] = {{0x4ff, 1, 0, 0}, {0x401, 0, 0, 0}, {0x4ff, 2, 0, 0}, {0x4ff, 2, 0, 0}};
    static const int FILES[4] = {2, 3, 2, -1}, DIRS[4] = {1, 2, -1, -1};
    large p = enlarged(LISTED, sizeof LISTED);
    write_to(&p, DOCUMENT, ENTRIES, 6, "q213");
    EXPECT(is_at(file_named(&p, "q213"), 1) && is_at(dir_named(&p, "q213"), 2));
    for (int i = 0; i < 4; i++) {
        write_to(&p, DOCUMENT, &STEPS[i], 1, "");
        for (int compacted = 0; compacted < 2; compacted++) { /* then the other block answers */
            lanolin_named file = file_named(&p, "q213"), dir = dir_named(&p, "q213");
            EXPECT(FILES[i] < 0 ? is_none(file) : is_at(file, (uint32_t)FILES[i]));
            EXPECT(DIRS[i] < 0 ? is_none(dir) : is_at(dir, (uint32_t)DIRS[i]));
            EXPECT(!lanolin_compact(LARGE, p.b0, 8192, p.b1, 8192, 0, 1, 0, 7, DOCUMENT, ONES).result);
        }
    }
    EXPECT(is_at(file_named(&p, "q212"), 1));
}

/* The new name alone, also where it is of another type; but not before its commit is whole. */
static void test_find_renamed(void) {
    static const lanolin_entry FILE_NAME = {0x001, 0, 0, 4}, DIR_NAME = {0x002, 0, 0, 4};
    large p = enlarged(LISTED, sizeof LISTED), torn = p;
    /* tag, name, forward check, check tag, checksum: 28 bytes */
    EXPECT(lanolin_commit_stores(LARGE, torn.b0, 8192, torn.b1, 8192, 0, 1, 0, 7, DOCUMENT, ONES, &FILE_NAME, 1,
                                 (const uint8_t *)"q299", 4, 27).stores == 27);
    EXPECT(is_at(file_named(&torn, "q212"), 0) && is_none(file_named(&torn, "q299")));
    write_to(&p, DOCUMENT, &FILE_NAME, 1, "q299");
    EXPECT(is_none(file_named(&p, "q212")) && is_at(file_named(&p, "q299"), 0));
    write_to(&p, DOCUMENT, &DIR_NAME, 1, "q299");
    EXPECT(is_none(file_named(&p, "q299")) && is_at(dir_named(&p, "q299"), 0));
    /* the older block, which still has that name, is not read */
    EXPECT(!lanolin_compact(LARGE, p.b0, 8192, p.b1, 8192, 0, 1, 0, 7, DOCUMENT, ONES).result);
    write_to(&p, DOCUMENT, &FILE_NAME, 1, "q300");
    EXPECT(is_none(dir_named(&p, "q299")) && is_at(file_named(&p, "q300"), 0));
}

/* Names up to the longest that there is, and longer ones, which no slot can have. */
static void test_find_lengths(void) {
    static const uint32_t LENGTHS[9] = {1, 2, 255, 256, 1021, 1022, 1023, 1024, 8192};
    static char name[8193];
    large p = enlarged(LISTED, sizeof LISTED);
    for (int i = 0; i < 6; i++) {
        const lanolin_entry renamed = {0x001, 0, 0, LENGTHS[i]};
        memset(name, 'n', 8192);
        write_to(&p, DOCUMENT, &renamed, 1, name);
        for (int j = 0; j < 9; j++) {
            lanolin_named found = find_by(DOCUMENT, &p, name, LENGTHS[j], LANOLIN_TYPE_REG);
            EXPECT(i == j ? is_at(found, 0) : is_none(found));
        }
        name[LENGTHS[i] - 1] = 'm'; /* all but the last byte */
        EXPECT(is_none(find_by(DOCUMENT, &p, name, LENGTHS[i], LANOLIN_TYPE_REG)));
    }
}

/* Ids about the multiples of 32, up to the last, where a name alone makes its slot: found there, one lower behind a
 * delete, and there again behind a create. */
static void test_find_ids(void) {
    static const lanolin_entry GONE = {0x4ff, 0, 0, 0}, COMES = {0x401, 0, 0, 0};
    uint8_t block[512];
    for (uint32_t id = 0; id < LANOLIN_SLOTS_MAX; id += id % 32 == 2 ? 28 : 1) { /* 0, 1, 2, 30, 31, 32, 33, 34, .. */
        lay_one(block, lanolin_mktag(LANOLIN_TYPE_REG, id, 16), LISTED, 16); /* ends at 32, a multiple of 16 */
        large p = enlarged(block, sizeof block);
        EXPECT(is_not(find_by(DOCUMENT, &p, LISTED, 16, LANOLIN_TYPE_REG), LANOLIN_ERR_IRREGULAR));
        EXPECT(is_at(find_by(LITTLEFS, &p, LISTED, 16, LANOLIN_TYPE_REG), id));
        write_to(&p, LITTLEFS, &GONE, 1, "");
        lanolin_named found = find_by(LITTLEFS, &p, LISTED, 16, LANOLIN_TYPE_REG);
        EXPECT(id == 0 ? is_none(found) : is_at(found, id - 1));
        write_to(&p, LITTLEFS, &COMES, 1, "");
        found = find_by(LITTLEFS, &p, LISTED, 16, LANOLIN_TYPE_REG);
        EXPECT(id == 0 ? is_none(found) : is_at(found, id));
    }
}

/* Refused so by each rule: with the name q212, which the logs below have, and with one that none has. */
static int both_refuse(const large *p, int32_t by_document, int32_t by_littlefs) {
    const int32_t results[2] = {by_document, by_littlefs};
    int all = 1;
    for (uint32_t rules = DOCUMENT; rules <= LITTLEFS; rules++)
        for (size_t n = 3; n < 5; n++)
            all &= results[rules] == LANOLIN_OK
                       ? find_by(rules, p, "q212", n, LANOLIN_TYPE_REG).result == LANOLIN_OK
                       : is_not(find_by(rules, p, "q212", n, LANOLIN_TYPE_REG), results[rules]);
    return all;
}

/* In this order: numbers that are no rule and an empty name, what fetch refuses, a log that isn't regular. */
static void test_find_refused(void) {
    static const uint32_t NUMBERS[4] = {2, 3, 0x80000000, 0xffffffff};
    static const uint32_t ALONE[2] = {0x00100004, 0x00200804}, BY_NONE[2] = {0x00100004, 0x20100404};
    static const uint32_t REMOVED[2] = {0x40100000, 0x001003ff}, AFTER[3] = {0x40100000, 0x00100004, 0x00100404};
    uint8_t block[512];
    lay_one(block, lanolin_mktag(LANOLIN_TYPE_REG, LANOLIN_SLOTS_MAX, 4), LISTED + 12, 4);
    const large ps[4] = {enlarged(LISTED, sizeof LISTED), enlarged(b1, sizeof b1), enlarged(block, sizeof block),
                         enlarged(logged(BY_NONE, 2).b0, 512)};
    for (int i = 0; i < 4; i++) {
        for (int j = 0; j < 4; j++) EXPECT(is_not(find_by(NUMBERS[j], &ps[i], "q212", 4, 0x001), LANOLIN_ERR_INVAL));
        for (uint32_t rules = DOCUMENT; rules <= LITTLEFS; rules++) {
            EXPECT(is_not(find_by(rules, &ps[i], "q212", 0, 0x001), LANOLIN_ERR_INVAL));
            EXPECT(is_not(find_by(rules, &ps[i], NULL, 0, 0x001), LANOLIN_ERR_INVAL));
        }
    }
    EXPECT(both_refuse(&ps[0], LANOLIN_OK, LANOLIN_OK));
    EXPECT(both_refuse(&ps[1], LANOLIN_ERR_CORRUPT, LANOLIN_ERR_CORRUPT));
    EXPECT(both_refuse(&ps[2], LANOLIN_ERR_NOENT, LANOLIN_ERR_NOENT));
    EXPECT(both_refuse(&ps[3], LANOLIN_ERR_IRREGULAR, LANOLIN_ERR_IRREGULAR)); /* a struct at the count */
    large p = enlarged(logged(REMOVED, 2).b0, 512); /* a name of a removal's size */
    EXPECT(both_refuse(&p, LANOLIN_ERR_IRREGULAR, LANOLIN_ERR_IRREGULAR));
    p = enlarged(logged(AFTER, 3).b0, 512); /* a name at the count, behind a create */
    EXPECT(both_refuse(&p, LANOLIN_ERR_IRREGULAR, LANOLIN_ERR_IRREGULAR));
    p = enlarged(logged(ALONE, 2).b0, 512); /* names without creates, as littlefs compacts */
    EXPECT(both_refuse(&p, LANOLIN_ERR_IRREGULAR, LANOLIN_OK));
    EXPECT(is_at(find_by(LITTLEFS, &p, "q212", 4, LANOLIN_TYPE_REG), 0));
    EXPECT(is_at(find_by(LITTLEFS, &p, "q212", 4, LANOLIN_TYPE_DIR), 2));
}

/* Sizes and numbers, as fetch refuses them. */
static void test_find_sizes(void) {
    const uint8_t *name = LISTED + 12;
    EXPECT(is_at(lanolin_find(G, b0, 128, b1, 128, 0, 1, 2, 7, DOCUMENT, name, 4, 0x001), 0));
    EXPECT(is_not(lanolin_find(G, b0, 127, b1, 128, 0, 1, 0, 7, DOCUMENT, name, 4, 0x001), LANOLIN_ERR_INVAL));
    EXPECT(is_not(lanolin_find(G, b0, 128, b1, 127, 0, 1, 0, 7, DOCUMENT, name, 4, 0x001), LANOLIN_ERR_INVAL));
    EXPECT(is_not(lanolin_find(G, NULL, 0, NULL, 0, 0, 1, 0, 7, DOCUMENT, name, 4, 0x001), LANOLIN_ERR_INVAL));
    EXPECT(is_not(lanolin_find(G, b0, 128, b1, 128, 3, 3, 0, 7, DOCUMENT, name, 4, 0x001), LANOLIN_ERR_INVAL));
    EXPECT(is_not(lanolin_find(G, b0, 128, b1, 128, 0, 1, 1, 7, DOCUMENT, name, 4, 0x001), LANOLIN_ERR_CORRUPT));
    const lanolin_geometry odd = {128, 3};
    EXPECT(is_not(lanolin_find(odd, b0, 128, b1, 128, 0, 1, 0, 7, DOCUMENT, name, 4, 0x001), LANOLIN_ERR_INVAL));
}

/* ---- the forward check */

/* So many bytes of slot 0 behind the listing, tags and data, in blocks of these sizes: entries of one type. */
static lanolin_committed commit_bytes_on(const flash *f, lanolin_geometry g, uint8_t *c0, uint8_t *c1,
                                         uint32_t length) {
    static const uint8_t DATA[LANOLIN_ATTR_MAX];
    const uint32_t size = g.block_size;
    lanolin_entry entries[40];
    size_t n = 0;
    for (uint32_t taken; length; length -= taken, n++) {
        taken = length <= 1026 ? length : length - 4 < 1026 ? length - 4 : 1026;
        entries[n] = (lanolin_entry){LANOLIN_TYPE_USERATTR + 0x74, 0, 0, taken - 4};
    }
    return lanolin_commit(g, c0, size, c1, size, 0, 1, 0, 7, DOCUMENT, f->byte, entries, n, DATA, sizeof DATA);
}

static lanolin_committed commit_bytes(lanolin_geometry g, uint8_t *c0, uint8_t *c1, uint32_t length) {
    return commit_bytes_on(&FLASH[0], g, c0, c1, length);
}

/* The listing in an erased block, its check up to a multiple of another program size. Answers where it ends. */
static uint32_t lay_listing(const flash *f, lanolin_geometry g, uint8_t *block) {
    const uint32_t end = lanolin_alignup(39, g.prog_size).value, check = (f->end_tag & 0x7fffffff) + end - 35;
    list_on(f, block, g.block_size);
    EXPECT(lanolin_put_be32(block, 128, 31, 0x37400004 ^ check) == 0);
    EXPECT(lanolin_put_le32(block, 128, 35, lanolin_crc(0xffffffff, block, 35)) == 0);
    return end;
}

/* Entries that just leave a unit behind forward check and check, to the byte; one byte more; and those that end at the
 * block's end, with no forward check, behind which one byte more is refused. */
static void test_forward_just_fits(const flash *f) {
    static const lanolin_geometry SIZES[6] = {{128, 4}, {130, 5}, {128, 16}, {765, 255}, {1536, 512}, {32768, 512}};
    static uint8_t c0[32768], c1[32768];
    memset(c1, f->byte, sizeof c1);
    for (int i = 0; i < 6; i++) {
        const lanolin_geometry g = SIZES[i];
        const uint32_t size = g.block_size, prog = g.prog_size, end = lay_listing(f, g, c0);
        const uint32_t lengths[4] = {size - prog - end - 20, size - prog - end - 19, size - end - 8, size - end - 7};
        for (int more = 0; more < 4; more++) {
            lay_listing(f, g, c0);
            lanolin_committed c = commit_bytes_on(f, g, c0, c1, lengths[more]);
            EXPECT(c.result == (more < 3 ? LANOLIN_OK : LANOLIN_ERR_NOSPC));
            if (more == 3) continue;
            EXPECT(c.dir.off == (more ? lanolin_alignup(end + lengths[more] + 8, prog).value : size - prog));
            EXPECT(c.dir.erased == !more && c.dir.forward == !more && c.dir.forward_size == (more ? 0 : prog));
            EXPECT(c.dir.forward_sum == (more ? 0 : lanolin_crc(0xffffffff, c1, prog)));
            EXPECT(c.dir.etag >> 31 == f->end_tag >> 31 && is_erased(f, c0 + c.dir.off, size - c.dir.off));
            EXPECT(same_dir(c.dir, lanolin_fetch(g, c0, size, c1, size, 0, 1, 0, 7).dir));
        }
    }
}

/* Three commits of 8 bytes behind the listing: two carry a forward check of theirs, the last has no room for one. That
 * of the second is then the log's last, and the block is full. */
static void test_forward_of_an_earlier_commit(void) {
    static const uint32_t ENDS[3] = {80, 112, 128};
    uint8_t c0[128], c1[128];
    memcpy(c0, b0, sizeof c0);
    memcpy(c1, b1, sizeof c1);
    for (int i = 0; i < 3; i++) {
        lanolin_mdir dir = commit_bytes(G, c0, c1, 8).dir;
        EXPECT(dir.off == ENDS[i] && dir.erased == (i < 2) && has_forward(dir, 16, UNIT_SUM));
    }
    EXPECT(commit_bytes(G, c0, c1, 8).result == LANOLIN_ERR_NOSPC);
    /* the smallest fresh pair that is not marked: its log ends at 16 and then at 112, and with the 12 bytes at 128 */
    static const uint8_t FRESH[16] = {1, 0, 0, 0, 0xbf, 0xef, 0xff, 0xff, 0x10, 0x1f, 0xfc, 0x04};
    memset(c0, 0xff, sizeof c0);
    memcpy(c0, FRESH, sizeof FRESH);
    EXPECT(lanolin_put_le32(c0, 128, 12, lanolin_crc(0xffffffff, c0, 12)) == 0);
    lanolin_mdir dir = commit_bytes(G, c0, c1, 88).dir;
    EXPECT(dir.off == 112 && !dir.erased && has_forward(dir, 0, 0) && !memcmp(c0 + 112, b1, 16));
}

/* A foreign forward check in the log, of four bytes or of more than the block has: it stays the record's where a commit
 * carries none of its own, and says whether the room is erased. */
static void test_forward_of_others(void) {
    static const uint32_t SIZES[4] = {4, 0, 17, 0xffffffff};
    static const lanolin_entry STATES[4] = {
        {0x7ff, 1023, 0, 12}, {0x7ff, 1023, 0, 12}, {0x7ff, 1023, 0, 12}, {0x7ff, 1023, 0, 12}};
    for (int i = 0; i < 4; i++) {
        uint8_t c0[512], c1[128], data[8];
        uint32_t sum = SIZES[i] > 128 ? 7 : lanolin_crc(0xffffffff, b1, SIZES[i]), tag = 0x5ffffc08;
        memcpy(c1, b1, sizeof c1);
        EXPECT(lanolin_put_le32(data, 8, 0, SIZES[i]) == 0 && lanolin_put_le32(data, 8, 4, sum) == 0);
        lay_one(c0, tag, data, 8); /* ends at 24 */
        chain(c0, 16, tag, lanolin_mktag(LANOLIN_TYPE_CCRC, LANOLIN_NO_SLOT, 12)); /* .. and so at 32 */
        EXPECT(lanolin_put_le32(c0, 128, 20, lanolin_crc(0xffffffff, c0, 20)) == 0);
        lanolin_mdir dir = lanolin_fetch(G, c0, 128, c1, 128, 0, 1, 0, 0).dir;
        EXPECT(dir.off == 32 && dir.erased == (i < 3) && dir.forward && dir.forward_size == SIZES[i] &&
               dir.forward_sum == sum);
        uint8_t copy[128];
        memcpy(copy, c0, sizeof copy);
        dir = lanolin_commit(G, copy, 128, c1, 128, 0, 1, 0, 0, DOCUMENT, ONES, STATES, 1, LISTED, 12).dir;
        EXPECT(dir.off == 80 && dir.erased && has_forward(dir, 16, UNIT_SUM)); /* its own */
        dir = lanolin_commit(G, c0, 128, c1, 128, 0, 1, 0, 0, DOCUMENT, ONES, STATES, 4, LISTED, 12).dir;
        EXPECT(dir.off == 112 && dir.erased == (i < 2) && dir.forward && dir.forward_size == SIZES[i] &&
               dir.forward_sum == sum); /* 17 bytes behind 112 pass the block */
        dir = lanolin_compact(G, c0, 128, c1, 128, 0, 1, 0, 0, DOCUMENT, ONES).dir;
        EXPECT(dir.pair[0] == 1 && dir.erased && has_forward(dir, 16, UNIT_SUM));
    }
}

/* Whatever stands in the three fields of a record that is handed in, a lookup does not read it. */
static void test_forward_is_not_looked_at(void) {
    static const uint32_t WORDS[4] = {0, 1, 16, 0xffffffff};
    lanolin_mdir dir = fetch(0, 1, 0, 0).dir;
    for (int i = 0; i < 32; i++) {
        uint8_t buffer[4] = {9, 9, 9, 9};
        lanolin_gstate state = {5, {6, 7}};
        dir.forward = i & 1;
        dir.forward_size = WORDS[i >> 1 & 3];
        dir.forward_sum = WORDS[i >> 3];
        EXPECT(is_found(slice(dir, STILL, 0x7ffffc00, 0x37400000, 0, buffer, 4), 0x37400004, 8, 27));
        EXPECT(!memcmp(buffer, LISTED + 27, 4));
        EXPECT(is_refused(slice(dir, STILL, 0x7ffffc00, 0x37500000, 0, NULL, 0), -2));
        lanolin_got got = lanolin_get(G, b0, 128, b1, 128, 0, 1, dir, STILL, 0x700ffc00, 0, buffer, 4);
        EXPECT(is_found(got, 0x00100004, 8, 12));
        lanolin_info info = lanolin_getinfo(G, b0, 128, b1, 128, 0, 1, dir, STILL, 255, 0);
        EXPECT(info.result == 0 && info.type == 1 && info.size == 3 && !strcmp((char *)info.name, "q212"));
        EXPECT(lanolin_getgstate(G, b0, 128, b1, 128, 0, 1, dir, STILL, &state) == 0 && state.tag == 5);
    }
}

/* More than 1,023 slots: with the forward check as read, from the calls that write too. */
static void test_forward_of_too_many(void) {
    const uint32_t name = lanolin_mktag(LANOLIN_TYPE_REG, LANOLIN_SLOTS_MAX, 1), tag = 0x5ffffc08;
    images p;
    memset(&p, 0xff, sizeof p);
    EXPECT(lanolin_put_le32(p.b0, 512, 0, 1) == 0);
    chain(p.b0, 4, 0xffffffff, name);
    chain(p.b0, 9, name, tag);
    memcpy(p.b0 + 13, FLASH[0].more + 12, 8);
    chain(p.b0, 21, tag, lanolin_mktag(LANOLIN_TYPE_CCRC, LANOLIN_NO_SLOT, 7));
    EXPECT(lanolin_put_le32(p.b0, 512, 25, lanolin_crc(0xffffffff, p.b0, 25)) == 0);
    lanolin_fetched f = lanolin_fetch(WIDE, p.b0, 512, p.b1, 512, 0, 1, 0, 7);
    EXPECT(f.result == LANOLIN_ERR_NOENT && f.dir.off == 32 && f.dir.erased && has_forward(f.dir, 16, UNIT_SUM));
    lanolin_committed c[2] = {commit_by(DOCUMENT, &p), compact_by(LITTLEFS, &p)};
    for (int i = 0; i < 2; i++)
        EXPECT(c[i].result == LANOLIN_ERR_NOENT && c[i].seed == f.seed && same_dir(c[i].dir, f.dir));
}

/* Stopped after each number of stores, inside the 12 bytes too, a commit or a compaction reads as never begun: the
 * record has the forward check that it had, and only its erased mark may differ; behind the last as finished. Behind a
 * commit that was cut short there is no room: its first byte is another than the erased one. */
static void test_forward_stopped(const flash *f) {
    static const uint32_t ALL[2] = {8 + 12 + 8, 1 + 4 + 27 + 12 + 8}; /* the erase is a store */
    images p = listing_on(f);
    for (int old = 0; old < 2; old++) { /* a log without a forward check, and then one with */
        lanolin_mdir before = lanolin_fetch(WIDE, p.b0, 512, p.b1, 512, 0, 1, 0, 7).dir;
        EXPECT(has_forward(before, old ? 16 : 0, old ? f->unit_sum : 0));
        for (uint32_t stores = 0; stores < 60; stores++) {
            images left[2] = {p, p};
            lanolin_stored s[2] = {commit_stores_on(f->byte, DOCUMENT, &left[0], stores),
                                   compact_stores_on(f->byte, DOCUMENT, &left[1], stores)};
            for (int i = 0; i < 2; i++) {
                lanolin_mdir dir = lanolin_fetch(WIDE, left[i].b0, 512, left[i].b1, 512, 0, 1, 0, 7).dir;
                EXPECT(!s[i].result && s[i].stores == (stores < ALL[i] ? stores : ALL[i]));
                if (stores < ALL[i]) dir.erased = before.erased;
                EXPECT(stores < ALL[i] ? same_dir(dir, before) : dir.erased && has_forward(dir, 16, f->unit_sum));
            }
            lanolin_committed c = commit_on(f->byte, DOCUMENT, &left[0]);
            if (stores && stores < ALL[0]) EXPECT(c.result == LANOLIN_ERR_NOTERASED && c.index == before.off);
            else EXPECT(c.result == LANOLIN_OK);
            EXPECT(commit_on(f->byte, DOCUMENT, &left[1]).result == LANOLIN_OK);
        }
        EXPECT(commit_on(f->byte, DOCUMENT, &p).result == LANOLIN_OK);
    }
}

static void test_forward(void) {
    for (int i = 0; i < 2; i++) test_forward_just_fits(&FLASH[i]);
    test_forward_of_an_earlier_commit();
    test_forward_of_others();
    test_forward_is_not_looked_at();
    test_forward_of_too_many();
    for (int i = 0; i < 2; i++) test_forward_stopped(&FLASH[i]);
}

/* ---- document 02, L6: a fetch again, from the end of a record that is known */

static int same_fetched(lanolin_fetched a, lanolin_fetched b) {
    return a.result == b.result && same_dir(a.dir, b.dir) && a.seed == b.seed;
}

/* The refetch of a pair of the blocks 0 and 1 from what is known, and a fetch of it from the seed 7. */
static lanolin_fetched again(lanolin_geometry g, const uint8_t *c0, const uint8_t *c1, lanolin_fetched known) {
    return lanolin_refetch(g, c0, g.block_size, c1, g.block_size, 0, 1, 0, known.seed, known.dir);
}

static lanolin_fetched anew(lanolin_geometry g, const uint8_t *c0, const uint8_t *c1) {
    return lanolin_fetch(g, c0, g.block_size, c1, g.block_size, 0, 1, 0, 7);
}

/* Behind each of three commits, from the record before the first and from that before it; and where the block is full,
 * so that a fourth is refused. */
static void test_refetch_behind_commits(void) {
    uint8_t c0[128], c1[128];
    memcpy(c0, b0, sizeof c0);
    memcpy(c1, b1, sizeof c1);
    const lanolin_fetched first = anew(G, c0, c1);
    lanolin_fetched last = first;
    for (int i = 0; i < 4; i++) {
        EXPECT(same_fetched(again(G, c0, c1, first), last) && same_fetched(again(G, c0, c1, last), last));
        EXPECT(commit_bytes(G, c0, c1, 8).result == (i < 3 ? LANOLIN_OK : LANOLIN_ERR_NOSPC));
        lanolin_fetched now = anew(G, c0, c1);
        EXPECT(same_fetched(again(G, c0, c1, first), now) && same_fetched(again(G, c0, c1, last), now));
        EXPECT(i == 3 ? same_fetched(now, last) : now.dir.off > last.dir.off && now.seed != last.seed);
        last = now;
    }
}

/* Stopped after each number of its stores, a commit; the record has no forward check, and then one. */
static void test_refetch_stopped(void) {
    images p = listing();
    for (int old = 0; old < 2; old++) {
        const lanolin_fetched before = anew(WIDE, p.b0, p.b1);
        EXPECT(has_forward(before.dir, old ? 16 : 0, old ? UNIT_SUM : 0));
        for (uint32_t stores = 0; stores < 30; stores++) {
            images left = p;
            EXPECT(commit_stores_by(DOCUMENT, &left, stores).result == LANOLIN_OK);
            EXPECT(same_fetched(again(WIDE, left.b0, left.b1, before), anew(WIDE, left.b0, left.b1)));
        }
        EXPECT(commit_by(DOCUMENT, &p).result == LANOLIN_OK);
    }
}

/* Behind a compaction the other block is another: a fetch reads that, and the refetch the old one still. The
 * compaction's own answer serves, and the refetch behind a commit to it. */
static void test_refetch_behind_compaction(void) {
    images p = listing();
    const lanolin_fetched before = anew(WIDE, p.b0, p.b1);
    const lanolin_committed done = compact_by(DOCUMENT, &p);
    lanolin_fetched now = anew(WIDE, p.b0, p.b1), old = again(WIDE, p.b0, p.b1, before);
    EXPECT(now.result == LANOLIN_OK && now.dir.pair[0] == 1 && now.dir.rev == 2 && done.seed == now.seed);
    EXPECT(same_fetched(old, before) && !same_dir(old.dir, now.dir));
    EXPECT(same_fetched(again(WIDE, p.b0, p.b1, now), now) && same_dir(done.dir, now.dir));
    EXPECT(commit_by(DOCUMENT, &p).result == LANOLIN_OK);
    EXPECT(same_fetched(again(WIDE, p.b0, p.b1, now), anew(WIDE, p.b0, p.b1)));
}

/* Two logs that end at 24, one of a forward check of eight bytes, one of an inline struct with the same data: the
 * records differ in the forward check alone. Behind the same commit, of a check that ends at 48, one pair is marked
 * erased. */
static void test_refetch_needs_forward(void) {
    for (int with = 0; with < 2; with++) {
        const uint32_t tag = with ? 0x5ffffc08 : 0x20100008, ccrc = 0x500ffc04;
        uint8_t block[512], data[8];
        EXPECT(lanolin_put_le32(data, 8, 0, 8) == 0);
        EXPECT(lanolin_put_le32(data, 8, 4, lanolin_crc(0xffffffff, b1, 8)) == 0);
        lay_one(block, tag, data, 8);
        lanolin_fetched known = anew(G, block, b1);
        EXPECT(known.dir.off == 24 && known.dir.etag == ccrc && !known.dir.erased && known.dir.forward == with);
        chain(block, 24, ccrc, 0x500ffc14);
        EXPECT(lanolin_put_le32(block, 128, 28, lanolin_crc(0xffffffff, block + 24, 4)) == 0);
        lanolin_fetched now = again(G, block, b1, known);
        EXPECT(now.dir.off == 48 && now.dir.erased == with && same_fetched(now, anew(G, block, b1)));
    }
}

/* A check of size 0, whose checksum stands behind its end: with a byte of it altered a fetch finds no commit. */
static void test_refetch_past_the_end(void) {
    static const uint8_t SHORT[12] = {1, 0, 0, 0, 0xaf, 0xf0, 0x03, 0xff, 0xc5, 0xe6, 0x94, 0xf0};
    uint8_t block[128];
    memset(block, 0xff, sizeof block);
    memcpy(block, SHORT, sizeof SHORT);
    const lanolin_fetched known = anew(G, block, b1);
    EXPECT(known.result == LANOLIN_OK && known.dir.off == 8 && known.dir.etag == 0x500ffc00);
    block[12] = 0; /* behind all that was read */
    EXPECT(same_fetched(again(G, block, b1, known), anew(G, block, b1)));
    block[9] ^= 1;
    EXPECT(anew(G, block, b1).result == LANOLIN_ERR_CORRUPT && again(G, block, b1, known).result == LANOLIN_OK);
}

/* Of any record: which are refused, and that of the others pair, revision and all else but the erased mark go on. */
static void test_refetch_of_any_record(void) {
    static const uint32_t ENDS[6] = {0, 7, 8, 128, 129, 0xffffffff};
    const lanolin_mdir made = {{1, 0}, 9, 8, 0, 1023, true, true, {3, 4}, false, 5, 6};
    for (int i = 0; i < 6; i++) {
        lanolin_fetched known = {0, made, 7};
        known.dir.off = ENDS[i];
        lanolin_fetched f = again(G, b0, b1, known);
        lanolin_mdir expected = known.dir;
        expected.erased = false;
        expected.forward_size = expected.forward_sum = 0;
        if (i == 2 || i == 3) EXPECT(f.result == LANOLIN_OK && same_dir(f.dir, expected) && f.seed == 7);
        else EXPECT(f.result == LANOLIN_ERR_INVAL && is_no_dir(f.dir) && f.seed == 7);
        known.dir.count = expected.count = 1024;
        f = again(G, b0, b1, known);
        if (i == 2 || i == 3) EXPECT(f.result == LANOLIN_ERR_NOENT && same_dir(f.dir, expected) && f.seed == 7);
    }
    EXPECT(lanolin_refetch(G, b0, 128, b1, 128, 1, 0, 0, 7, made).result == LANOLIN_OK);
    EXPECT(lanolin_refetch(G, b0, 128, b1, 128, 0, 2, 0, 7, made).result == LANOLIN_ERR_INVAL);
    EXPECT(lanolin_refetch(G, b0, 128, b1, 128, 0, 1, 1, 7, made).result == LANOLIN_ERR_CORRUPT);
    EXPECT(lanolin_refetch(G, b0, 128, b1, 128, 0, 2, 1, 7, made).result == LANOLIN_ERR_INVAL);
    EXPECT(lanolin_refetch(G, b0, 127, b1, 128, 0, 1, 0, 7, made).result == LANOLIN_ERR_INVAL);
    EXPECT(lanolin_refetch(G, NULL, 0, NULL, 0, 0, 1, 0, 7, made).result == LANOLIN_ERR_INVAL);
}

static void test_refetch(void) {
    test_refetch_behind_commits();
    test_refetch_stopped();
    test_refetch_behind_compaction();
    test_refetch_needs_forward();
    test_refetch_past_the_end();
    test_refetch_of_any_record();
}

/* ---- document 02, L8: an index in memory, of pairs of 512-byte blocks */

enum { MOST_WORDS = 528 };
static const uint32_t ANY_WORD = 0xa5a5a5a5;

/* A table to lend: before a call any word stands in it, and behind its length the same words, which must stay. */
typedef struct { size_t len; uint32_t words[MOST_WORDS]; } table;

static table of_words(size_t len) {
    table t = {len, {0}};
    EXPECT(len <= MOST_WORDS);
    for (size_t i = 0; i < MOST_WORDS; i++) t.words[i] = ANY_WORD;
    return t;
}

static int is_untouched(const table *t, size_t from) {
    for (size_t i = from; i < MOST_WORDS; i++)
        if (t->words[i] != ANY_WORD) return 0;
    return 1;
}

/* These places, then zeros up to its length, and behind it nothing altered. */
static int holds(const table *t, const uint32_t *places, size_t count) {
    if (2 * count > t->len || !is_untouched(t, t->len)) return 0;
    return (count == 0 || !memcmp(t->words, places, 2 * count * sizeof *places)) &&
           is_zero(t->words + 2 * count, (t->len - 2 * count) * sizeof *places);
}

/* Accepted, with so many places in use: these. */
static int is_table(lanolin_indexed indexed, const table *t, const uint32_t *places, uint32_t count) {
    return indexed.result == LANOLIN_OK && indexed.places == count && holds(t, places, count);
}

/* Too short, and all zero. */
static int is_full(lanolin_indexed indexed, const table *t) {
    return indexed.result == LANOLIN_ERR_TABLE && indexed.places == 0 && holds(t, NULL, 0);
}

/* Refused so, and as it was. */
static int is_left(lanolin_indexed indexed, const table *t, int32_t result) {
    return indexed.result == result && indexed.places == 0 && is_untouched(t, 0);
}

static int same_table(const table *a, const table *b) {
    return a->len == b->len && !memcmp(a->words, b->words, sizeof a->words);
}

static lanolin_mdir record_of(const images *p) { return lanolin_fetch(WIDE, p->b0, 512, p->b1, 512, 0, 1, 0, 7).dir; }

static lanolin_mdir ending(lanolin_mdir dir, uint32_t off) { return dir.off = off, dir; }

static lanolin_indexed build(const images *p, lanolin_mdir dir, uint32_t rules, table *t) {
    return lanolin_index(WIDE, p->b0, 512, p->b1, 512, 0, 1, dir, rules, t->words, t->len);
}

static lanolin_indexed extend(const images *p, lanolin_mdir old, lanolin_mdir dir, uint32_t rules, table *t) {
    return lanolin_index_extend(WIDE, p->b0, 512, p->b1, 512, 0, 1, old, dir, rules, t->words, t->len);
}

static lanolin_got get_from(const images *p, lanolin_mdir dir, const table *t, uint32_t type, uint32_t id,
                            uint8_t *buffer, size_t size) {
    return lanolin_index_get(WIDE, p->b0, 512, p->b1, 512, 0, 1, dir, t->words, t->len, type, id, buffer, size);
}

/* The listing's tags stand at 8, 16 and 23, their data four bytes behind them; its create has no place. */
static const uint32_t LISTED_PLACES[6] = {0x00100004, 12, 0x20100003, 20, 0x37400004, 27};

/* samples/instructions.pair, whose second block answers, and the places of its entries as samples/make_pairs.py put
 * them there: an entry takes four bytes and its data. Its commits end at YARD_ENDS, where so many are live; and so many
 * were at one time, before that end. */
static images yard;
static const uint32_t YARD_ENDS[5] = {176, 256, 336, 352, 432};
static const uint32_t YARD_LIVE[5] = {12, 15, 21, 20, 28}; /* the fourth takes a deadline away */
static const uint32_t YARD_MOST[5] = {12, 15, 21, 21, 28};
static const uint32_t YARD_PLACES[56] = {
    0x0ff00008, 12,  0x20100018, 24,                                   /* 0, the superblock: tags at 8 and 20 */
    0x00200404, 56,  0x20000408, 64,  0x37400404, 76,                  /* 1, done: create at 48, tags at 52, 60, 72 */
    0x00100804, 88,  0x20100803, 96,  0x37400804, 180,                 /* 2, q212: 84, 92; its deadline anew at 176 */
    0x00100c04, 115, 0x20100c06, 123, 0x37400c04, 133, 0x37500c01, 141, /* 3, q213: 111, 119, 129, 137 */
    0x00101004, 221, 0x20201008, 229, 0x37401004, 241,                 /* 4, q214: 217, 225, 237, behind `gone` */
    0x00101404, 264, 0x2010140c, 272,                                  /* 5, q215: 260, 268; its deadline is removed */
    0x00101804, 300, 0x20101800, 344, 0x37401804, 317,                 /* 6, q216: 296, 313; its payload anew at 340 */
    0x00101c07, 360, 0x20101c02, 371, 0x37401c04, 377,                 /* 7, q217: 356, 367, 373 */
    0x00102004, 389, 0x20102004, 397, 0x37402002, 405,                 /* 8, q218: 385, 393, 401 */
    0x00102404, 415, 0x20102400, 423,                                  /* 9, note: 411, 419; no byte of payload */
};

/* Exactly as long, longer, odd, and the longest; by both rules. Neither block is altered. */
static void test_index_of_samples(void) {
    static const size_t MORE[5] = {0, 1, 2, 7, 400};
    const images listed = listing();
    for (uint32_t rules = DOCUMENT; rules <= LITTLEFS; rules++)
        for (int i = 0; i < 5; i++) {
            table t = of_words(6 + MORE[i]), u = of_words(56 + MORE[i]);
            images p = listed, q = yard;
            EXPECT(is_table(build(&p, record_of(&p), rules, &t), &t, LISTED_PLACES, 3));
            EXPECT(is_table(build(&q, record_of(&q), rules, &u), &u, YARD_PLACES, 28));
            EXPECT(!memcmp(&p, &listed, sizeof p) && !memcmp(&q, &yard, sizeof q));
        }
    /* the blocks the other way round, under other numbers: the record's first is the one that is read */
    table t = of_words(6);
    const lanolin_mdir dir = {.pair = {9, 5}, .off = 48};
    EXPECT(is_table(lanolin_index(G, b1, 128, b0, 128, 5, 9, dir, DOCUMENT, t.words, 6), &t, LISTED_PLACES, 3));
    EXPECT(record_of(&yard).pair[0] == 1 && record_of(&yard).off == 432);
}

/* Of a record pair and end are read, and nothing else. */
static void test_index_reads_pair_and_end(void) {
    const lanolin_mdir bare = {.pair = {1, 0}, .off = 432};
    const lanolin_mdir odd = {{1, 0}, 0xffffffff, 432, 0x12345678, 0xffff, true, true, {3, 3}, true, 7, 7};
    const lanolin_mdir known = ending(odd, 176);
    table t = of_words(56), u = of_words(56), v = of_words(56);
    EXPECT(is_table(build(&yard, bare, DOCUMENT, &t), &t, YARD_PLACES, 28));
    EXPECT(is_table(build(&yard, odd, DOCUMENT, &u), &u, YARD_PLACES, 28));
    EXPECT(build(&yard, known, DOCUMENT, &v).result == LANOLIN_OK);
    EXPECT(is_table(extend(&yard, known, odd, DOCUMENT, &v), &v, YARD_PLACES, 28));
    EXPECT(is_found(get_from(&yard, odd, &t, 0x375, 3, NULL, 0), 0x37500c01, 5, 141));
}

/* Every end of a block: the log up to each commit's, as if nothing stood behind it, and -202 for all others. */
static void test_index_of_every_end(void) {
    const lanolin_mdir dir = record_of(&yard);
    for (uint32_t end = 0, i = 0; end <= 512; end++) {
        table t = of_words(57), u = of_words(57);
        lanolin_indexed indexed = build(&yard, ending(dir, end), DOCUMENT, &t);
        if (i == 5 || end != YARD_ENDS[i]) {
            EXPECT(is_left(indexed, &t, LANOLIN_ERR_IRREGULAR));
            continue;
        }
        images cut = yard;
        memset(cut.b1 + end, 0xff, 512 - end);
        EXPECT(record_of(&cut).off == end && build(&cut, record_of(&cut), DOCUMENT, &u).places == YARD_LIVE[i]);
        EXPECT(indexed.result == LANOLIN_OK && indexed.places == YARD_LIVE[i++] && same_table(&t, &u));
    }
    /* a byte before the end that is not as it was: no commit ends there */
    for (uint32_t at = 0; at < 48; at++) {
        table t = of_words(6);
        images p = listing();
        p.b0[at] ^= 1;
        lanolin_indexed indexed = build(&p, (lanolin_mdir){.pair = {0, 1}, .off = 48}, DOCUMENT, &t);
        if (at < 39) EXPECT(is_left(indexed, &t, LANOLIN_ERR_IRREGULAR));
        else EXPECT(is_table(indexed, &t, LISTED_PLACES, 3)); /* the padding behind the checksum */
    }
}

/* Tables of every length up to enough, also odd: what counts is the most that was ever live, not what is at the end. */
static void test_index_too_short(void) {
    const lanolin_mdir dir = record_of(&yard);
    for (int i = 0; i < 5; i++)
        for (size_t len = 0; len < 60; len++) {
            table t = of_words(len), u = of_words(57);
            lanolin_indexed indexed = build(&yard, ending(dir, YARD_ENDS[i]), DOCUMENT, &t);
            if (len / 2 < YARD_MOST[i]) {
                EXPECT(is_full(indexed, &t));
                continue;
            }
            EXPECT(build(&yard, ending(dir, YARD_ENDS[i]), DOCUMENT, &u).places == YARD_LIVE[i]);
            EXPECT(is_table(indexed, &t, u.words, YARD_LIVE[i]));
        }
    EXPECT(lanolin_index(WIDE, yard.b0, 512, yard.b1, 512, 0, 1, dir, DOCUMENT, NULL, 0).result == LANOLIN_ERR_TABLE);
}

/* The log of the first tags: its places, and that the table just before has too few. */
static void expect_places(const uint32_t *tags, int count, uint32_t rules, const uint32_t *places, uint32_t live,
                          uint32_t most) {
    const images p = logged(tags, count);
    for (size_t len = 2 * most > 2 ? 2 * most - 3 : 0; len < 2 * most + 3; len++) {
        table t = of_words(len);
        lanolin_indexed indexed = build(&p, record_of(&p), rules, &t);
        EXPECT(len < 2 * most ? is_full(indexed, &t) : is_table(indexed, &t, places, live));
    }
}

/* Slots that come in before others, and go: `logged` lays each tag behind the one before, from 4 on. */
static void test_index_of_moved_slots(void) {
    static const uint32_t TAGS[11] = {0x40100000, 0x00100004, 0x37400004, /* 4, 8, 16: a slot, named, with a deadline */
                                      0x40100000, 0x00100004,             /* 24, 28: one before it */
                                      0x40100400, 0x00100404,             /* 36, 40: and one between them */
                                      0x4ff00400, 0x4ff00000, 0x4ff00000, /* 48, 52, 56: all of them go */
                                      0x40100000};                        /* 60: a bare slot */
    static const uint32_t FIRST[4] = {0x00100004, 12, 0x37400004, 20};
    static const uint32_t SECOND[4] = {0x00100404, 12, 0x37400404, 20};
    static const uint32_t BOTH[6] = {0x00100004, 32, 0x00100404, 12, 0x37400404, 20};
    static const uint32_t APART[6] = {0x00100004, 32, 0x00100804, 12, 0x37400804, 20};
    static const uint32_t ALL[8] = {0x00100004, 32, 0x00100404, 44, 0x00100804, 12, 0x37400804, 20};
    for (uint32_t rules = DOCUMENT; rules <= LITTLEFS; rules++) {
        expect_places(TAGS, 0, rules, NULL, 0, 0);
        expect_places(TAGS, 1, rules, NULL, 0, 0); /* a create takes no place */
        expect_places(TAGS, 3, rules, FIRST, 2, 2);
        expect_places(TAGS, 4, rules, SECOND, 2, 2);
        expect_places(TAGS, 5, rules, BOTH, 3, 3);
        expect_places(TAGS, 6, rules, APART, 3, 3);
        expect_places(TAGS, 7, rules, ALL, 4, 4);
        expect_places(TAGS, 8, rules, BOTH, 3, 4);
        expect_places(TAGS, 9, rules, FIRST, 2, 4);
        expect_places(TAGS, 10, rules, NULL, 0, 4);
        expect_places(TAGS, 11, rules, NULL, 0, 4);
    }
}

/* Attributes out of order, a struct before the name, entries set anew and one removed twice. */
static void test_index_order(void) {
    static const uint32_t TAGS[10] = {0x40100000, 0x3ff00004, 0x20100004, 0x30000004, /* 4, 8, 16, 24 */
                                      0x37400004, 0x00100004,                         /* 32, 40 */
                                      0x20200008, 0x374003ff, 0x374003ff, 0x3ff00002}; /* 48, 60, 64, 68 */
    static const uint32_t FIVE[10] = {0x00100004, 44, 0x20100004, 20, 0x30000004, 28, 0x37400004, 36, 0x3ff00004, 12};
    static const uint32_t LAST[8] = {0x00100004, 44, 0x20200008, 52, 0x30000004, 28, 0x3ff00002, 72};
    expect_places(TAGS, 6, DOCUMENT, FIVE, 5, 5);
    expect_places(TAGS, 10, DOCUMENT, LAST, 4, 5);
}

/* What takes no place: a hard tail, a move state, a forward check. Names alone, with a bare slot between them: by
 * littlefs's rule alone. */
static void test_index_of_the_rest(void) {
    static const uint32_t NONE[4] = {0x40100000, 0x601ffc08, 0x7ffffc0c, 0x5ffffc08};
    static const uint32_t NAMES[4] = {0x00100004, 0x20100004, 0x00200804, 0x37400804}; /* 4, 12, 20, 28 */
    static const uint32_t NAMED[8] = {0x00100004, 8, 0x20100004, 16, 0x00200804, 24, 0x37400804, 32};
    expect_places(NONE, 4, DOCUMENT, NULL, 0, 0);
    expect_places(NAMES, 4, LITTLEFS, NAMED, 4, 4);
    const images p = logged(NAMES, 4);
    table t = of_words(8);
    EXPECT(is_left(build(&p, record_of(&p), DOCUMENT, &t), &t, LANOLIN_ERR_IRREGULAR));
    t = of_words(0); /* before -221 */
    EXPECT(is_left(build(&p, record_of(&p), DOCUMENT, &t), &t, LANOLIN_ERR_IRREGULAR));
}

/* Ids up to the last, which a delete lowers and a create raises. */
static void test_index_ids(void) {
    static const uint16_t IDS[6] = {0, 1, 511, 512, 1021, 1022};
    static const lanolin_entry STEPS[2] = {{0x4ff, 0, 0, 0}, {0x401, 0, 0, 0}};
    for (int i = 0; i < 6; i++) {
        images p = listing();
        uint32_t name[2] = {lanolin_mktag(LANOLIN_TYPE_REG, IDS[i], 16), 8}, live = 1;
        lay_one(p.b0, name[0], LISTED, 16); /* ends at 32 */
        table t = of_words(2), u = t;
        lanolin_mdir dir = record_of(&p);
        EXPECT(is_table(build(&p, dir, LITTLEFS, &t), &t, name, 1));
        for (int step = 0; step < 2; step++) {
            const lanolin_mdir old = dir;
            dir = lanolin_commit(WIDE, p.b0, 512, p.b1, 512, 0, 1, 0, 7, LITTLEFS, ONES, &STEPS[step], 1, NULL, 0).dir;
            if (IDS[i] == 0) live = 0;
            name[0] += step ? 1 << 10 : -(1u << 10);
            EXPECT(is_table(build(&p, dir, LITTLEFS, &u), &u, name, live));
            EXPECT(is_table(extend(&p, old, dir, LITTLEFS, &t), &t, name, live));
        }
    }
}

/* All that one slot can hold, the attributes from the last type down: each goes before those that are there. */
static void test_index_of_all_attributes(void) {
    lanolin_entry entries[256];
    uint32_t places[516];
    memcpy(places, LISTED_PLACES, 4 * sizeof *places); /* name and struct; the deadline is set anew */
    for (uint32_t u = 0; u < 256; u++) {
        entries[255 - u] = (lanolin_entry){(uint16_t)(0x300 + u), 0, 0, 1};
        places[4 + 2 * u] = lanolin_mktag(0x300 + u, 0, 1);
        places[5 + 2 * u] = 52 + 5 * (255 - u); /* the commit begins at 48, and an entry takes five bytes */
    }
    static large p;
    p = enlarged(LISTED, sizeof LISTED);
    write_to(&p, DOCUMENT, entries, 256, "u");
    const lanolin_mdir dir = lanolin_fetch(LARGE, p.b0, 8192, p.b1, 8192, 0, 1, 0, 7).dir;
    for (size_t len = 515; len < 519; len++) {
        table t = of_words(len);
        lanolin_indexed indexed =
            lanolin_index(LARGE, p.b0, 8192, p.b1, 8192, 0, 1, dir, DOCUMENT, t.words, t.len);
        EXPECT(len < 516 ? is_full(indexed, &t) : is_table(indexed, &t, places, 258));
    }
}

/* Sizes, numbers and records as a lookup refuses them, and a number that is no rule: -22, also where the log is not
 * regular or the table too short, and the table is as it was. */
static void test_index_invalid(void) {
    static const uint32_t NUMBERS[4] = {2, 3, 0x80000000, 0xffffffff};
    const lanolin_geometry odd = {128, 3};
    const lanolin_mdir dir = {.pair = {0, 1}, .off = 48}, other = {.pair = {0, 2}, .off = 48};
    const lanolin_mdir past = ending(dir, 129), none = ending(dir, 0);
    for (size_t len = 0; len < 8; len += 7) {
        table t = of_words(len);
        uint32_t *w = t.words;
        EXPECT(is_left(lanolin_index(G, b0, 127, b1, 128, 0, 1, dir, DOCUMENT, w, len), &t, LANOLIN_ERR_INVAL));
        EXPECT(is_left(lanolin_index(G, b0, 128, b1, 127, 0, 1, dir, DOCUMENT, w, len), &t, LANOLIN_ERR_INVAL));
        EXPECT(is_left(lanolin_index(G, NULL, 0, NULL, 0, 0, 1, dir, DOCUMENT, w, len), &t, LANOLIN_ERR_INVAL));
        EXPECT(is_left(lanolin_index(G, b0, 128, b1, 128, 0, 0, dir, DOCUMENT, w, len), &t, LANOLIN_ERR_INVAL));
        EXPECT(is_left(lanolin_index(G, b0, 128, b1, 128, 0, 2, dir, DOCUMENT, w, len), &t, LANOLIN_ERR_INVAL));
        EXPECT(is_left(lanolin_index(odd, b0, 128, b1, 128, 0, 1, dir, DOCUMENT, w, len), &t, LANOLIN_ERR_INVAL));
        EXPECT(is_left(lanolin_index(G, b0, 128, b1, 128, 0, 1, other, DOCUMENT, w, len), &t, LANOLIN_ERR_INVAL));
        EXPECT(is_left(lanolin_index(G, b0, 128, b1, 128, 0, 1, past, DOCUMENT, w, len), &t, LANOLIN_ERR_INVAL));
        for (int i = 0; i < 4; i++) {
            EXPECT(is_left(lanolin_index(G, b0, 128, b1, 128, 0, 1, dir, NUMBERS[i], w, len), &t, LANOLIN_ERR_INVAL));
            EXPECT(is_left(lanolin_index(G, b0, 128, b1, 128, 0, 1, none, NUMBERS[i], w, len), &t, LANOLIN_ERR_INVAL));
        }
    }
}

/* From each commit's end to each later one, in tables of every length: as a build for the later end. */
static void test_extend_is_build(void) {
    const lanolin_mdir dir = record_of(&yard);
    for (int from = 0; from < 5; from++)
        for (int to = from; to < 5; to++)
            for (size_t len = 2 * YARD_MOST[from]; len < 60; len++) {
                const lanolin_mdir old = ending(dir, YARD_ENDS[from]), now = ending(dir, YARD_ENDS[to]);
                table t = of_words(len), u = of_words(len);
                EXPECT(build(&yard, old, DOCUMENT, &t).places == YARD_LIVE[from]);
                lanolin_indexed built = build(&yard, now, DOCUMENT, &u);
                lanolin_indexed extended = extend(&yard, old, now, len % 2 ? LITTLEFS : DOCUMENT, &t);
                EXPECT(extended.result == built.result && extended.places == built.places && same_table(&t, &u));
                EXPECT(extended.result == (len / 2 < YARD_MOST[to] ? LANOLIN_ERR_TABLE : LANOLIN_OK));
            }
}

/* Behind one commit after the other, each with the record that it answered; on flash of both kinds. */
static void test_extend_behind_commits(const flash *f) {
    static const lanolin_entry COMMITS[6][3] = {
        {{0x374, 0, 0, 4}, {0x375, 0, 0, 1}, {0x401, 1, 0, 0}}, /* set anew, a new one, a slot behind */
        {{0x001, 1, 0, 4}, {0x201, 1, 0, 0}, {0x401, 0, 0, 0}}, /* named; a slot before both */
        {{0x002, 0, 0, 3}, {0x200, 0, 0, 8}, {0x374, 1, 0, LANOLIN_REMOVAL}},
        {{0x4ff, 1, 0, 0}, {0x3ff, 0, 0, 2}, {0x300, 1, 0, 2}}, /* the listing's own slot goes */
        {{0x600, 1023, 0, 8}, {0x7ff, 1023, 0, 12}, {0x202, 1, 0, 8}},
        {{0x4ff, 0, 0, 0}, {0x4ff, 0, 0, 0}, {0x401, 0, 0, 0}}, /* all of them go */
    };
    static const uint32_t LIVE[6] = {4, 6, 7, 6, 6, 0}; /* from the listing's three on, slot by slot, 7 is 2 + 3 + 2 */
    images p = listing_on(f);
    table t = of_words(19);
    lanolin_mdir dir = record_of(&p);
    EXPECT(is_table(build(&p, dir, DOCUMENT, &t), &t, LISTED_PLACES, 3));
    for (int i = 0; i < 6; i++) {
        const lanolin_mdir old = dir;
        table u = of_words(19);
        dir = lanolin_commit(WIDE, p.b0, 512, p.b1, 512, 0, 1, 0, 7, DOCUMENT, f->byte, COMMITS[i], 3, LISTED, 39).dir;
        lanolin_indexed extended = extend(&p, old, dir, DOCUMENT, &t), built = build(&p, dir, DOCUMENT, &u);
        EXPECT(extended.result == LANOLIN_OK && extended.places == LIVE[i] && built.places == LIVE[i]);
        EXPECT(same_table(&t, &u));
    }
}

/* Tables that no build made, behind a commit of one deadline, whose tag stands at 48, or of one create: what halving
 * finds is set or moved, and all behind the places is zero. */
static void test_extend_of_any_table(void) {
    static const uint32_t DEADLINE_ALONE[2] = {0x37400004, 52};
    static const lanolin_entry CREATED = {0x401, 0, 0, 0};
    images p = listing(), q = p;
    const lanolin_mdir old = record_of(&p), dir = commit_by(DOCUMENT, &p).dir;
    const lanolin_mdir made =
        lanolin_commit(WIDE, q.b0, 512, q.b1, 512, 0, 1, 0, 7, DOCUMENT, ONES, &CREATED, 1, NULL, 0).dir;
    EXPECT(old.off == 48 && dir.off == 80);
    table t = of_words(7);
    memset(t.words, 0, 7 * 4);
    EXPECT(is_table(extend(&p, old, dir, DOCUMENT, &t), &t, DEADLINE_ALONE, 1));
    t = of_words(7); /* the first tag is 0: no place is taken from it */
    t.words[0] = 0;
    EXPECT(is_table(extend(&p, old, dir, DOCUMENT, &t), &t, DEADLINE_ALONE, 1));
    t = of_words(1); /* a word is no place, and leaves no room for one */
    EXPECT(is_full(extend(&p, old, dir, DOCUMENT, &t), &t));
    t = of_words(0);
    EXPECT(is_full(extend(&p, old, dir, DOCUMENT, &t), &t));
    /* not sorted: of three places the second is before the deadline, then the third; so it goes behind them */
    static const uint32_t MIXED[8] = {0x37400004, 1, 0x00100004, 2, 0x20100003, 3, 0x37400004, 52};
    t = of_words(8);
    memcpy(t.words, MIXED, 6 * 4);
    t.words[6] = 0;
    EXPECT(is_table(extend(&p, old, dir, DOCUMENT, &t), &t, MIXED, 4));
    t = of_words(7);
    memcpy(t.words, MIXED, 6 * 4);
    EXPECT(is_full(extend(&p, old, dir, DOCUMENT, &t), &t));
    /* ids that run over, as words that wrap: into the type, and to a tag of 0, which is a place all the same */
    static const uint32_t RAISED[4] = {0x00200004, 5, 0, 6};
    t = of_words(5);
    memcpy(t.words, ((const uint32_t[4]){0x001ffc04, 5, 0xfffffc00, 6}), 4 * 4);
    EXPECT(is_table(extend(&q, old, made, DOCUMENT, &t), &t, RAISED, 2));
    /* the same end twice: the places stay, and an odd word becomes zero */
    t = of_words(9);
    memcpy(t.words, MIXED, 8 * 4);
    EXPECT(is_table(extend(&p, dir, dir, DOCUMENT, &t), &t, MIXED, 4));
}

/* Two records of which one is refused, which are of two blocks, or the wrong way round; and ends of no commit. */
static void test_extend_refused(void) {
    const lanolin_mdir dir = record_of(&yard), old = ending(dir, 176), past = ending(dir, 513);
    const lanolin_mdir swapped = {.pair = {0, 1}, .off = 48}, other = {.pair = {1, 2}, .off = 176};
    table t = of_words(56);
    EXPECT(is_left(extend(&yard, dir, old, DOCUMENT, &t), &t, LANOLIN_ERR_INVAL));
    EXPECT(is_left(extend(&yard, swapped, dir, DOCUMENT, &t), &t, LANOLIN_ERR_INVAL)); /* the older block's */
    EXPECT(is_left(extend(&yard, other, dir, DOCUMENT, &t), &t, LANOLIN_ERR_INVAL));
    EXPECT(is_left(extend(&yard, old, other, DOCUMENT, &t), &t, LANOLIN_ERR_INVAL));
    EXPECT(is_left(extend(&yard, old, past, DOCUMENT, &t), &t, LANOLIN_ERR_INVAL));
    EXPECT(is_left(extend(&yard, past, past, DOCUMENT, &t), &t, LANOLIN_ERR_INVAL));
    EXPECT(is_left(extend(&yard, old, dir, 2, &t), &t, LANOLIN_ERR_INVAL));
    EXPECT(is_left(extend(&yard, ending(dir, 175), dir, 2, &t), &t, LANOLIN_ERR_INVAL)); /* before -202 */
    EXPECT(is_left(lanolin_index_extend(WIDE, yard.b0, 512, yard.b1, 511, 0, 1, old, dir, DOCUMENT, t.words, 56), &t,
                   LANOLIN_ERR_INVAL));
    static const uint32_t ENDS[6] = {0, 4, 175, 177, 255, 431};
    for (int i = 0; i < 6; i++) {
        EXPECT(is_left(extend(&yard, ending(dir, ENDS[i]), dir, DOCUMENT, &t), &t, LANOLIN_ERR_IRREGULAR));
        if (ENDS[i] > 176)
            EXPECT(is_left(extend(&yard, old, ending(dir, ENDS[i]), DOCUMENT, &t), &t, LANOLIN_ERR_IRREGULAR));
    }
    t = of_words(0); /* before -221 */
    EXPECT(is_left(extend(&yard, ending(dir, 175), dir, DOCUMENT, &t), &t, LANOLIN_ERR_IRREGULAR));
    /* the whole log is to be regular, also where what is new in it is; the old one's end alone is asked for */
    static const uint32_t NAMES[2] = {0x00100004, 0x00200804};
    images p = logged(NAMES, 2);
    const lanolin_mdir named = record_of(&p), more = commit_by(LITTLEFS, &p).dir;
    t = of_words(6);
    EXPECT(is_left(extend(&p, named, more, DOCUMENT, &t), &t, LANOLIN_ERR_IRREGULAR));
    EXPECT(build(&p, named, LITTLEFS, &t).places == 2 && extend(&p, named, more, LITTLEFS, &t).places == 3);
}

/* A name, a struct or an attribute of a slot, from the table and by a lookup: the same answer and buffer. */
static int same_lookup(const images *p, lanolin_mdir dir, const table *t, uint32_t type, uint32_t id, size_t size) {
    const uint32_t mask = type < 0x300 ? LANOLIN_MASK_CLASS : LANOLIN_MASK_TYPE, key = lanolin_mktag(type, id, 0);
    uint8_t from[40], by[40];
    memset(from, 9, sizeof from);
    memset(by, 9, sizeof by);
    lanolin_got got = get_from(p, dir, t, type, id, from, size);
    lanolin_got want = lanolin_getslice(WIDE, p->b0, 512, p->b1, 512, 0, 1, dir, STILL, mask, key, 0, by, size);
    return got.result == want.result && got.tag == want.tag && got.length == want.length && got.off == want.off &&
           !memcmp(from, by, sizeof by);
}

/* All that each slot has, and all that it has not, whatever the buffer's length. */
static void expect_lookups(const images *p, lanolin_mdir dir, const table *t) {
    static const size_t SIZES[4] = {0, 1, 4, 40};
    for (uint32_t id = 0; id < dir.count; id++)
        for (int i = 0; i < 4; i++) {
            int same = same_lookup(p, dir, t, LANOLIN_TYPE_NAME, id, SIZES[i]) &&
                       same_lookup(p, dir, t, LANOLIN_TYPE_STRUCT, id, SIZES[i]);
            for (uint32_t u = 0; u < 256; u++) same &= same_lookup(p, dir, t, LANOLIN_TYPE_USERATTR + u, id, SIZES[i]);
            EXPECT(same);
        }
}

/* Which types ask for what, and that others, and ids that the table has not, find nothing. */
static void test_index_get(void) {
    static const uint32_t NONE[13] = {0x100, 0x1ff, 0x400, 0x401, 0x4ff,   0x500,     0x5ff,
                                      0x601, 0x7ff, 0x800, 0xb74, 0x10374, 0xfffffb74};
    static const uint32_t IDS[5] = {10, 1023, 1024, 1026, 0xffffffff};
    const lanolin_mdir dir = record_of(&yard);
    for (size_t len = 56; len < 60; len++) { /* with zeros behind, and odd */
        table t = of_words(len);
        EXPECT(build(&yard, dir, DOCUMENT, &t).places == 28);
        expect_lookups(&yard, dir, &t);
    }
    table t = of_words(56);
    build(&yard, dir, DOCUMENT, &t);
    uint8_t buffer[6] = {9, 9, 9, 9, 9, 9};
    for (uint32_t type = 0; type < 0x100; type++) { /* slot 0 has a superblock's name */
        EXPECT(is_found(get_from(&yard, dir, &t, type, 0, NULL, 0), 0x0ff00008, 12, 12));
        EXPECT(is_found(get_from(&yard, dir, &t, 0x200 + type, 4, NULL, 0), 0x20201008, 12, 229));
    }
    for (int i = 0; i < 13; i++) EXPECT(is_refused(get_from(&yard, dir, &t, NONE[i], 2, buffer, 6), -2));
    for (int i = 0; i < 5; i++) EXPECT(is_refused(get_from(&yard, dir, &t, 0x374, IDS[i], buffer, 6), -2));
    EXPECT(!memcmp(buffer, "\x09\x09\x09\x09\x09\x09", 6));
    EXPECT(is_found(get_from(&yard, dir, &t, 0x374, 8, buffer, 6), 0x37402002, 6, 405));
    EXPECT(!memcmp(buffer, "\x3c\0\0\0\0\0", 6));
    /* no table: nothing is found */
    EXPECT(is_refused(lanolin_index_get(WIDE, yard.b0, 512, yard.b1, 512, 0, 1, dir, NULL, 0, 0x374, 2, buffer, 6),
                      LANOLIN_ERR_NOENT));
}

/* As a lookup refuses: sizes, numbers, records and the buffer's length, which is left as it was. */
static void test_index_get_invalid(void) {
    static uint8_t plenty[LANOLIN_BUFFER_MAX + 1];
    const uint32_t *w = LISTED_PLACES;
    const lanolin_mdir dir = {.pair = {0, 1}, .off = 48}, other = {.pair = {0, 2}, .off = 48}, past = ending(dir, 129);
    uint8_t buffer[4] = {9, 9, 9, 9};
    EXPECT(is_found(lanolin_index_get(G, b0, 128, b1, 128, 0, 1, dir, w, 6, 0x374, 0, plenty, LANOLIN_BUFFER_MAX),
                    0x37400004, 8, 27));
    EXPECT(!memcmp(plenty, LISTED + 27, 4) && is_zero(plenty + 4, LANOLIN_BUFFER_MAX - 4));
    plenty[0] = 9;
    EXPECT(is_refused(lanolin_index_get(G, b0, 128, b1, 128, 0, 1, dir, w, 6, 0x374, 0, plenty, sizeof plenty), -22));
    EXPECT(is_refused(lanolin_index_get(G, b0, 128, b1, 128, 0, 1, dir, w, 6, 0x100, 9, plenty, sizeof plenty), -22));
    EXPECT(plenty[0] == 9);
    EXPECT(is_refused(lanolin_index_get(G, b0, 128, b1, 128, 0, 1, other, w, 6, 0x374, 0, buffer, 4), -22));
    EXPECT(is_refused(lanolin_index_get(G, b0, 128, b1, 128, 0, 1, past, w, 6, 0x374, 0, buffer, 4), -22));
    EXPECT(is_refused(lanolin_index_get(G, b0, 127, b1, 128, 0, 1, dir, w, 6, 0x374, 0, buffer, 4), -22));
    EXPECT(is_refused(lanolin_index_get(G, b0, 128, b1, 128, 1, 1, dir, w, 6, 0x374, 0, buffer, 4), -22));
    EXPECT(!memcmp(buffer, "\x09\x09\x09\x09", 4));
    /* the end need be no commit's: the log is not read */
    for (uint32_t end = 0; end <= 128; end++)
        EXPECT(is_found(lanolin_index_get(G, b0, 128, b1, 128, 0, 1, ending(dir, end), w, 6, 0x374, 0, buffer, 4),
                        0x37400004, 8, 27));
}

/* What a table says that no build made: tag, offset, how many bytes are asked for, and the answer. It is read as it
 * stands, in the bounds of the block, whose 128 bytes begin with the listing. */
static void test_get_from_any_place(void) {
    static const struct { uint32_t tag, off; size_t size; int32_t result; uint32_t length; } CASES[15] = {
        {0x00100004, 124, 4, LANOLIN_OK, 8},            /* up to the block's end, behind the log's */
        {0x00100004, 125, 4, LANOLIN_ERR_CORRUPT, 0},   /* a byte past it */
        {0x00100004, 125, 3, LANOLIN_OK, 8},            /* which is not read */
        {0x00100004, 128, 0, LANOLIN_OK, 8},
        {0x00100004, 128, 1, LANOLIN_ERR_CORRUPT, 0},
        {0x00100004, 129, 0, LANOLIN_ERR_CORRUPT, 0},   /* an offset past the block */
        {0x00100004, 0xffffffff, 4, LANOLIN_ERR_CORRUPT, 0},
        {0x00100004, 0xfffffffc, 4, LANOLIN_ERR_CORRUPT, 0}, /* whose sum would wrap to 0 */
        {0x001003fe, 0xfffffc02, 4, LANOLIN_ERR_CORRUPT, 0},
        {0x001003fe, 0, 6, LANOLIN_OK, 1026},           /* more data than a block has, of which six are asked for */
        {0x00100000, 128, 4, LANOLIN_OK, 4},            /* no data */
        {0x001003ff, 128, 4, LANOLIN_OK, 4},            /* a removal's size: none either */
        {0x0ab00004, 20, 4, LANOLIN_OK, 8},             /* a type that no name has, and another entry's bytes */
        {0x80100004, 12, 4, LANOLIN_OK, 8},             /* a tag with its top bit */
        {0x00000004, 12, 4, LANOLIN_OK, 8},
    };
    const lanolin_mdir dir = {.pair = {0, 1}, .off = 48};
    for (int i = 0; i < 15; i++) {
        const uint32_t place[3] = {CASES[i].tag, CASES[i].off, 0x37400004};
        uint8_t buffer[7] = {9, 9, 9, 9, 9, 9, 9}, want[7] = {9, 9, 9, 9, 9, 9, 9};
        lanolin_got got =
            lanolin_index_get(G, b0, 128, b1, 128, 0, 1, dir, place, 3, 0x001, 0, buffer, CASES[i].size);
        if (CASES[i].result) EXPECT(is_refused(got, CASES[i].result));
        else {
            const size_t size = CASES[i].length - 4, n = size < CASES[i].size ? size : CASES[i].size;
            EXPECT(is_found(got, CASES[i].tag, CASES[i].length, CASES[i].off));
            memset(want, 0, CASES[i].size);
            memcpy(want, b0 + CASES[i].off, n);
        }
        EXPECT(!memcmp(buffer, want, sizeof want));
    }
}

/* Tables of two places and an odd word: which of them halving meets. Of two it looks at the second first; a tag of 0
 * stands behind all, and a tag of no class is never asked for. */
static void test_get_from_any_table(void) {
    enum { NAME = 0x00100004, DUE = 0x37400004 };
    static const struct { uint32_t first, second; int32_t name, due; } CASES[7] = {
        {NAME, DUE, 0, 0},
        {DUE, NAME, -2, -2}, /* the wrong way round */
        {0, NAME, -2, -2},
        {NAME, 0, 0, -2},
        {0, 0, -2, -2},
        {NAME, NAME, 0, -2},
        {NAME, 0x40100000, 0, -2},
    };
    const lanolin_mdir dir = {.pair = {0, 1}, .off = 48};
    for (int i = 0; i < 7; i++) {
        const uint32_t words[5] = {CASES[i].first, 12, CASES[i].second, 27, DUE};
        lanolin_got name = lanolin_index_get(G, b0, 128, b1, 128, 0, 1, dir, words, 5, 0x001, 0, NULL, 0);
        lanolin_got due = lanolin_index_get(G, b0, 128, b1, 128, 0, 1, dir, words, 5, 0x374, 0, NULL, 0);
        EXPECT(CASES[i].name ? is_refused(name, -2) : is_found(name, NAME, 8, 12));
        EXPECT(CASES[i].due ? is_refused(due, -2) : is_found(due, DUE, 8, 27));
    }
    /* an odd word is not looked at, though it would lead halving past the one place */
    const uint32_t odd[3] = {DUE, 27, NAME};
    EXPECT(is_found(lanolin_index_get(G, b0, 128, b1, 128, 0, 1, dir, odd, 3, 0x374, 0, NULL, 0), DUE, 8, 27));
    EXPECT(is_refused(lanolin_index_get(G, b0, 128, b1, 128, 0, 1, dir, odd, 3, 0x001, 0, NULL, 0), -2));
}

/* A compaction with a table and without: the same answer and images; and the table as a build of the log before leaves
 * it, where the log was compacted or there is no way to write it, and else as it was. */
static void expect_compaction(const images *given, uint32_t rules, uint8_t erased, size_t len, int32_t result) {
    images p = *given, q = *given;
    table t = of_words(len), want = t;
    const lanolin_mdir before = record_of(given);
    lanolin_committed c = lanolin_compact(WIDE, p.b0, 512, p.b1, 512, 0, 1, 0, 7, rules, erased);
    lanolin_committed with =
        lanolin_compact_with(WIDE, q.b0, 512, q.b1, 512, 0, 1, 0, 7, rules, erased, t.words, t.len);
    EXPECT(c.result == result && with.result == result && with.index == c.index && with.seed == c.seed);
    EXPECT(same_dir(with.dir, c.dir) && !memcmp(&p, &q, sizeof p));
    if (result == LANOLIN_OK || result == LANOLIN_ERR_NOSPC || result == LANOLIN_ERR_COINCIDENCE)
        EXPECT(build(given, before, rules, &want).result != LANOLIN_ERR_IRREGULAR);
    EXPECT(same_table(&t, &want));
}

static void test_compact_with(void) {
    static const uint32_t NAMES[4] = {0x00100004, 0x20100004, 0x00200804, 0x37400804};
    static const uint8_t COINCIDES[4] = {0xd2, 0xd9, 0xeb, 0x28}, ITS_SUM[4] = {0x3e, 0x7e, 0xf4, 0x8b};
    uint32_t many[61];
    for (uint32_t i = 0; i < 61; i++) many[i] = lanolin_mktag(LANOLIN_TYPE_REG, i, 4);
    const images listed = listing(), named = logged(NAMES, 4), crowded = logged(many, 61);
    images erased, over = listed, slots = listed;
    memset(&erased, 0xff, sizeof erased);
    memcpy(over.b0 + 27, COINCIDES, 4); /* compact-coincidence of samples/writes/cases */
    memcpy(over.b0 + 35, ITS_SUM, 4);
    lay_one(slots.b0, lanolin_mktag(LANOLIN_TYPE_REG, LANOLIN_SLOTS_MAX, 4), LISTED, 4);
    for (size_t len = 0; len < 130; len += len < 10 || (len > 50 && len < 60) || len > 118 ? 1 : 8) {
        for (uint32_t rules = DOCUMENT; rules <= LITTLEFS; rules++) {
            expect_compaction(&listed, rules, ONES, len, LANOLIN_OK);
            expect_compaction(&yard, rules, ONES, len, LANOLIN_OK);
            expect_compaction(&yard, rules, ZEROS, len, LANOLIN_OK);
            expect_compaction(&over, rules, ONES, len, LANOLIN_ERR_COINCIDENCE);
            expect_compaction(&erased, rules, ONES, len, LANOLIN_ERR_CORRUPT);
            expect_compaction(&slots, rules, ONES, len, LANOLIN_ERR_NOENT);
        }
        expect_compaction(&named, DOCUMENT, ONES, len, LANOLIN_ERR_IRREGULAR);
        expect_compaction(&named, LITTLEFS, ONES, len, LANOLIN_OK);
        expect_compaction(&crowded, LITTLEFS, ONES, len, LANOLIN_ERR_NOSPC);
        expect_compaction(&listed, 2, ONES, len, LANOLIN_ERR_INVAL);
        expect_compaction(&listed, DOCUMENT, 7, len, LANOLIN_ERR_INVAL);
    }
    images p = listed;
    table t = of_words(6);
    EXPECT(lanolin_compact_with(WIDE, p.b0, 512, p.b1, 512, 0, 1, 1, 7, DOCUMENT, ONES, t.words, 6).result ==
               LANOLIN_ERR_CORRUPT && is_untouched(&t, 0)); /* number 1 is too high */
    EXPECT(lanolin_compact_with(WIDE, p.b0, 511, p.b1, 512, 0, 1, 0, 7, DOCUMENT, ONES, t.words, 6).result ==
               LANOLIN_ERR_INVAL && is_untouched(&t, 0));
    EXPECT(!memcmp(&p, &listed, sizeof p));
    lanolin_committed c = lanolin_compact_with(WIDE, p.b0, 512, p.b1, 512, 0, 1, 0, 7, DOCUMENT, ONES, t.words, 6);
    EXPECT(c.result == LANOLIN_OK && c.dir.pair[0] == 1 && holds(&t, LISTED_PLACES, 3));
    EXPECT(lanolin_compact_with(WIDE, p.b0, 512, p.b1, 512, 0, 1, 0, 7, DOCUMENT, ONES, NULL, 0).result == LANOLIN_OK);
}

/* The table's order is a compaction's own: in a log that was just compacted the places rise with their tags. */
static void test_index_behind_compaction(void) {
    images p = yard;
    const lanolin_mdir old = record_of(&p), dir = compact_by(DOCUMENT, &p).dir;
    table t = of_words(56), u = of_words(56);
    EXPECT(dir.pair[0] == 0 && build(&p, dir, DOCUMENT, &t).places == 28);
    for (int i = 0; i < 28; i++) {
        EXPECT(t.words[2 * i] == YARD_PLACES[2 * i] && t.words[2 * i + 1] < dir.off);
        if (i) EXPECT(t.words[2 * i + 1] > t.words[2 * i - 1]);
    }
    expect_lookups(&p, dir, &t);
    /* the record from before is of the other block: its log is still there, but nothing extends it to the new one */
    EXPECT(is_left(extend(&p, old, dir, DOCUMENT, &u), &u, LANOLIN_ERR_INVAL));
    EXPECT(is_table(build(&p, old, DOCUMENT, &u), &u, YARD_PLACES, 28));
}

static void test_index(void) {
    test_index_of_samples();
    test_index_reads_pair_and_end();
    test_index_of_every_end();
    test_index_too_short();
    test_index_of_moved_slots();
    test_index_order();
    test_index_of_the_rest();
    test_index_ids();
    test_index_of_all_attributes();
    test_index_invalid();
    test_extend_is_build();
    for (int i = 0; i < 2; i++) test_extend_behind_commits(&FLASH[i]);
    test_extend_of_any_table();
    test_extend_refused();
    test_index_get();
    test_index_get_invalid();
    test_get_from_any_place();
    test_get_from_any_table();
    test_compact_with();
    test_index_behind_compaction();
}

/* samples/instructions.pair: two blocks of 512 bytes. */
static int read_yard(const char *samples) {
    char path[1024];
    snprintf(path, sizeof path, "%s/instructions.pair", samples);
    FILE *f = fopen(path, "rb");
    if (!f) return 0;
    size_t read = fread(yard.b0, 1, 512, f) + fread(yard.b1, 1, 512, f);
    fclose(f);
    return read == 1024;
}

/* ---- the names of lanolin.h, each by what the archive answers to it; document 01 says what that is */

/* A commit behind the listing, on a copy. */
static int32_t committed(const lanolin_entry *entries, size_t count, const uint8_t *data, size_t size) {
    static uint8_t c0[4096], c1[4096];
    memset(c0, 0xff, sizeof c0);
    memset(c1, 0xff, sizeof c1);
    memcpy(c0, LISTED, sizeof LISTED);
    const lanolin_geometry g = {4096, 16};
    return lanolin_commit(g, c0, 4096, c1, 4096, 0, 1, 0, 0, DOCUMENT, ONES, entries, count, data, size).result;
}

static void test_names_of_refusals(void) {
    static const uint8_t COINCIDES[4] = {0xc2, 0xf2, 0xb6, 0xb8}; /* as in samples/writes/cases */
    const lanolin_entry deadline = {LANOLIN_TYPE_USERATTR + 0x74, 0, 0, 4};
    const lanolin_entry large = {LANOLIN_TYPE_INLINESTRUCT, 0, 0, 69}; /* 68 would end at the block's end */
    const lanolin_entry absent = {LANOLIN_TYPE_DELETE, 1, 0, 0};
    uint8_t c0[128], block[512], erased[512];
    EXPECT(fetch(0, 1, 0, 0).result == LANOLIN_OK && fetch(1, 1, 0, 0).result == LANOLIN_ERR_INVAL);
    EXPECT(fetch(0, 1, 1, 0).result == LANOLIN_ERR_CORRUPT); /* number 1 is too high */
    EXPECT(slice(fetch(0, 1, 0, 0).dir, STILL, LANOLIN_MASK_TYPE, 0, 0, NULL, 0).result == LANOLIN_ERR_NOENT);
    EXPECT(committed(&deadline, 1, LISTED, 4) == LANOLIN_OK && committed(&absent, 1, NULL, 0) == LANOLIN_ERR_BADENTRY);
    EXPECT(committed(&deadline, 1, COINCIDES, 4) == LANOLIN_ERR_COINCIDENCE);
    memcpy(c0, b0, sizeof c0);
    EXPECT(lanolin_commit(G, c0, 128, b1, 128, 0, 1, 0, 0, DOCUMENT, ONES, &large, 1, b1, 69).result ==
           LANOLIN_ERR_NOSPC);
    lanolin_mdir dir = fetch(0, 1, 0, 0).dir;
    EXPECT(lanolin_index(G, b0, 128, b1, 128, 0, 1, dir, DOCUMENT, NULL, 0).result == LANOLIN_ERR_TABLE);
    lay_one(block, lanolin_mktag(LANOLIN_TYPE_REG, 0, 4), LISTED + 12, 4); /* a name without its create */
    memset(erased, 0xff, sizeof erased);
    EXPECT(lanolin_compact((lanolin_geometry){512, 16}, block, 512, erased, 512, 0, 1, 0, 0, DOCUMENT, ONES).result ==
           LANOLIN_ERR_IRREGULAR);
}

/* A commit of nothing, and its twin with a limit, which refuse alike. */
static lanolin_committed bare(const flash *f, uint32_t prog_size, uint8_t *block) {
    const lanolin_geometry g = {128, prog_size};
    const uint8_t erased = f->byte;
    lanolin_committed c = lanolin_commit(g, block, 128, b1, 128, 0, 1, 0, 0, DOCUMENT, erased, NULL, 0, NULL, 0);
    lanolin_stored s = lanolin_commit_stores(g, block, 128, b1, 128, 0, 1, 0, 0, DOCUMENT, erased, NULL, 0, NULL, 0, 5);
    EXPECT(s.result == c.result && s.index == c.index && s.stores == 0);
    return c;
}

/* Why there is no room, each reason alone and then together: the listing's end, 48, is no multiple of 32; behind a
 * check of the other kind the end tag's top bit is the wrong one; of the bytes behind the end the first that isn't
 * erased is named. */
static void test_no_room(const flash *f, const flash *other) {
    uint8_t c0[128];
    lanolin_committed c;
    list_on(f, c0, sizeof c0);
    EXPECT(bare(f, 32, c0).result == LANOLIN_ERR_MISALIGNED && bare(f, 32, c0).index == 0);
    c0[127] = other->byte;
    c0[70] = f->byte ^ 1;
    c = bare(f, 16, c0);
    EXPECT(c.result == LANOLIN_ERR_NOTERASED && c.index == 70 && c.dir.off == 0 && c.seed == 0);
    EXPECT(bare(f, 32, c0).result == LANOLIN_ERR_MISALIGNED && bare(f, 32, c0).index == 0);
    memcpy(c0 + 31, other->check, 8);
    EXPECT(bare(f, 16, c0).result == LANOLIN_ERR_VALIDITY && bare(f, 16, c0).index == 0);
    EXPECT(bare(f, 32, c0).result == LANOLIN_ERR_MISALIGNED);
    c0[127] = c0[70] = f->byte;
    EXPECT(bare(f, 16, c0).result == LANOLIN_ERR_VALIDITY && bare(f, 32, c0).result == LANOLIN_ERR_MISALIGNED);
    int32_t sum = 0;
    for (int32_t number = -300; number <= 0; number++) sum += LANOLIN_NEEDS_COMPACTION(number) ? number : 0;
    EXPECT(sum == -28 - 211 - 212 - 213);
}

/* ---- document 02, L7: the erased byte */

/* A byte that is neither of the two is -22, before fetch's own -84 and -2 and before -202; also where the room is of
 * that byte, and where a number is no rule. */
static void test_no_erased_byte(void) {
    images good = listing(), erased, crowded, named, own;
    memset(&erased, ONES, sizeof erased);
    named = crowded = erased;
    lay_one(named.b0, lanolin_mktag(LANOLIN_TYPE_REG, 0, 4), LISTED + 12, 4);
    lay_one(crowded.b0, lanolin_mktag(LANOLIN_TYPE_REG, LANOLIN_SLOTS_MAX, 4), LISTED + 12, 4);
    for (int byte = 1; byte < 0xff; byte++) {
        const uint8_t none = (uint8_t)byte;
        memset(&own, none, sizeof own);
        memcpy(own.b0, good.b0, 48);
        EXPECT(all_refuse_on(none, DOCUMENT, &good, LANOLIN_ERR_INVAL));
        EXPECT(all_refuse_on(none, LITTLEFS, &own, LANOLIN_ERR_INVAL));
        EXPECT(all_refuse_on(none, 2, &own, LANOLIN_ERR_INVAL));
        EXPECT(all_refuse_on(none, DOCUMENT, &erased, LANOLIN_ERR_INVAL));
        EXPECT(all_refuse_on(none, DOCUMENT, &named, LANOLIN_ERR_INVAL));
        EXPECT(all_refuse_on(none, LITTLEFS, &crowded, LANOLIN_ERR_INVAL));
    }
    EXPECT(all_refuse_on(ZEROS, DOCUMENT, &erased, LANOLIN_ERR_CORRUPT));
    EXPECT(all_refuse_on(ZEROS, DOCUMENT, &named, LANOLIN_ERR_IRREGULAR));
    EXPECT(commit_on(ZEROS, LITTLEFS, &crowded).result == LANOLIN_ERR_NOENT);
    memset(&erased, ZEROS, sizeof erased); /* flash of zeros that nothing was written to */
    EXPECT(all_refuse_on(ZEROS, DOCUMENT, &erased, LANOLIN_ERR_CORRUPT));
}

/* A pair of one board on another: its last commit is of one kind, what stands behind it of one, and one is given. A
 * commit is taken where all three are the same; a compaction always, and then a commit. */
static void test_moved(const flash *was, const flash *room, const flash *now) {
    images p = listing_on(room), before;
    list_on(was, p.b0, 48);
    before = p;
    lanolin_committed c = commit_on(now->byte, DOCUMENT, &p);
    if (was == now && room == now) EXPECT(c.result == LANOLIN_OK && c.dir.off == 80);
    else if (was == now) EXPECT(c.result == LANOLIN_ERR_NOTERASED && c.index == 48);
    else EXPECT(c.result == LANOLIN_ERR_VALIDITY && c.index == 0);
    if (c.result) EXPECT(!memcmp(&p, &before, sizeof p) && is_no_dir(c.dir) && c.seed == 7);
    p = before;
    c = compact_on(now->byte, DOCUMENT, &p);
    EXPECT(c.result == LANOLIN_OK && c.dir.pair[0] == 1 && c.dir.etag == now->end_tag + 17 && c.dir.erased);
    EXPECT(!memcmp(p.b0, before.b0, 512) && is_erased(now, p.b1 + 51, 512 - 51));
    c = commit_on(now->byte, DOCUMENT, &p);
    EXPECT(c.result == LANOLIN_OK && c.dir.off == 96 && c.dir.etag == now->end_tag + 8 && c.dir.erased);
    EXPECT(has_forward(c.dir, 16, now->unit_sum) && is_erased(now, p.b1 + 92, 512 - 92));
    EXPECT(look_in(&p, c.dir, LANOLIN_MASK_TYPE, 0x374, 0).tag == 0x37400004);
}

/* A log of commits of both kinds, by turns: after each the rest of the block is as another board reads it. It is read,
 * refetched and found in as one of one kind, and goes on with the byte of its last commit alone. */
static void test_both_kinds(int first) {
    images p = listing_on(&FLASH[first]);
    lanolin_fetched known = lanolin_fetch(WIDE, p.b0, 512, p.b1, 512, 0, 1, 0, 7);
    const uint8_t *name = LISTED + 12;
    for (int i = 1; i < 8; i++) {
        const flash *last = &FLASH[(first + i + 1) % 2], *now = &FLASH[(first + i) % 2];
        lanolin_mdir dir = lanolin_fetch(WIDE, p.b0, 512, p.b1, 512, 0, 1, 0, 7).dir;
        EXPECT(dir.off == 16u + 32 * (uint32_t)i && dir.etag >> 31 == last->end_tag >> 31);
        EXPECT(commit_on(now->byte, DOCUMENT, &p).result == LANOLIN_ERR_VALIDITY);
        memset(p.b0 + dir.off, now->byte, 512 - dir.off);
        EXPECT(commit_on(last->byte, DOCUMENT, &p).result == LANOLIN_ERR_NOTERASED);
        /* another writer's commit: a check alone, up to the next 32 bytes */
        uint32_t check = (now->end_tag & 0x7fffffff) + 28;
        EXPECT(lanolin_put_be32(p.b0, 512, dir.off, dir.etag ^ check) == 0);
        EXPECT(lanolin_put_le32(p.b0, 512, dir.off + 4, lanolin_crc(0xffffffff, p.b0 + dir.off, 4)) == 0);
        lanolin_fetched f = lanolin_fetch(WIDE, p.b0, 512, p.b1, 512, 0, 1, 0, 7);
        EXPECT(f.result == LANOLIN_OK && f.dir.off == dir.off + 32 && f.dir.etag == now->end_tag + 28);
        lanolin_fetched again = lanolin_refetch(WIDE, p.b0, 512, p.b1, 512, 0, 1, 0, known.seed, known.dir);
        EXPECT(again.result == LANOLIN_OK && same_dir(again.dir, f.dir) && again.seed == f.seed);
        EXPECT(look_in(&p, f.dir, LANOLIN_MASK_TYPE, 0x374, 0).off == 27);
        EXPECT(is_at(lanolin_find(WIDE, p.b0, 512, p.b1, 512, 0, 1, 0, 7, DOCUMENT, name, 4, LANOLIN_TYPE_REG), 0));
        for (int j = 0; j < 2; j++) {
            images copy = p;
            lanolin_committed c = commit_on(FLASH[j].byte, DOCUMENT, &copy);
            if (&FLASH[j] == now) EXPECT(c.result == LANOLIN_OK && c.dir.off == f.dir.off + 32);
            else EXPECT(c.result == LANOLIN_ERR_VALIDITY);
            copy = p;
            c = compact_on(FLASH[j].byte, DOCUMENT, &copy);
            EXPECT(c.result == LANOLIN_OK && c.dir.off == 64 && c.dir.etag == FLASH[j].end_tag + 17);
        }
    }
}

/* The coincidence on zeros: data that samples/make_writes.py solved for, behind one and two of the check tag's bytes.
 * Cut there, what is stored would be read as a whole commit; on ones, and with a bit altered, it is none. */
static void test_coincidence_on_zeros(void) {
    static const uint8_t DATA[2][4] = {{0xdf, 0xa9, 0xf8, 0xfa}, {0x89, 0xdd, 0xad, 0xa9}};
    for (int i = 0; i < 2; i++) {
        uint8_t listed[128], c0[128], c1[128], data[4];
        list_on(&FLASH[1], listed, 128);
        memset(c1, ZEROS, sizeof c1);
        memcpy(c0, listed, 128);
        memcpy(data, DATA[i], 4);
        lanolin_committed c = lanolin_commit(G, c0, 128, c1, 128, 0, 1, 0, 7, DOCUMENT, ZEROS, &DEADLINE, 1, data, 4);
        EXPECT(c.result == LANOLIN_ERR_COINCIDENCE && c.index == 0 && c.seed == 7 && is_no_dir(c.dir));
        EXPECT(!memcmp(c0, listed, 128));
        memcpy(c0 + 48, FLASH[1].more, 21 + i);
        memcpy(c0 + 52, data, 4);
        EXPECT(lanolin_fetch(G, c0, 128, c1, 128, 0, 1, 0, 7).dir.off == 80);
        memcpy(c0, listed, 128);
        data[0] ^= 1;
        EXPECT(!lanolin_commit(G, c0, 128, c1, 128, 0, 1, 0, 7, DOCUMENT, ZEROS, &DEADLINE, 1, data, 4).result);
        list_on(&FLASH[0], c0, 128);
        EXPECT(!lanolin_commit(G, c0, 128, c1, 128, 0, 1, 0, 7, DOCUMENT, ONES, &DEADLINE, 1, DATA[i], 4).result);
    }
}

static void test_erased(void) {
    test_no_erased_byte();
    for (int i = 0; i < 8; i++) test_moved(&FLASH[i & 1], &FLASH[i >> 1 & 1], &FLASH[i >> 2]);
    for (int i = 0; i < 2; i++) test_both_kinds(i);
    test_coincidence_on_zeros();
}

/* Every type that a commit takes; behind the delete of slot 0 the other ids are one less. */
static void test_names_of_types(void) {
    static const uint8_t WORDS[12] = {4, 0, 0, 0, 5, 0, 0, 0, 6, 0, 0, 0};
    static const lanolin_entry ENTRIES[15] = {
        {LANOLIN_TYPE_CREATE, 1, 0, 0},          {LANOLIN_TYPE_REG, 1, 0, 1},
        {LANOLIN_TYPE_INLINESTRUCT, 1, 0, 3},    {LANOLIN_TYPE_USERATTR + 0x74, 1, 0, 4},
        {LANOLIN_TYPE_USERATTR + 0x75, 1, 0, 4}, {LANOLIN_TYPE_USERATTR + 0x75, 1, 0, LANOLIN_REMOVAL},
        {LANOLIN_TYPE_CREATE, 2, 0, 0},          {LANOLIN_TYPE_DIR, 2, 4, 1},
        {LANOLIN_TYPE_DIRSTRUCT, 2, 0, 8},       {LANOLIN_TYPE_CREATE, 3, 0, 0},
        {LANOLIN_TYPE_REG, 3, 8, 1},             {LANOLIN_TYPE_CTZSTRUCT, 3, 0, 8},
        {LANOLIN_TYPE_DELETE, 0, 0, 0},          {LANOLIN_TYPE_MOVESTATE, LANOLIN_NO_SLOT, 0, 12},
        {LANOLIN_TYPE_SOFTTAIL, LANOLIN_NO_SLOT, 4, 8},
    };
    static const lanolin_entry HARD = {LANOLIN_TYPE_HARDTAIL, LANOLIN_NO_SLOT, 0, 8};
    static const uint8_t TYPES[3] = {LANOLIN_TYPE_REG, LANOLIN_TYPE_DIR, LANOLIN_TYPE_REG};
    static const uint32_t STRUCTS[3] = {LANOLIN_TYPE_INLINESTRUCT, LANOLIN_TYPE_DIRSTRUCT, LANOLIN_TYPE_CTZSTRUCT};
    static const uint32_t SIZES[3] = {3, 0, 5};
    const lanolin_geometry g = {512, 16};
    uint8_t c0[512], c1[512], read[4];
    memset(c0, 0xff, sizeof c0);
    memset(c1, 0xff, sizeof c1);
    memcpy(c0, LISTED, sizeof LISTED);
    lanolin_mdir dir = lanolin_commit(g, c0, 512, c1, 512, 0, 1, 0, 0, DOCUMENT, ONES, ENTRIES, 15, WORDS, 12).dir;
    EXPECT(dir.count == 3 && !dir.split && dir.tail[0] == 5 && dir.tail[1] == 6);
    dir = lanolin_commit(g, c0, 512, c1, 512, 0, 1, 0, 0, DOCUMENT, ONES, &HARD, 1, WORDS, 12).dir;
    EXPECT(dir.count == 3 && dir.split && dir.tail[0] == 4 && dir.tail[1] == 5);
    EXPECT(lanolin_tag_type2(dir.etag) == LANOLIN_TYPE_CCRC && lanolin_tag_id(dir.etag) == LANOLIN_NO_SLOT);
    for (uint32_t id = 0; id < 3; id++) {
        lanolin_info info = lanolin_getinfo(g, c0, 512, c1, 512, 0, 1, dir, STILL, LANOLIN_NAME_MAX, id);
        EXPECT(info.result == LANOLIN_OK && info.type == TYPES[id] && info.size == SIZES[id]);
        lanolin_got got = lanolin_getslice(g, c0, 512, c1, 512, 0, 1, dir, STILL, LANOLIN_MASK_CLASS,
                                           lanolin_mktag(LANOLIN_TYPE_STRUCT, id, 0), 0, NULL, 0);
        EXPECT(got.result == LANOLIN_OK && lanolin_tag_type3(got.tag) == STRUCTS[id]);
        got = lanolin_getslice(g, c0, 512, c1, 512, 0, 1, dir, STILL, LANOLIN_MASK_CLASS,
                               lanolin_mktag(LANOLIN_TYPE_NAME, id, 0), 0, read, 1);
        EXPECT(got.result == LANOLIN_OK && lanolin_tag_type3(got.tag) == TYPES[id] && read[0] == WORDS[4 * id]);
    }
    lanolin_got got = lanolin_getslice(g, c0, 512, c1, 512, 0, 1, dir, STILL, LANOLIN_MASK_TYPE,
                                       lanolin_mktag(LANOLIN_TYPE_USERATTR + 0x74, 0, 0), 0, read, 4);
    EXPECT(got.result == LANOLIN_OK && !memcmp(read, WORDS, 4));
    got = lanolin_getslice(g, c0, 512, c1, 512, 0, 1, dir, STILL, LANOLIN_MASK_TYPE,
                           lanolin_mktag(LANOLIN_TYPE_USERATTR + 0x75, 0, 0), 0, read, 4);
    EXPECT(got.result == LANOLIN_ERR_NOENT);
    lanolin_gstate state = STILL;
    EXPECT(lanolin_getgstate(g, c0, 512, c1, 512, 0, 1, dir, STILL, &state) == LANOLIN_OK);
    EXPECT(state.tag == 4 && state.pair[0] == 5 && state.pair[1] == 6);
    EXPECT(lanolin_tag_type1(lanolin_mktag(LANOLIN_TYPE_SUPERBLOCK, 0, 0)) == LANOLIN_TYPE_NAME);
    EXPECT(lanolin_tag_type1(lanolin_mktag(LANOLIN_TYPE_CTZSTRUCT, 0, 0)) == LANOLIN_TYPE_STRUCT);
    EXPECT(lanolin_tag_type1(lanolin_mktag(LANOLIN_TYPE_USERATTR + 0xff, 0, 0)) == LANOLIN_TYPE_USERATTR);
    EXPECT(lanolin_tag_type1(lanolin_mktag(LANOLIN_TYPE_DELETE, 0, 0)) == LANOLIN_TYPE_SPLICE);
    EXPECT(lanolin_tag_type1(lanolin_mktag(LANOLIN_TYPE_HARDTAIL, 0, 0)) == LANOLIN_TYPE_TAIL);
}

/* What is read, and no entry of a commit: a superblock's name is no fault of a log, and a forward check that fits marks
 * the room behind the end as erased. */
static void test_names_of_what_is_read(void) {
    const lanolin_geometry g = {512, 8};
    uint8_t block[512], other[512], forward[8] = {4, 0, 0, 0};
    const lanolin_entry superblock = {LANOLIN_TYPE_SUPERBLOCK, 0, 0, 8};
    const lanolin_entry given = {LANOLIN_TYPE_FCRC, LANOLIN_NO_SLOT, 0, 8};
    EXPECT(committed(&superblock, 1, (const uint8_t *)"littlefs", 8) == LANOLIN_ERR_BADENTRY);
    EXPECT(committed(&given, 1, FLASH[0].more + 12, 8) == LANOLIN_ERR_BADENTRY); /* that of 16 erased bytes too */
    memset(other, 0xff, sizeof other);
    lay_named(block, LANOLIN_TYPE_SUPERBLOCK, (const uint8_t *)"littlefs", 8);
    lanolin_mdir dir = lanolin_fetch(g, block, 512, other, 512, 0, 1, 0, 0).dir;
    lanolin_got got = lanolin_getslice(g, block, 512, other, 512, 0, 1, dir, STILL, LANOLIN_MASK_CLASS,
                                       lanolin_mktag(LANOLIN_TYPE_NAME, 0, 0), 0, NULL, 0);
    EXPECT(got.result == LANOLIN_OK && lanolin_tag_type3(got.tag) == LANOLIN_TYPE_SUPERBLOCK);
    lanolin_info info = lanolin_getinfo(g, block, 512, other, 512, 0, 1, dir, STILL, LANOLIN_NAME_MAX, 0);
    EXPECT(info.result == LANOLIN_ERR_NOENT); /* it looks for names under 0x780, as littlefs's own */
    EXPECT(lanolin_compact(g, block, 512, other, 512, 0, 1, 0, 0, DOCUMENT, ONES).result == LANOLIN_OK);
    memset(other, 0xff, sizeof other);
    EXPECT(lanolin_put_le32(forward, 8, 4, lanolin_crc(0xffffffff, other, 4)) == LANOLIN_OK);
    lay_one(block, lanolin_mktag(LANOLIN_TYPE_FCRC, LANOLIN_NO_SLOT, 8), forward, 8);
    lanolin_fetched f = lanolin_fetch(g, block, 512, other, 512, 0, 1, 0, 0);
    EXPECT(f.result == LANOLIN_OK && f.dir.off == 24 && f.dir.erased);
    EXPECT(f.dir.forward && f.dir.forward_size == 4 && f.dir.forward_sum == 0); /* the sum of four 0xff */
    EXPECT(f.dir.tail[0] == LANOLIN_BLOCK_NULL && f.dir.tail[1] == LANOLIN_BLOCK_NULL);
    info = lanolin_getinfo(g, block, 512, other, 512, 0, 1, f.dir, STILL, LANOLIN_NAME_MAX, LANOLIN_NO_SLOT);
    EXPECT(info.result == LANOLIN_OK && info.type == LANOLIN_TYPE_DIR && !strcmp((char *)info.name, "/"));
}

/* Each limit is taken, and one more is refused. */
static void test_names_of_limits(void) {
    static uint8_t plenty[LANOLIN_BUFFER_MAX + 1];
    static const lanolin_entry MANY[LANOLIN_ENTRIES_MAX + 1]; /* names of length 0: the first is bad */
    const lanolin_geometry g = {512, 16};
    uint8_t block[512], erased[512];
    lanolin_mdir dir = fetch(0, 1, 0, 0).dir;
    EXPECT(slice(dir, STILL, LANOLIN_MASK_CLASS, 0, 0, plenty, LANOLIN_BUFFER_MAX).result == LANOLIN_OK);
    EXPECT(is_refused(slice(dir, STILL, LANOLIN_MASK_CLASS, 0, 0, plenty, LANOLIN_BUFFER_MAX + 1), LANOLIN_ERR_INVAL));
    lanolin_info info = lanolin_getinfo(G, b0, 128, b1, 128, 0, 1, dir, STILL, LANOLIN_NAME_MAX, 0);
    EXPECT(info.result == LANOLIN_OK && info.type == LANOLIN_TYPE_REG);
    info = lanolin_getinfo(G, b0, 128, b1, 128, 0, 1, dir, STILL, LANOLIN_NAME_MAX + 1, 0);
    EXPECT(info.result == LANOLIN_ERR_INVAL);
    EXPECT(committed(MANY, LANOLIN_ENTRIES_MAX, NULL, 0) == LANOLIN_ERR_BADENTRY);
    EXPECT(committed(MANY, LANOLIN_ENTRIES_MAX + 1, NULL, 0) == LANOLIN_ERR_INVAL);
    EXPECT(committed(NULL, 0, plenty, LANOLIN_DATA_MAX) == LANOLIN_OK);
    EXPECT(committed(NULL, 0, plenty, LANOLIN_DATA_MAX + 1) == LANOLIN_ERR_INVAL);
    lanolin_entry file = {LANOLIN_TYPE_INLINESTRUCT, 0, 0, LANOLIN_ATTR_MAX};
    EXPECT(committed(&file, 1, plenty, LANOLIN_DATA_MAX) == LANOLIN_OK);
    file.len++;
    EXPECT(committed(&file, 1, plenty, LANOLIN_DATA_MAX) == LANOLIN_ERR_BADENTRY);
    memset(erased, 0xff, sizeof erased);
    lay_one(block, lanolin_mktag(LANOLIN_TYPE_REG, LANOLIN_SLOTS_MAX - 1, 1), plenty, 1);
    EXPECT(lanolin_fetch(g, block, 512, erased, 512, 0, 1, 0, 0).result == LANOLIN_OK);
    lay_one(block, lanolin_mktag(LANOLIN_TYPE_REG, LANOLIN_SLOTS_MAX, 1), plenty, 1);
    EXPECT(lanolin_fetch(g, block, 512, erased, 512, 0, 1, 0, 0).result == LANOLIN_ERR_NOENT);
}

int main(int argc, char **argv) {
    if (argc != 2 || !read_yard(argv[1]))
        return fprintf(stderr, "usage: lanolin_test SAMPLES   (the directory that has instructions.pair)\n"), 2;
    memset(b0, 0xff, sizeof b0);
    memset(b1, 0xff, sizeof b1);
    memcpy(b0, LISTED, sizeof LISTED);
    test_fetch();
    test_lookups();
    test_places();
    test_lengths();
    test_moved_places();
    test_info_and_state();
    test_long_names();
    test_differences();
    test_tags();
    test_numbers();
    test_pairs_and_states();
    for (int i = 0; i < 2; i++) test_commit(&FLASH[i]);
    for (int i = 0; i < 4; i++) test_compact(&FLASH[i & 1], &FLASH[i >> 1]);
    test_no_rules();
    test_same_under_both();
    test_names_alone();
    test_without_creates();
    test_what_makes_no_slot();
    test_no_room_for_creates();
    test_find();
    test_find_lowest();
    test_find_renamed();
    test_find_lengths();
    test_find_ids();
    test_find_refused();
    test_find_sizes();
    test_forward();
    test_refetch();
    test_index();
    test_names_of_refusals();
    for (int i = 0; i < 2; i++) test_no_room(&FLASH[i], &FLASH[1 - i]);
    test_erased();
    test_names_of_types();
    test_names_of_what_is_read();
    test_names_of_limits();
    printf("C: %d checks, %d failed\n", checks, failures);
    return failures != 0;
}
