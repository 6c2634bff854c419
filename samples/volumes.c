/* Has a real littlefs write volumes on a RAM device whose blocks erase to 0x00 or to 0xff, and says what that littlefs
 * shows of a volume. It is compiled with littlefs's sources, which are not in this repository:
 *
 *     cc -std=c99 -D_POSIX_C_SOURCE=1 -DLFS_NO_DEBUG -DLFS_NO_WARN -DLFS_NO_ERROR -I LITTLEFS samples/volumes.c \
 *        LITTLEFS/lfs_util.c -o volumes
 *
 *     volumes write ERASED DIRECTORY             every volume of KINDS, DIRECTORY/NAME.img, and what littlefs shows of
 *                                                it, DIRECTORY/NAME.txt; ERASED is 00 or ff
 *     volumes show IMAGE BLOCK_SIZE PROG_SIZE    prints what littlefs shows of a volume
 *
 * A program operation on bytes that are not erased ends it: then the device would be no flash. real/README.md says what
 * the lines of the text are. Run by hand; samples/make_zero.py takes pairs out of what it writes. */
#include <setjmp.h>
#include <stdio.h>
#include <stdlib.h>

#include "lfs.c"

enum { MOST = 1 << 20 }; /* bytes of a volume */
static uint8_t flash[MOST], erased;
static jmp_buf power_cut;
static int programs_left = -1; /* the program operation that is cut: 0 is the next one, -1 none */
static lfs_size_t kept;        /* so many of its bytes are stored */
static lfs_t lfs;
static struct lfs_config config;

static void fail(const char *what, int code) {
    fprintf(stderr, "volumes: %s (%d)\n", what, code);
    exit(1);
}

/* For what must succeed. */
static void must(int code, const char *what) {
    if (code < 0) fail(what, code);
}

/* ---- the device */
static uint8_t *place(lfs_block_t block, lfs_off_t off) { return flash + block * config.block_size + off; }

static int device_read(const struct lfs_config *c, lfs_block_t block, lfs_off_t off, void *buffer, lfs_size_t size) {
    (void)c;
    memcpy(buffer, place(block, off), size);
    return 0;
}

static int device_prog(const struct lfs_config *c, lfs_block_t block, lfs_off_t off, const void *data,
                       lfs_size_t size) {
    (void)c;
    for (lfs_size_t i = 0; i < size; i++)
        if (place(block, off)[i] != erased) fail("a program operation on bytes that are not erased", (int)block);
    if (programs_left == 0) {
        memcpy(place(block, off), data, kept < size ? kept : size);
        longjmp(power_cut, 1);
    }
    if (programs_left > 0) programs_left--;
    memcpy(place(block, off), data, size);
    return 0;
}

static int device_erase(const struct lfs_config *c, lfs_block_t block) {
    memset(place(block, 0), erased, c->block_size);
    return 0;
}

static int device_sync(const struct lfs_config *c) {
    (void)c;
    return 0;
}

static void device(lfs_size_t block_size, lfs_size_t block_count, lfs_size_t prog_size) {
    if (block_size * block_count > MOST) fail("a volume too large", 0);
    config = (struct lfs_config){
        .read = device_read, .prog = device_prog, .erase = device_erase, .sync = device_sync, .read_size = prog_size,
        .prog_size = prog_size, .block_size = block_size, .block_count = block_count, .block_cycles = 500,
        .cache_size = 64, .lookahead_size = 16};
}

/* ---- what littlefs shows, in the lines of real/README.md */
static void put_bytes(FILE *out, const uint8_t *bytes, lfs_size_t size) {
    for (lfs_size_t i = 0; i < size; i++) fprintf(out, "%02x", bytes[i]);
    if (!size) fprintf(out, "-");
}

/* An entry of a slot, of its own length, or a negative answer. */
static lfs_stag_t entry(const lfs_mdir_t *dir, uint32_t mask, uint16_t type, uint16_t id, uint8_t *data) {
    return lfs_dir_get(&lfs, dir, LFS_MKTAG(mask, 0x3ff, 0), LFS_MKTAG(type, id, 1023), data);
}

static void show_slot(FILE *out, const lfs_mdir_t *dir, uint16_t id) {
    uint8_t name[1024], data[1024];
    lfs_stag_t named = entry(dir, 0x700, 0x000, id, name), held = entry(dir, 0x700, 0x200, id, data);
    if (lfs_gstate_hasmovehere(&lfs.gdisk, dir->pair) && lfs_tag_id(lfs.gdisk.tag) == id) {
        fprintf(out, "hidden %u\n", id);
        return;
    }
    if (named == LFS_ERR_NOENT) return;
    must(named, "a name");
    must(held, "a struct");
    struct lfs_info info = {.size = 0};
    uint16_t type = lfs_tag_type3(named), structure = lfs_tag_type3(held);
    if (type == LFS_TYPE_SUPERBLOCK) info.size = lfs_tag_size(held);
    else must(lfs_dir_getinfo(&lfs, (lfs_mdir_t *)dir, id, &info), "an info");
    fprintf(out, "slot %u %u ", id, type);
    put_bytes(out, name, lfs_tag_size(named));
    fprintf(out, " %u %u ", structure, (unsigned)info.size);
    put_bytes(out, data, type == LFS_TYPE_SUPERBLOCK || type == LFS_TYPE_DIR ? lfs_tag_size(held) : 0);
    fprintf(out, "\n");
    for (unsigned attr = 0; attr < 256; attr++) {
        lfs_stag_t tag = entry(dir, 0x7ff, LFS_TYPE_USERATTR + attr, id, data);
        if (tag == LFS_ERR_NOENT) continue;
        must(tag, "an attribute");
        fprintf(out, "attr %u %u ", id, attr);
        put_bytes(out, data, lfs_tag_size(tag));
        fprintf(out, "\n");
    }
}

/* Every pair, along the tails. */
static void show(FILE *out, const char *name) {
    must(lfs_mount(&lfs, &config), "mount");
    lfs_mdir_t dir = {.tail = {0, 1}};
    while (!lfs_pair_isnull(dir.tail)) {
        lfs_block_t at[2] = {dir.tail[0], dir.tail[1]};
        must(lfs_dir_fetch(&lfs, &dir, at), "fetch");
        fprintf(out, "pair %s-%u-%u.pair %u %u %u %u %u %u %u\n", name, at[0], at[1], config.block_size,
                config.prog_size, at[0], at[1], lfs.gdisk.tag, lfs.gdisk.pair[0], lfs.gdisk.pair[1]);
        fprintf(out, "record %u %u %u %u %u %u %u %u %u %u\n", dir.pair[0], dir.pair[1], dir.rev, dir.off, dir.etag,
                dir.count, dir.erased, dir.split, dir.tail[0], dir.tail[1]);
        for (uint16_t id = 0; id < dir.count; id++) show_slot(out, &dir, id);
    }
    must(lfs_unmount(&lfs), "unmount");
}

/* ---- what is done on a volume */
static void write_file(const char *path, const void *data, lfs_size_t size) {
    lfs_file_t file;
    must(lfs_file_open(&lfs, &file, path, LFS_O_WRONLY | LFS_O_CREAT | LFS_O_TRUNC), path);
    must(lfs_file_write(&lfs, &file, data, size), path);
    must(lfs_file_close(&lfs, &file), path);
}

static void set(const char *path, uint8_t type, const void *data, lfs_size_t size) {
    must(lfs_setattr(&lfs, path, type, data, size), path);
}

static void deadline(const char *path, uint32_t seconds) {
    uint8_t data[4] = {seconds & 0xff, seconds >> 8 & 0xff, seconds >> 16 & 0xff, seconds >> 24};
    set(path, 0x74, data, 4);
}

static void empty(void) {}

/* many attribute types, empty ones, removed ones, on a directory, on the root */
static void attrs(void) {
    static const uint8_t TYPES[] = {0x00, 0x01, 0x02, 0x73, 0x74, 0x7f, 0x80, 0xfe, 0xff};
    write_file("empty", "", 0);
    write_file("hello.txt", "Hello, crane!", 13);
    write_file("q212", "go!", 3);
    must(lfs_mkdir(&lfs, "sub"), "sub");
    write_file("sub/x", "abc", 3);
    write_file("sub/y", "lower the hook", 14);
    for (unsigned i = 0; i < sizeof TYPES; i++) {
        uint8_t data[4];
        memset(data, TYPES[i], sizeof data);
        set("hello.txt", TYPES[i], data, i % 5);
    }
    set("hello.txt", 0x10, "gone", 4);
    must(lfs_removeattr(&lfs, "hello.txt", 0x10), "an attribute");
    deadline("q212", 90000);
    set("sub", 0x74, "on a directory", 14);
    set("sub/x", 0x74, "", 0);
    set("/", 0x74, "on the root", 11);
    set("q212", 0x74, "12345678", 8);
    set("empty", 0x01, "1", 1);
}

/* 500 random writes, renames, removals and attributes, in four directories, and some removals more */
static void churn(void) {
    uint32_t random = 212;
    char path[32], other[32], data[80];
    for (int i = 0; i < 4; i++) sprintf(path, "d%d", i), must(lfs_mkdir(&lfs, path), path);
    for (int step = 0; step < 500; step++) {
        uint32_t word = random = random * 1664525 + 1013904223;
        struct lfs_info info;
        sprintf(path, "d%u/f%u", word >> 28 & 3, word >> 24 & 7);
        sprintf(other, "d%u/f%u", word >> 20 & 3, word >> 16 & 7);
        memset(data, (int)(word >> 8 & 0xff), sizeof data);
        bool there = !lfs_stat(&lfs, path, &info);
        switch (word >> 13 & 7) {
        case 0: case 1: case 2: write_file(path, data, (word >> 4 & 0x1f) * (word & 1 ? 2 : 1)); break;
        case 3: if (there && strcmp(path, other)) must(lfs_rename(&lfs, path, other), "rename"); break;
        case 4: if (there) must(lfs_remove(&lfs, path), "remove"); break;
        case 5: if (there) must(lfs_removeattr(&lfs, path, 0x75), "an attribute"); break;
        default: if (there) deadline(path, word), set(path, 0x75, data, word >> 4 & 7); break;
        }
    }
    for (unsigned i = 0; i < 32; i += 5) { /* so that deletes stand behind what a compaction wrote */
        struct lfs_info info;
        sprintf(path, "d%u/f%u", i & 3, i >> 2);
        if (!lfs_stat(&lfs, path, &info)) must(lfs_remove(&lfs, path), path);
    }
}

/* sizes around the inline limit and the block boundaries */
static void ctz(void) {
    static const lfs_size_t SIZES[] = {63, 64, 65, 511, 512, 513, 1019, 1020, 1021, 1022, 1023, 2048, 2577};
    static uint8_t data[2577];
    char path[32];
    for (unsigned i = 0; i < sizeof data; i++) data[i] = (uint8_t)(i * 7);
    for (unsigned i = 0; i < sizeof SIZES / sizeof *SIZES; i++) {
        sprintf(path, "s%02u_%u", i, (unsigned)SIZES[i]);
        write_file(path, data, SIZES[i]);
        deadline(path, SIZES[i]);
    }
}

/* two directories with a few files, and q212 */
static void yard(void) {
    char path[32];
    for (int i = 0; i < 5; i++) {
        if (i == 0) must(lfs_mkdir(&lfs, "a"), "a"), must(lfs_mkdir(&lfs, "b"), "b");
        sprintf(path, "a/f%d", i);
        write_file(path, "payload.", 8);
        deadline(path, 0x01010101u * (unsigned)i);
    }
    write_file("b/old", "payload.", 8);
    deadline("b/old", 90000);
    must(lfs_mkdir(&lfs, "b/empty"), "b/empty");
    write_file("q212", "go!", 3);
    deadline("q212", 90000);
}

/* the power is cut in the first program operation of a commit to the root */
static void cut(void) {
    yard();
    programs_left = 0, kept = 1;
    if (!setjmp(power_cut)) deadline("q212", 4242), fail("no cut", 0);
    programs_left = -1;
}

/* a rename between directories, cut at the first program operation that leaves the move pending */
static void move(void) {
    static uint8_t before[MOST];
    yard();
    memcpy(before, flash, sizeof flash);
    for (int at = 0;; at++) {
        memcpy(flash, before, sizeof flash);
        must(lfs_mount(&lfs, &config), "mount");
        programs_left = at, kept = 255;
        if (!setjmp(power_cut)) must(lfs_rename(&lfs, "a/f2", "b/g"), "rename"), fail("no move is pending", at);
        programs_left = -1;
        must(lfs_mount(&lfs, &config), "mount");
        if (lfs_gstate_hasmove(&lfs.gdisk)) return;
    }
}

/* directories 24 deep */
static void deep(void) {
    char path[200] = "", file[220];
    for (int i = 0; i < 24; i++) {
        sprintf(path + strlen(path), "%sd%d", i ? "/" : "", i);
        must(lfs_mkdir(&lfs, path), path);
        sprintf(file, "%s/f", path);
        write_file(file, "payload.", (lfs_size_t)(i % 9));
        deadline(file, (uint32_t)i);
    }
}

/* 200 files in one directory, over hard tails */
static void split(void) {
    char path[32];
    must(lfs_mkdir(&lfs, "big"), "big");
    for (int i = 0; i < 200; i++) {
        sprintf(path, "big/q%03d", i * 37 % 200);
        write_file(path, path, (lfs_size_t)(i % 7));
        if (i % 3) deadline(path, (uint32_t)i);
    }
}

static const struct { const char *name; lfs_size_t block_size, block_count; void (*work)(void); } KINDS[] = {
    {"attrs-512", 512, 64, attrs}, {"churn-256", 256, 200, churn}, {"ctz-512", 512, 260, ctz},
    {"cut-512-setattr-torn-0", 512, 64, cut}, {"deep-256", 256, 88, deep}, {"empty-128", 128, 16, empty},
    {"move-256-pending", 256, 96, move}, {"split-512", 512, 128, split},
};

/* The file DIRECTORY/NAME + ending. */
static FILE *create(const char *directory, const char *name, const char *ending) {
    char path[1024];
    snprintf(path, sizeof path, "%s/%s%s", directory, name, ending);
    FILE *f = fopen(path, "wb");
    if (!f) fail(path, 0);
    return f;
}

static void write_all(const char *directory) {
    for (unsigned i = 0; i < sizeof KINDS / sizeof *KINDS; i++) {
        device(KINDS[i].block_size, KINDS[i].block_count, 16);
        memset(flash, erased, sizeof flash);
        must(lfs_format(&lfs, &config), "format");
        must(lfs_mount(&lfs, &config), "mount");
        KINDS[i].work();
        FILE *image = create(directory, KINDS[i].name, ".img"), *text = create(directory, KINDS[i].name, ".txt");
        fwrite(flash, config.block_size, config.block_count, image);
        show(text, KINDS[i].name);
        if (fclose(image) | fclose(text)) fail("a file can't be written", 0);
    }
}

static void show_one(const char *path, const char *block_size, const char *prog_size) {
    FILE *f = fopen(path, "rb");
    if (!f) fail(path, 0);
    lfs_size_t size = (lfs_size_t)strtoul(block_size, NULL, 10), all = (lfs_size_t)fread(flash, 1, MOST, f);
    fclose(f);
    device(size, all / size, (lfs_size_t)strtoul(prog_size, NULL, 10));
    const char *slash = strrchr(path, '/'), *file = slash ? slash + 1 : path;
    char name[256];
    snprintf(name, sizeof name, "%.*s", (int)strcspn(file, "."), file);
    show(stdout, name);
}

int main(int argc, char **argv) {
    if (argc == 4 && !strcmp(argv[1], "write") && (!strcmp(argv[2], "00") || !strcmp(argv[2], "ff"))) {
        erased = strcmp(argv[2], "00") ? 0xff : 0x00;
        write_all(argv[3]);
    } else if (argc == 5 && !strcmp(argv[1], "show")) show_one(argv[2], argv[3], argv[4]);
    else return fprintf(stderr, "usage: volumes write 00|ff DIRECTORY | show IMAGE BLOCK_SIZE PROG_SIZE\n"), 2;
    return 0;
}
