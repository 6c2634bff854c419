/* Makes the commits and compactions of samples/writes/cases and prints what each answers and leaves, one line a case,
 * as samples/writes/expected has it (samples/make_writes.py says how a case is written).
 *
 *     write_test FILE [WORDS]     with WORDS each whole compaction is made with a table of so many words: the same */
#include "lanolin.h"

#include <stdio.h>
#include <stdlib.h>
#include <string.h>

enum { MOST_BYTES = 65537, MOST_ENTRIES = 8193, MOST_LINE = 200000, MOST_WORDS = 16384 };
static uint8_t b0[MOST_BYTES], b1[MOST_BYTES], data[MOST_BYTES];
static lanolin_entry entries[MOST_ENTRIES];
static uint32_t table[MOST_WORDS];
static size_t words = MOST_WORDS + 1; /* more than there are: no table is lent */

static void broken(const char *what) {
    fprintf(stderr, "write_test: not a case: %s\n", what);
    exit(2);
}

/* Runs of hex, aa*9 for aa nine times, joined by commas. */
static size_t bytes_of(char *text, uint8_t *out) {
    size_t n = 0;
    if (!strcmp(text, "-")) return 0;
    for (char *part = strtok(text, ","); part; part = strtok(NULL, ",")) {
        char *times = strchr(part, '*');
        unsigned value;
        if (times && sscanf(part, "%2x", &value) == 1) {
            size_t count = strtoul(times + 1, NULL, 10);
            if (count > MOST_BYTES - n) broken("too many bytes");
            memset(out + n, (int)value, count);
            n += count;
            continue;
        }
        for (; *part; part += 2) {
            if (n == MOST_BYTES || sscanf(part, "%2x", &value) != 1 || !part[1]) broken("bytes");
            out[n++] = (uint8_t)value;
        }
    }
    return n;
}

static size_t entries_of(char *text) {
    size_t n = 0;
    if (!strcmp(text, "-")) return 0;
    for (char *part = strtok(text, ","); part; part = strtok(NULL, ",")) {
        unsigned type, id, off, len, times;
        if (sscanf(part, "%x:%u:%u:%u*%u", &type, &id, &off, &len, &times) != 5 || times > MOST_ENTRIES - n)
            broken("entries");
        while (times--) entries[n++] = (lanolin_entry){(uint16_t)type, (uint16_t)id, off, len};
    }
    return n;
}

/* FNV-1a of an image. Not a CRC-32: each commit ends with that sum of itself, so it would not tell what whole commits
 * hold, only where they end. */
static uint32_t sum(const uint8_t *image, size_t n) {
    uint32_t h = 0x811c9dc5;
    while (n--) h = (h ^ *image++) * 0x01000193;
    return h;
}

static void print_record(lanolin_mdir dir) {
    printf("end %u tag %08x count %u rev %u erased %s forward ", dir.off, dir.etag, dir.count, dir.rev,
           dir.erased ? "yes" : "no");
    if (dir.forward) printf("%u %08x", dir.forward_size, dir.forward_sum);
    else printf(dir.forward_size || dir.forward_sum ? "none, and not 0" : "none");
}

static lanolin_committed compact(lanolin_geometry g, size_t l0, size_t l1, uint32_t n0, uint32_t n1, uint32_t count,
                                 uint32_t seed, uint32_t rules, uint8_t erased) {
    if (words > MOST_WORDS) return lanolin_compact(g, b0, l0, b1, l1, n0, n1, count, seed, rules, erased);
    return lanolin_compact_with(g, b0, l0, b1, l1, n0, n1, count, seed, rules, erased, table, words);
}

static void run(char *line) {
    enum { FIELDS = 15 };
    char *field[FIELDS];
    for (int i = 0; i < FIELDS; i++) {
        field[i] = line;
        line = strchr(line, i < FIELDS - 1 ? ' ' : '\n');
        if (!line) broken("too few fields");
        *line++ = 0;
    }
    lanolin_geometry g = {(uint32_t)atol(field[2]), (uint32_t)atol(field[3])};
    uint32_t n0 = (uint32_t)atol(field[4]), n1 = (uint32_t)atol(field[5]), count = (uint32_t)atol(field[6]),
             seed = (uint32_t)atol(field[7]), rules = (uint32_t)atol(field[8]);
    uint8_t erased = (uint8_t)strtoul(field[9], NULL, 16);
    size_t l0 = bytes_of(field[11], b0), l1 = bytes_of(field[12], b1), e = entries_of(field[13]),
           d = bytes_of(field[14], data);
    int commit = !strcmp(field[1], "commit"), limited = strcmp(field[10], "-");
    printf("%s: ", field[0]);
    if (limited) {
        uint32_t limit = (uint32_t)atol(field[10]);
        lanolin_stored s = commit
                               ? lanolin_commit_stores(g, b0, l0, b1, l1, n0, n1, count, seed, rules, erased, entries,
                                                       e, data, d, limit)
                               : lanolin_compact_stores(g, b0, l0, b1, l1, n0, n1, count, seed, rules, erased, limit);
        if (s.result == 0) printf("made %u", s.stores);
        else printf("refused %d index %u", s.result, s.index);
    } else {
        lanolin_committed c =
            commit ? lanolin_commit(g, b0, l0, b1, l1, n0, n1, count, seed, rules, erased, entries, e, data, d)
                   : compact(g, l0, l1, n0, n1, count, seed, rules, erased);
        if (c.result == 0) print_record(c.dir);
        else printf("refused %d index %u", c.result, c.index);
    }
    printf(" images %08x %08x\n", sum(b0, l0), sum(b1, l1));
}

int main(int argc, char **argv) {
    static char line[MOST_LINE];
    FILE *file = argc == 2 || argc == 3 ? fopen(argv[1], "r") : NULL;
    if (argc == 3) words = strtoul(argv[2], NULL, 10);
    if (!file || (argc == 3 && words > MOST_WORDS)) {
        fprintf(stderr, "usage: write_test FILE [WORDS]\nFILE has the cases, as samples/writes/cases\n");
        return 2;
    }
    while (fgets(line, sizeof line, file)) run(line);
    fclose(file);
    return 0;
}
