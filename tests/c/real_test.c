/* Fetches every pair of samples/real/ or samples/zero/ and looks up each name, struct, size and attribute, all 256
 * attribute types of each slot: they must be what the littlefs that wrote the pairs shows (shown.txt; README.md there
 * has its lines), and stand in the block where the answer says. Each name is found by lanolin_find too. Then commits to
 * a copy of each, and compacts one, under both rules: by littlefs's no pair is irregular, and after each accepted call
 * all that littlefs shows is shown as before. The forward check of the record is the log's last one; that of a commit
 * is the same whether littlefs wrote it or this library. In each of these ways an index by both rules answers every
 * lookup as the backward walk does; it is the same by extension from each earlier commit as by a build; and a
 * compaction with a table of any length is the same as one without. Last each pair is brought to a board of the other
 * erased byte: no commit is taken there before a compaction.
 *
 *     real_test DIRECTORY ERASED      prints each difference and exits 1, or six lines with what was compared
 *
 * DIRECTORY is samples/real with ERASED ff, or samples/zero, of flash that erases to 0x00, with 00. */
#include "lanolin.h"

#include <stdio.h>
#include <stdlib.h>
#include <string.h>

enum { MOST_BLOCK = 512, MOST_DATA = 1024, MOST_SLOTS = 1024 };

typedef struct {
    lanolin_geometry g;
    uint8_t b0[MOST_BLOCK], b1[MOST_BLOCK];
    uint32_t n0, n1;
    lanolin_gstate gdisk;
    lanolin_mdir dir;
} pair_t;

static pair_t at;
static char file[256];
static unsigned pairs, slots, attrs, absent, differences;

/* The ways in which a pair is looked at: first as it is, then written to, a compaction before a commit. */
enum {
    AS_IT_IS, COMMITTED, COMPACTED, COMMITTED_BY_LITTLEFS, COMPACTED_BY_LITTLEFS, BOTH_BY_LITTLEFS, MOVED, BOTH_MOVED,
    WAYS
};
static const struct { const char *what; bool compact, commit; uint32_t rules; bool moved; } WRITES[WAYS] = {
    {"as it is", false, false, 0, false},
    {"committed to by document 01's rules", false, true, LANOLIN_RULES_DOCUMENT, false},
    {"compacted by document 01's rules", true, false, LANOLIN_RULES_DOCUMENT, false},
    {"committed to by littlefs's rules", false, true, LANOLIN_RULES_LITTLEFS, false},
    {"compacted by littlefs's rules", true, false, LANOLIN_RULES_LITTLEFS, false},
    {"compacted and committed to by littlefs's rules", true, true, LANOLIN_RULES_LITTLEFS, false},
    {"committed to on a board of the other byte", false, true, LANOLIN_RULES_LITTLEFS, true},
    {"compacted and committed to on a board of the other byte", true, true, LANOLIN_RULES_LITTLEFS, true},
};
static int way;
static uint8_t own; /* the erased byte of the pairs */
static unsigned accepted[WAYS], wrong_validity;
static bool refused; /* the pair at hand, in this way */
static unsigned found, nowhere, irregular; /* names asked for, and pairs that are not regular by document 01's rules */
/* of the logs that littlefs wrote and of those that were written to: whether the last commit carries a forward check */
static struct { unsigned carried, without; } forward[2];
static uint32_t end_before; /* of the log that was committed to */
/* tables by each rule, entries looked up in them, extensions to them, compactions with a table */
static struct { unsigned tables[2], lookups, extended, compacted; } indexed;

/* What a commit sets: an attribute of slot 0 that no pair has. */
enum { NEW = 0x65 };
static const uint8_t NEW_DATA[4] = {'n', 'e', 'w', '!'};

/* The erased byte that is given in this way. */
static uint8_t erased(void) { return WRITES[way].moved ? own ^ 0xff : own; }

static void differs(const char *what, unsigned long id, const char *line) {
    differences++;
    printf("%s, %s: %s of slot %lu differs: %s\n", file, WRITES[way].what, what, id, line);
}

static size_t bytes_of(const char *hex, uint8_t *out) {
    size_t n = 0;
    if (!strcmp(hex, "-")) return 0;
    for (; hex[2 * n] && hex[2 * n] != '\n' && n < MOST_DATA; n++) {
        char two[3] = {hex[2 * n], hex[2 * n + 1], 0};
        out[n] = (uint8_t)strtoul(two, NULL, 16);
    }
    return n;
}

static lanolin_got look_by(lanolin_gstate gdisk, uint32_t mask, uint32_t key, uint8_t *buffer, size_t size) {
    return lanolin_getslice(at.g, at.b0, at.g.block_size, at.b1, at.g.block_size, at.n0, at.n1, at.dir, gdisk, mask,
                            key, 0, buffer, size);
}

static lanolin_got look(uint32_t mask, uint32_t key, uint8_t *buffer, size_t size) {
    return look_by(at.gdisk, mask, key, buffer, size);
}

/* Whether the entry that was found has this tag and these bytes, in the buffer and at its place in the block. */
static bool has(lanolin_got got, uint32_t tag, const uint8_t *have, const uint8_t *want, size_t n) {
    const uint8_t *block = at.dir.pair[0] == at.n0 ? at.b0 : at.b1;
    return !got.result && got.tag == tag && !memcmp(have, want, n) && got.length == 4 + n &&
           got.off + n <= at.dir.off && !memcmp(block + got.off, want, n);
}

/* The attributes of one slot that were listed; the others must be missing. */
static bool listed[256];
static long slot_now = -1;

static void check_absent(void) {
    uint8_t byte = 0xa5, have[4];
    if (slot_now == 0 && WRITES[way].commit) {
        const uint32_t tag = lanolin_mktag(0x300 + NEW, 0, sizeof NEW_DATA);
        if (!has(look(0x7ffffc00, tag, have, 4), tag, have, NEW_DATA, 4)) differs("the new attribute", 0, "missing");
        listed[NEW] = true;
    }
    for (uint32_t type = 0; slot_now >= 0 && type < 256; type++) {
        if (listed[type]) continue;
        lanolin_got got = look(0x7ffffc00, lanolin_mktag(0x300 + type, (uint32_t)slot_now, 0), &byte, 1);
        if (got.result != -2 || byte != 0xa5) differs("a missing attribute", (unsigned long)slot_now, "found");
        absent++;
    }
    memset(listed, 0, sizeof listed);
    slot_now = -1;
}

static void read_pair(const char *directory, const char *line) {
    char path[1024];
    unsigned size, prog, n0, n1, tag, p0, p1;
    if (sscanf(line, "pair %255s %u %u %u %u %u %u %u", file, &size, &prog, &n0, &n1, &tag, &p0, &p1) != 8 ||
        size > MOST_BLOCK)
        exit(2);
    snprintf(path, sizeof path, "%s/%s", directory, file);
    FILE *f = fopen(path, "rb");
    if (!f || fread(at.b0, 1, size, f) != size || fread(at.b1, 1, size, f) != size) {
        printf("%s can't be read\n", path);
        exit(2);
    }
    fclose(f);
    at.g = (lanolin_geometry){size, prog};
    at.n0 = n0;
    at.n1 = n1;
    at.gdisk = (lanolin_gstate){tag, {p0, p1}};
}

static lanolin_fetched fetch(void) {
    return lanolin_fetch(at.g, at.b0, at.g.block_size, at.b1, at.g.block_size, at.n0, at.n1, 0, 0);
}

/* Field by field: between `forward` and `forward_size` any bytes may stand. */
static bool same_record(lanolin_mdir a, lanolin_mdir b) {
    return a.pair[0] == b.pair[0] && a.pair[1] == b.pair[1] && a.rev == b.rev && a.off == b.off && a.etag == b.etag &&
           a.count == b.count && a.erased == b.erased && a.split == b.split && a.tail[0] == b.tail[0] &&
           a.tail[1] == b.tail[1] && a.forward == b.forward && a.forward_size == b.forward_size &&
           a.forward_sum == b.forward_sum;
}

/* The forward check that the record has is the last of the log, which is looked up by its type alone. Where it is of
 * the last commit, which ends where the check tag begins, it is of an erased unit, and the room is; and it is there
 * exactly if with its 12 bytes a unit follows in the block. */
static void check_forward(void) {
    const uint32_t prog = at.g.prog_size, check = at.dir.off - lanolin_tag_dsize(at.dir.etag);
    uint8_t data[8] = {0}, unit[512];
    lanolin_got got = look_by((lanolin_gstate){0}, 0x7ff00000, LANOLIN_TYPE_FCRC << 20, data, sizeof data);
    if (at.dir.forward != !got.result || at.dir.forward_size != lanolin_le32_at(data, 8, 0).value ||
        at.dir.forward_sum != lanolin_le32_at(data, 8, 4).value)
        differs("the record's forward check", 0, "not the log's last");
    bool carried = !got.result && got.off + 8 == check;
    uint32_t entries = carried ? check - 12 : check; /* where they end */
    if (carried != (lanolin_alignup(entries + 12 + 8, prog).value + prog <= at.g.block_size))
        differs("the forward check", 0, "there without room, or missing");
    memset(unit, erased(), sizeof unit);
    if (carried && (got.tag != 0x5ffffc08 || at.dir.forward_size != prog ||
                    at.dir.forward_sum != lanolin_crc(0xffffffff, unit, prog)))
        differs("the forward check", 0, "not that of an erased unit");
    if (carried && way != AS_IT_IS && !at.dir.erased) differs("the erased mark", 0, "no");
    if (carried) forward[way != AS_IT_IS].carried++;
    else forward[way != AS_IT_IS].without++;
}

static bool same_blocks(const pair_t *before) {
    return !memcmp(before->b0, at.b0, sizeof at.b0) && !memcmp(before->b1, at.b1, sizeof at.b1);
}

/* Whether these pairs may be answered so by littlefs's rules: by which none is irregular. A block may be full. On flash
 * of its own byte a commit is refused else only behind one that was torn, where the room is not marked as erased; on
 * that of the other byte it is always, since the end tag has the wrong validity bit. */
static bool may_answer(int32_t result) {
    if (result == LANOLIN_ERR_NOSPC) return true;
    if (way == MOVED) return result == LANOLIN_ERR_VALIDITY;
    return result == LANOLIN_OK || (result == LANOLIN_ERR_NOTERASED && !fetch().dir.erased);
}

/* Writes to the pair as this way says. A refused call alters nothing. */
static void write_pair(void) {
    const lanolin_entry entry = {0x300 + NEW, 0, 0, sizeof NEW_DATA};
    const uint32_t size = at.g.block_size, rules = WRITES[way].rules;
    const pair_t before = at;
    const size_t entries = fetch().dir.count > 0; /* without a slot a commit of nothing */
    lanolin_committed c = {0};
    if (WRITES[way].compact) c = lanolin_compact(at.g, at.b0, size, at.b1, size, at.n0, at.n1, 0, 0, rules, erased());
    bool half = WRITES[way].compact && c.result == LANOLIN_OK;
    end_before = fetch().dir.off;
    if (WRITES[way].commit && c.result == LANOLIN_OK)
        c = lanolin_commit(at.g, at.b0, size, at.b1, size, at.n0, at.n1, 0, 0, rules, erased(), &entry, entries,
                           NEW_DATA, 4);
    wrong_validity += c.result == LANOLIN_ERR_VALIDITY;
    refused = c.result != LANOLIN_OK;
    accepted[way] += !refused;
    if (refused && !half && !same_blocks(&before)) differs("a block", 0, "altered by a refused call");
    if (rules == LANOLIN_RULES_LITTLEFS && !may_answer(c.result)) differs("the result", 0, "none that it may be");
    lanolin_fetched f = fetch();
    if (!refused && way != AS_IT_IS && (f.result || f.seed != c.seed || !same_record(f.dir, c.dir)))
        differs("the answered record", 0, "not what fetch gives");
}

/* Whether a compaction, which stores nothing, is refused since the log isn't regular. */
static bool is_irregular(uint32_t rules) {
    const uint32_t size = at.g.block_size;
    return lanolin_compact_stores(at.g, at.b0, size, at.b1, size, at.n0, at.n1, 0, 0, rules, erased(), 0).result ==
           LANOLIN_ERR_IRREGULAR;
}

/* ---- the index of a log */

enum { WORDS = MOST_BLOCK / 2 }; /* always enough: an entry takes four bytes of the log or more */

/* A table before it is lent: any words. */
static void any_words(uint32_t *table) { memset(table, 0xa5, WORDS * sizeof *table); }

static bool is_as_it_was(const uint32_t *table, size_t from) {
    for (size_t i = from; i < WORDS; i++)
        if (table[i] != 0xa5a5a5a5) return false;
    return true;
}

static lanolin_indexed build(uint32_t off, uint32_t rules, uint32_t *table, size_t len) {
    const uint32_t size = at.g.block_size;
    const lanolin_mdir dir = {.pair = {at.dir.pair[0], at.dir.pair[1]}, .off = off};
    any_words(table);
    return lanolin_index(at.g, at.b0, size, at.b1, size, at.n0, at.n1, dir, rules, table, len);
}

/* The name, struct or attribute from the table, and by the backward walk where no move is pending: answer and buffer.
 * Answers whether it is there. */
static bool check_lookup(const uint32_t *table, uint32_t mask, uint32_t type, uint32_t id) {
    const uint32_t size = at.g.block_size;
    uint8_t have[16], want[16];
    memset(have, 0xa5, sizeof have);
    memset(want, 0xa5, sizeof want);
    lanolin_got walked = look_by((lanolin_gstate){0}, mask, lanolin_mktag(type, id, 0), want, sizeof want);
    lanolin_got got = lanolin_index_get(at.g, at.b0, size, at.b1, size, at.n0, at.n1, at.dir, table, WORDS, type, id,
                                        have, sizeof have);
    if (got.result != walked.result || got.tag != walked.tag || got.length != walked.length || got.off != walked.off ||
        memcmp(have, want, sizeof have))
        differs("what the index has of a type", id, type < 0x300 ? "the name or the struct" : "an attribute");
    indexed.lookups++;
    return got.result == LANOLIN_OK;
}

/* Every lookup of every slot; what is found has a place, and no other is in use. */
static void check_lookups(const uint32_t *table, uint32_t places) {
    uint32_t there = 0;
    for (uint32_t id = 0; id < at.dir.count; id++) {
        there += check_lookup(table, LANOLIN_MASK_CLASS, LANOLIN_TYPE_NAME, id);
        there += check_lookup(table, LANOLIN_MASK_CLASS, LANOLIN_TYPE_STRUCT, id);
        for (uint32_t u = 0; u < 256; u++)
            there += check_lookup(table, LANOLIN_MASK_TYPE, LANOLIN_TYPE_USERATTR + u, id);
    }
    if (there != places) differs("the number of places", 0, "not that of what is found");
}

/* Tables from no word on, up to one that has places enough: all zero, and then the same places. Answers how many were
 * needed. */
static size_t check_shorter(uint32_t rules, const uint32_t *table, uint32_t places) {
    uint32_t less[WORDS];
    for (size_t len = 0; len <= WORDS; len++) {
        lanolin_indexed short_of = build(at.dir.off, rules, less, len);
        if (short_of.result == LANOLIN_OK) {
            if (len % 2 || len / 2 < places || short_of.places != places || memcmp(less, table, len * sizeof *less) ||
                !is_as_it_was(less, len))
                differs("the shortest table", 0, "not the same places");
            return len;
        }
        bool zero = is_as_it_was(less, len);
        for (size_t i = 0; i < len; i++) zero &= less[i] == 0;
        if (short_of.result != LANOLIN_ERR_TABLE || short_of.places || !zero) differs("a short table", 0, "not zero");
    }
    return WORDS;
}

/* From the end of each earlier commit, that of the log before the last one among them: as a build. */
static void check_extended(uint32_t rules, const uint32_t *table, uint32_t places) {
    const uint32_t size = at.g.block_size;
    uint32_t longer[WORDS];
    bool from_before = false;
    for (uint32_t off = 0; off <= at.dir.off; off++) {
        if (build(off, rules, longer, WORDS).result != LANOLIN_OK) continue;
        lanolin_mdir old = at.dir;
        old.off = off;
        lanolin_indexed extended = lanolin_index_extend(at.g, at.b0, size, at.b1, size, at.n0, at.n1, old, at.dir,
                                                        rules, longer, WORDS);
        if (extended.result || extended.places != places || memcmp(longer, table, sizeof longer))
            differs("an extended table", 0, "not as it is built");
        from_before |= off == end_before;
        indexed.extended++;
    }
    if (!from_before) differs("the end before", 0, "no commit's");
}

/* A compaction with a table and without: the same answer and blocks, and the table as a build of the log leaves it, or
 * as it was. */
static void check_compacted_with(uint32_t rules, size_t len) {
    const uint32_t size = at.g.block_size;
    pair_t with = at, without = at;
    uint32_t used[WORDS], want[WORDS];
    any_words(used);
    any_words(want);
    lanolin_committed a = lanolin_compact_with(at.g, with.b0, size, with.b1, size, at.n0, at.n1, 0, 0, rules, erased(),
                                               used, len);
    lanolin_committed b =
        lanolin_compact(at.g, without.b0, size, without.b1, size, at.n0, at.n1, 0, 0, rules, erased());
    if (b.result != LANOLIN_ERR_IRREGULAR) build(at.dir.off, rules, want, len);
    if (a.result != b.result || a.index != b.index || a.seed != b.seed || !same_record(a.dir, b.dir) ||
        memcmp(with.b0, without.b0, size) || memcmp(with.b1, without.b1, size))
        differs("a compaction with a table", 0, "not as without");
    if (memcmp(used, want, sizeof used)) differs("the table behind a compaction", 0, "not as it must be");
    indexed.compacted++;
}

/* By each rule; where both take the log, the tables are the same. */
static void check_index(void) {
    uint32_t tables[2][WORDS], places = 0;
    for (uint32_t rules = LANOLIN_RULES_DOCUMENT; rules <= LANOLIN_RULES_LITTLEFS; rules++) {
        const pair_t before = at;
        lanolin_indexed built = build(at.dir.off, rules, tables[rules], WORDS);
        size_t enough = 0;
        if (is_irregular(rules)) {
            if (built.result != LANOLIN_ERR_IRREGULAR || built.places || !is_as_it_was(tables[rules], 0))
                differs("the index", 0, "not refused");
        } else {
            if (built.result != LANOLIN_OK) differs("the index", 0, "refused");
            enough = check_shorter(rules, tables[rules], built.places);
            check_extended(rules, tables[rules], built.places);
            indexed.tables[rules]++;
        }
        const size_t lengths[5] = {0, 1, enough ? enough - 1 : 0, enough, WORDS};
        for (int i = 0; i < 5; i++) check_compacted_with(rules, lengths[i]);
        if (!same_blocks(&before)) differs("a block", 0, "altered by an index");
        places = built.places;
    }
    if (!is_irregular(LANOLIN_RULES_DOCUMENT) && memcmp(tables[0], tables[1], sizeof *tables))
        differs("the index", 0, "not the same by both rules");
    check_lookups(tables[LANOLIN_RULES_LITTLEFS], places);
}

/* The lowest id that has the name, asked slot by slot, or -1. No move is pending here: find reads no global state. */
static long lowest(uint32_t kind, const uint8_t *name, size_t n) {
    uint8_t have[MOST_DATA];
    for (uint32_t id = 0; id < at.dir.count; id++) {
        lanolin_got got = look_by((lanolin_gstate){0}, 0x700ffc00, lanolin_mktag(0, id, 0), have, sizeof have);
        if (!got.result && got.tag == lanolin_mktag(kind, id, (uint32_t)n) && !memcmp(have, name, n)) return (long)id;
    }
    return -1;
}

/* Asks for a name by each rule: the lowest id that has it, and by document 01's -202 where the log isn't regular. */
static long find_name(uint32_t kind, const uint8_t *name, size_t n, const char *line) {
    const long id = lowest(kind, name, n);
    const uint32_t size = at.g.block_size;
    const pair_t before = at;
    for (uint32_t rules = LANOLIN_RULES_DOCUMENT; rules <= LANOLIN_RULES_LITTLEFS; rules++) {
        lanolin_named want = {LANOLIN_OK, id >= 0, id >= 0 ? (uint32_t)id : 0};
        if (is_irregular(rules)) want = (lanolin_named){LANOLIN_ERR_IRREGULAR, false, 0};
        lanolin_named named = lanolin_find(at.g, at.b0, size, at.b1, size, at.n0, at.n1, 0, 0, rules, name, n, kind);
        if (named.result != want.result || named.found != want.found || named.id != want.id)
            differs("what find answers to a name", named.id, line);
    }
    if (!same_blocks(&before)) differs("a block", 0, "altered by find");
    if (id >= 0) found++;
    else nowhere++;
    return id;
}

/* What littlefs shows of the record; of a pair that was written to count and tail. */
static void check_record(const char *line) {
    unsigned p0, p1, rev, off, etag, count, erased, split, t0, t1;
    if (sscanf(line, "record %u %u %u %u %u %u %u %u %u %u", &p0, &p1, &rev, &off, &etag, &count, &erased, &split, &t0,
               &t1) != 10)
        exit(2);
    lanolin_fetched f = fetch();
    lanolin_mdir *d = &f.dir;
    at.dir = f.dir;
    check_forward();
    if (is_irregular(LANOLIN_RULES_LITTLEFS)) differs("the log", 0, "irregular by littlefs's rules");
    irregular += is_irregular(LANOLIN_RULES_DOCUMENT);
    check_index();
    if (find_name(LANOLIN_TYPE_REG, (const uint8_t *)"nowhere", 7, line) >= 0)
        differs("a name that is not there", 0, line);
    if (f.result || d->count != count || d->split != split || d->tail[0] != t0 || d->tail[1] != t1)
        differs("the record", 0, line);
    if (way == AS_IT_IS && (d->pair[0] != p0 || d->pair[1] != p1 || d->rev != rev || d->off != off ||
                            d->etag != etag || d->erased != erased))
        differs("the record", 0, line);
}

/* A name that littlefs shows is found, in its slot: behind the entry that a pending move hides, which is still there,
 * one higher. A longer one, a shorter one and one of another type are found where lookups find them. */
static void check_find(uint32_t kind, uint8_t *name, size_t n, uint32_t id, const char *line) {
    const bool moved = lanolin_gstate_hasmovehere(&at.gdisk, at.n0, at.n1) && lanolin_tag_id(at.gdisk.tag) < id;
    if (find_name(kind, name, n, line) != (long)id + moved) differs("the found id", id, line);
    find_name(kind == LANOLIN_TYPE_REG ? LANOLIN_TYPE_DIR : LANOLIN_TYPE_REG, name, n, line);
    if (n > 1) find_name(kind, name, n - 1, line);
    name[n] = '!';
    if (find_name(kind, name, n + 1, line) >= 0) differs("a name that is not there", id, line);
}

static void check_slot(const char *line) {
    unsigned id, kind, structure, size;
    char name[2 * MOST_DATA + 1], data[2 * MOST_DATA + 1];
    uint8_t want[MOST_DATA], have[MOST_DATA];
    if (sscanf(line, "slot %u %u %2048s %u %u %2048s", &id, &kind, name, &structure, &size, data) != 6) exit(2);
    size_t n = bytes_of(name, want);
    lanolin_got got = look(0x700ffc00, lanolin_mktag(0, id, 0), have, sizeof have);
    if (!has(got, lanolin_mktag(kind, id, (uint32_t)n), have, want, n)) differs("the name", id, line);
    check_find(kind, want, n, id, line);
    lanolin_info info =
        lanolin_getinfo(at.g, at.b0, at.g.block_size, at.b1, at.g.block_size, at.n0, at.n1, at.dir, at.gdisk, 255, id);
    /* a superblock's name type is not among those that getinfo's mask 0x780 takes */
    if (kind == 0x0ff
            ? info.result != -2
            : info.result || info.type != kind || info.size != size || memcmp(info.name, want, n) || info.name[n])
        differs("the info", id, line);
    got = look(0x700ffc00, lanolin_mktag(0x200, id, 0), have, sizeof have);
    if (got.result || lanolin_tag_type3(got.tag) != structure) differs("the struct's type", id, line);
    if (structure == 0x201 && got.length != 4 + size) differs("the size", id, line);
    if (structure == 0x202 && lanolin_le32_at(have, 8, 4).value != size) differs("the size", id, line);
    n = bytes_of(data, want);
    if (n && !has(got, lanolin_mktag(structure, id, (uint32_t)n), have, want, n)) differs("the struct", id, line);
    slot_now = id;
    slots++;
}

static void check_attr(const char *line) {
    unsigned id, type;
    char data[2 * MOST_DATA + 1];
    uint8_t want[MOST_DATA], have[MOST_DATA];
    if (sscanf(line, "attr %u %u %2048s", &id, &type, data) != 3 || type > 255) exit(2);
    size_t n = bytes_of(data, want);
    lanolin_got got = look(0x7ffffc00, lanolin_mktag(0x300 + type, id, 0), have, sizeof have);
    if (!has(got, lanolin_mktag(0x300 + type, id, (uint32_t)n), have, want, n)) differs("an attribute", id, line);
    listed[type] = true;
    attrs++;
}

static void check_hidden(const char *line) {
    unsigned id;
    uint8_t byte, name[MOST_DATA];
    if (sscanf(line, "hidden %u", &id) != 1) exit(2);
    if (look(0x700ffc00, lanolin_mktag(0, id, 0), &byte, 1).result != -2) differs("the moved entry", id, line);
    lanolin_got got = look_by((lanolin_gstate){0}, 0x700ffc00, lanolin_mktag(0, id, 0), name, sizeof name);
    if (got.result || find_name(lanolin_tag_type3(got.tag), name, got.length - 4, line) != (long)id)
        differs("the moved entry's name", id, line); /* find reads no global state */
}

/* Every line of shown.txt, in one way. */
static void check_all(const char *directory, const char *path) {
    char line[8192];
    FILE *f = fopen(path, "r");
    if (!f) fprintf(stderr, "%s can't be read\n", path), exit(2);
    pairs = slots = attrs = absent = found = nowhere = irregular = 0;
    while (fgets(line, sizeof line, f)) {
        if (strncmp(line, "attr ", 5)) check_absent();
        if (!strncmp(line, "pair ", 5)) {
            read_pair(directory, line);
            write_pair();
            pairs++;
        } else if (refused) continue;
        else if (!strncmp(line, "record ", 7)) check_record(line);
        else if (!strncmp(line, "slot ", 5)) check_slot(line);
        else if (!strncmp(line, "attr ", 5)) check_attr(line);
        else if (!strncmp(line, "hidden ", 7)) check_hidden(line);
        else fprintf(stderr, "%s: not a line: %s", path, line), exit(2);
    }
    check_absent();
    fclose(f);
}

/* These ways, one after the other. */
static void check_ways(int first, int behind, const char *directory, const char *path) {
    for (way = first; way < behind; way++) check_all(directory, path);
}

int main(int argc, char **argv) {
    char path[1024];
    if (argc != 3 || (strcmp(argv[2], "ff") && strcmp(argv[2], "00")))
        return fprintf(stderr, "usage: real_test DIRECTORY ERASED   (samples/real ff, samples/zero 00)\n"), 2;
    own = strcmp(argv[2], "00") ? LANOLIN_ERASED_ONES : LANOLIN_ERASED_ZEROS;
    snprintf(path, sizeof path, "%s/shown.txt", argv[1]);
    const char *slash = strrchr(argv[1], '/'), *name = slash ? slash + 1 : argv[1];
    check_ways(AS_IT_IS, COMMITTED, argv[1], path);
    printf("%s pairs: %u pairs, %u slots, %u attributes, %u missing attributes, %u differences\n", name, pairs, slots,
           attrs, absent, differences);
    printf("%s pairs, by name: by littlefs's rules %u names found and %u not; %u pairs refused by document 01's; "
           "%u differences\n",
           name, found, nowhere, irregular, differences);
    check_ways(COMMITTED, MOVED, argv[1], path);
    printf("%s pairs, written to: by document 01's rules %u committed to and %u compacted, by littlefs's %u and %u, "
           "and %u both; %u differences\n",
           name, accepted[COMMITTED], accepted[COMPACTED], accepted[COMMITTED_BY_LITTLEFS],
           accepted[COMPACTED_BY_LITTLEFS], accepted[BOTH_BY_LITTLEFS], differences);
    printf("%s pairs, forward checks: as they are the last commit of %u carries one, and of %u not; of those written "
           "to %u and %u; %u differences\n",
           name, forward[0].carried, forward[0].without, forward[1].carried, forward[1].without, differences);
    check_ways(MOVED, WAYS, argv[1], path);
    printf("%s pairs, moved to a board of the other erased byte: %u not committed to for the end tag's validity bit, "
           "%u compacted and committed to; %u differences\n",
           name, wrong_validity, accepted[BOTH_MOVED], differences);
    printf("%s pairs, indexed in each of these ways: %u tables by document 01's rules and %u by littlefs's, %u lookups "
           "in them, %u extensions, %u compactions with a table; %u differences\n",
           name, indexed.tables[0], indexed.tables[1], indexed.lookups, indexed.extended, indexed.compacted,
           differences);
    return differences != 0 || pairs == 0;
}
