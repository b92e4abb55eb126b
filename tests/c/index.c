/* docs/RULES.md, area I and X21 to X23: the index beside the options. The cases of I15; 100,000 lists by chance, cut into appends, each call beside plain C
   and what is left beside a build afresh; lists of options of 2,040 bytes. Both buffers stand between pages that cannot be touched. */
#include "check.h"
#include "plain.h"
#include <string.h>

enum { LENT = 132, MOST_BYTES = 72 * 24 };

/* ---- the entries of a list as far as it walks */
struct walked {
    uint32_t numbers[2 * MOST_BYTES];
    size_t count;
};

static void walk_list(struct walked *w, const uint8_t *options, size_t length, size_t offset, uint32_t edition) {
    struct brothladder_stepped s;
    w->count = 0;
    for (size_t at = 0; (s = plain_step(options, length, offset, at, edition)).answer == BROTHLADDER_OPTION; at = s.next) {
        w->numbers[2 * w->count] = s.type;
        w->numbers[2 * w->count++ + 1] = (uint32_t)s.place;
    }
}

static struct brothladder_indexed answer(uint32_t refusal, uint64_t value, size_t length, size_t entries) {
    struct brothladder_indexed x;
    memset(&x, 0, sizeof x);
    x.answer = refusal == 0 ? BROTHLADDER_INDEXED : BROTHLADDER_REFUSED;
    x.refusal = refusal;
    x.value[0] = value;
    x.length = length;
    x.entries = entries;
    return x;
}

static void find(const uint32_t *index, size_t lent, size_t entries, uint8_t type, size_t after) {
    struct brothladder_found f = brothladder_index_first(index, lent, entries, type), wanted = plain_index_first(index, lent, entries, type);
    same_answer("first", &f, &wanted, sizeof f);
    f = brothladder_index_next(index, lent, entries, type, after);
    wanted = plain_index_next(index, lent, entries, type, after);
    same_answer("next", &f, &wanted, sizeof f);
}

/* ---- a list and its index as a caller has them: the bytes and numbers that are wanted, and copies of them that are lent */
static struct {
    uint8_t list[MOST_BYTES];
    uint32_t index[LENT];
    size_t used, entries;
} have;

static unsigned long outcomes[24];

static enum side some_side(void) { return below(2) ? LOW : HIGH; }

/* One append, with `room` bytes and `lent` numbers; whether it was accepted. What is wanted of both buffers is what plain C leaves. */
static int append(size_t room, size_t used, size_t lent, size_t entries, const uint8_t *more, size_t length, uint32_t edition) {
    uint8_t *list = lend(PACKET, some_side(), have.list, room);
    uint32_t *index = (uint32_t *)(void *)lend(OUT, some_side(), (const uint8_t *)have.index, 4 * lent);
    const uint8_t *new = lend(SOURCE, some_side(), more, length);
    struct brothladder_indexed got = brothladder_index_append(list, room, used, index, lent, entries, new, length, edition);
    struct brothladder_indexed wanted = plain_index_append(have.list, room, used, have.index, lent, entries, more, length, edition);
    same_answer("append", &got, &wanted, sizeof got);
    check(stands(PACKET, have.list, room) && stands(OUT, (const uint8_t *)have.index, 4 * lent) && stands(SOURCE, more, length), "append", "a buffer");
    outcomes[got.refusal]++;
    return got.answer == BROTHLADDER_INDEXED;
}

static struct brothladder_indexed build(const uint8_t *bytes, size_t length, size_t lent, uint32_t edition) {
    const uint8_t *options = lend(PACKET, some_side(), bytes, length);
    uint32_t *index = (uint32_t *)(void *)lend(OUT, some_side(), (const uint8_t *)have.index, 4 * lent);
    struct brothladder_indexed got = brothladder_index_build(options, length, index, lent, edition);
    struct brothladder_indexed wanted = plain_index_build(bytes, length, have.index, lent, edition);
    same_answer("build", &got, &wanted, sizeof got);
    check(stands(PACKET, bytes, length) && stands(OUT, (const uint8_t *)have.index, 4 * lent), "build", "a buffer");
    return got;
}

/* Up to so many options, of one to three units but for prefixes, and now and then a damaged byte. */
static size_t some_list(uint8_t *p, uint32_t most) {
    static const uint8_t types[] = {0, 1, 2, 3, 4, 5, 14, 24, 25, 255};
    size_t n = 0;
    for (uint32_t k = below(most + 1); k > 0; k--) {
        uint8_t type = types[below(10)], units = type == 3 ? 4 : type == 5 ? 1 : type == 25 ? 3 : (uint8_t)(1 + below(3));
        if (n + 8 * units > MOST_BYTES) break;
        memset(p + n, 0, 8 * units);
        p[n] = type;
        p[n + 1] = units;
        if (type == 24) p[n + 2] = (uint8_t)(units == 1 ? 0 : units == 2 ? 64 : 128 + (below(20) == 0));
        n += 8 * units;
    }
    if (n > 0 && below(10) == 0) p[below((uint32_t)n)] = (uint8_t)chance();
    return n > 0 && below(20) == 0 ? n - 1 : n;
}

/* A list by chance in pieces by chance: each piece is appended, now and then with something amiss first. */
static void grow(void) {
    static uint8_t all[MOST_BYTES];
    static struct walked w;
    uint32_t edition = some_edition();
    size_t n = some_list(all, below(8) ? 6 : 70), at = 0;
    walk_list(&w, all, n, 0, edition);
    have.used = have.entries = 0;
    for (size_t i = 0; i < LENT; i++) have.index[i] = (uint32_t)chance();
    while (at < n) {
        /* up to where an option begins, or to the end, or anywhere */
        size_t to = below(8) == 0 ? at + 1 + below((uint32_t)(n - at)) : below(4) == 0 || w.count == 0 ? n : w.numbers[2 * below((uint32_t)w.count) + 1];
        if (to <= at) to = n;
        size_t length = to - at, room = have.used + length, lent = LENT - below(4);
        if (below(8) == 0) append(room - 1, have.used, lent, have.entries, all + at, length, edition);
        if (below(8) == 0) append(room, have.used + 1 + below(9), lent, have.entries, all + at, length, edition);
        if (below(8) == 0) append(room, have.used, lent, have.entries + 1, all + at, length, edition);
        if (below(8) == 0) append(room, have.used, below(2 * (uint32_t)have.entries + 4), have.entries, all + at, length, edition);
        if (have.entries > 0 && below(8) == 0) {
            size_t i = below(2 * (uint32_t)have.entries);
            have.index[i] ^= 1u << below(32);
            append(room, have.used, lent, have.entries, all + at, length, edition);
            walk_list(&w, all, n, 0, edition);
            have.index[i] = w.numbers[i];
        }
        if (!append(room, have.used, lent, have.entries, all + at, length, edition)) break;
        have.used = to;
        walk_list(&w, all, to, 0, edition);
        have.entries = w.count;
        walk_list(&w, all, n, 0, edition);
        at = to;
    }
    /* what was grown is what the same bytes build afresh */
    uint32_t grown[LENT];
    memcpy(grown, have.index, sizeof grown);
    struct brothladder_indexed x = build(have.list, have.used, LENT, edition);
    check(x.answer == BROTHLADDER_INDEXED && x.length == have.used && x.entries == have.entries, "grown", "as many as built afresh");
    check(memcmp(grown, have.index, sizeof grown) == 0, "grown", "the entries that are built afresh");
    for (int i = 0; i < 3; i++) find(have.index, LENT, have.entries, (uint8_t)(below(2) ? below(6) : chance()), below((uint32_t)have.used + 9));
    find(have.index, below(LENT), below(80), (uint8_t)below(6), below(64));
    build(all, n, below(LENT), edition);
}

/* ---- docs/RULES.md I15 */
static void indexed_as(const char *what, struct brothladder_indexed got, size_t length, size_t entries) {
    struct brothladder_indexed wanted = answer(0, 0, length, entries);
    same_answer(what, &got, &wanted, sizeof got);
}

static void found_as(const char *what, struct brothladder_found got, uint32_t told, size_t at) {
    struct brothladder_found wanted;
    memset(&wanted, 0, sizeof wanted);
    wanted.answer = told;
    wanted.at = at;
    same_answer(what, &got, &wanted, sizeof got);
}

#define REFUSES(what, got, ...)                                                                                                          \
    do {                                                                                                                                 \
        struct brothladder_indexed x = got;                                                                                              \
        refuses(what, &x, sizeof x, __VA_ARGS__);                                                                                        \
    } while (0)

static void worked(void) {
    static const uint32_t wanted[8] = {1, 0, 5, 8, 3, 16, 25, 48};
    uint8_t list[600] = {0}, one[8] = {1, 1}, zero[2] = {1, 0}, five[1] = {5};
    uint32_t index[LENT] = {0};
    list[0] = 1, list[1] = 1, list[8] = 5, list[9] = 1, list[16] = 3, list[17] = 4;
    uint8_t servers[24] = {25, 3};
    indexed_as("no bytes", brothladder_index_build(NULL, 0, NULL, 0, 1), 0, 0);
    indexed_as("no bytes", brothladder_index_append(NULL, 0, 0, NULL, 0, 0, NULL, 0, 1), 0, 0);
    found_as("no entries", brothladder_index_first(NULL, 0, 0, 1), BROTHLADDER_NONE, 0);
    REFUSES("five numbers", brothladder_index_build(list, 48, index, 5, 1), 9, 24, 0, 0, 0, 0);
    indexed_as("the example", brothladder_index_build(list, 48, index, 6, 1), 48, 3);
    found_as("first 3", brothladder_index_first(index, LENT, 3, 3), BROTHLADDER_FOUND, 16);
    found_as("first 3 of two", brothladder_index_first(index, LENT, 2, 3), BROTHLADDER_NONE, 0);
    found_as("first 3 of 5 numbers", brothladder_index_first(index, 5, 3, 3), BROTHLADDER_NONE, 0);
    found_as("next 3 after 15", brothladder_index_next(index, LENT, 3, 3, 15), BROTHLADDER_FOUND, 16);
    found_as("next 3 after 16", brothladder_index_next(index, LENT, 3, 3, 16), BROTHLADDER_NONE, 0);
    found_as("next 3 after all", brothladder_index_next(index, LENT, 3, 3, SIZE_MAX), BROTHLADDER_NONE, 0);
    found_as("entries beyond", brothladder_index_first(index, 6, SIZE_MAX, 3), BROTHLADDER_FOUND, 16);
    REFUSES("room for the bytes alone", brothladder_index_append(list, 72, 48, index, 7, 3, servers, 24, 1), 9, 32, 0, 0, 0, 0);
    REFUSES("room for neither", brothladder_index_append(list, 71, 48, index, 7, 3, servers, 24, 1), 9, 72, 0, 0, 0, 0);
    REFUSES("one byte", brothladder_index_append(list, 72, 48, index, 8, 3, five, 1, 1), 5, 5, 2, 1, 48, 0);
    REFUSES("no such list", brothladder_index_append(list, 72, 73, index, 8, 3, NULL, 0, 1), 23, 0, 0, 0, 0, 0);
    REFUSES("no such index", brothladder_index_append(list, 72, 48, index, 8, SIZE_MAX, NULL, 0, 1), 23, 0, 0, 0, 0, 0);
    indexed_as("servers", brothladder_index_append(list, 72, 48, index, 8, 3, servers, 24, 1), 72, 4);
    check(memcmp(index, wanted, sizeof wanted) == 0, "servers", "the index");
    index[3]++;
    REFUSES("a place wrong, and bad bytes", brothladder_index_append(list, 72, 72, index, 8, 4, five, 1, 1), 23, 0, 0, 0, 0, 0);
    for (size_t i = 0; i < 66; i++) memcpy(list + 8 * i, one, 8);
    REFUSES("127 numbers", brothladder_index_build(list, 512, index, 127, 1), 9, 512, 0, 0, 0, 0);
    REFUSES("65 options", brothladder_index_build(list, 520, index, LENT, 1), 20, 0, 0, 0, 0, 0);
    REFUSES("65 options, one bad", brothladder_index_build(list, 521, index, LENT, 1), 5, 1, 2, 1, 520, 0);
    indexed_as("64 options", brothladder_index_build(list, 512, index, 128, 1), 512, 64);
    indexed_as("64 and none", brothladder_index_append(list, 512, 512, index, 128, 64, NULL, 0, 1), 512, 64);
    REFUSES("64 and one", brothladder_index_append(list, 528, 512, index, 132, 64, one, 8, 1), 20, 0, 0, 0, 0, 0);
    REFUSES("64 and a bad one", brothladder_index_append(list, 528, 512, index, 132, 64, zero, 2, 1), 6, 1, 512, 0, 0, 0);
    REFUSES("to 65", brothladder_index_append(list, 528, 520, index, 132, 65, NULL, 0, 1), 23, 0, 0, 0, 0, 0);
}

/* 64 options of 2,040 bytes, one after the other: the highest place that an index has. */
static void longest(void) {
    static uint8_t list[64 * 2040], option[2040];
    uint32_t index[128];
    struct brothladder_indexed x = answer(0, 0, 0, 0);
    option[0] = 77;
    option[1] = 255;
    for (size_t i = 0; i < 64; i++) {
        option[0] = (uint8_t)(77 + i % 2);
        x = brothladder_index_append(list, sizeof list, x.length, index, 128, x.entries, option, sizeof option, 2);
        indexed_as("2,040 bytes", x, 2040 * (i + 1), i + 1);
        same("2,040 bytes: place", index[2 * i + 1], 2040 * i);
    }
    same("the highest place", index[127], 128520);
    found_as("the last", brothladder_index_next(index, 128, 64, 78, 128519), BROTHLADDER_FOUND, 128520);
    uint32_t again[128];
    indexed_as("built afresh", brothladder_index_build(list, sizeof list, again, 128, 2), sizeof list, 64);
    check(memcmp(index, again, sizeof index) == 0, "built afresh", "the same index");
    size_t n = 0;
    struct brothladder_found f = brothladder_index_first(index, 128, 64, 78);
    for (; f.answer == BROTHLADDER_FOUND; f = brothladder_index_next(index, 128, 64, 78, f.at)) {
        struct brothladder_stepped s = brothladder_step(list, sizeof list, 16, f.at, 2);
        check(s.answer == BROTHLADDER_OPTION && s.type == 78 && s.at == f.at && s.place == 16 + f.at, "a step there", "that option");
        n++;
    }
    same("every second one", n, 32);
}

void indexes(void) {
    worked();
    longest();
    for (long i = 0; i < PACKETS; i++) grow();
    often("append", outcomes, "0 5 6 7 9 18 20 23");
}
