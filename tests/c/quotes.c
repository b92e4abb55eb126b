/* docs/RULES.md, area Q: the packets quoted in a packet. The worked cases; then 100,000 nests, random and damaged, each in an edition by chance, with the
   answers of plain.c beside those of the library, and each message of a chain read by itself. Each answer must come often enough that the comparison says
   something. */
#include "check.h"
#include "plain.h"
#include <stdio.h>
#include <string.h>

enum { MOST = 2048 };

/* Puts bytes before or behind the n that stand at p; a NULL stands for bytes of 0. */
static size_t before(const uint8_t *bytes, size_t more, uint8_t *p, size_t n) {
    memmove(p + more, p, n);
    if (bytes) memcpy(p, bytes, more);
    else memset(p, 0, more);
    return more + n;
}

static size_t behind(uint8_t *p, size_t n, const uint8_t *bytes, size_t more) {
    if (bytes) memcpy(p + n, bytes, more);
    else memset(p + n, 0, more);
    return n + more;
}

/* The n bytes at p, as the rest of a message, of a quote, of a redirect; as an option of type 4. */
static size_t message(uint8_t type, uint8_t code, uint8_t *p, size_t n) {
    const uint8_t head[8] = {type, code};
    return before(head, 8, p, n);
}

static size_t quote(uint8_t next_header, uint8_t *p, size_t n) {
    const uint8_t head[40] = {0x60, [6] = next_header};
    return before(head, 40, p, n);
}

static size_t redirect(uint8_t *p, size_t n) { return message(137, 0, p, before(NULL, 32, p, n)); }

static size_t option(uint8_t *p, size_t n) {
    const uint8_t head[8] = {4, (uint8_t)(1 + n / 8)};
    return before(head, 8, p, n);
}

/* So many messages of type 1, each in the one before, around the n bytes at p. */
static size_t nest(int deep, uint8_t *p, size_t n) {
    while (deep-- > 0) n = message(1, 0, p, quote(58, p, n));
    return n;
}

enum { FIRST = BROTHLADDER_EDITION_FIRST, SECOND = BROTHLADDER_EDITION_SECOND };

static void refused_from(uint32_t edition, const char *what, const uint8_t *p, size_t n, uint32_t number, uint64_t v0, uint64_t v1, uint64_t v2,
                         uint64_t v3) {
    for (; edition <= SECOND; edition++) {
        struct brothladder_chain c = brothladder_chain(p, n, edition);
        refuses(what, &c, sizeof c, number, v0, v1, v2, v3, 0);
    }
}

/* In both editions. */
static void refused(const char *what, const uint8_t *p, size_t n, uint32_t number, uint64_t v0, uint64_t v1, uint64_t v2, uint64_t v3) {
    refused_from(FIRST, what, p, n, number, v0, v1, v2, v3);
}

/* A chain whose every quote is in a message of type 1 but the first, and whose last level has this next header and kind. In the first edition and, up
   to the last that is asked for, in the second. */
static void chained_to(uint32_t last_edition, const char *what, const uint8_t *p, size_t n, uint32_t kind, uint32_t levels, uint32_t first,
                       uint8_t next_header, uint8_t last) {
    struct brothladder_chain c, wanted;
    memset(&wanted, 0, sizeof wanted);
    wanted.answer = BROTHLADDER_CHAIN;
    wanted.kind = kind;
    wanted.levels = levels;
    for (uint32_t i = 0; i < levels; i++) {
        wanted.quote[i] = first + 48 * i;
        wanted.next_header[i] = i + 1 < levels ? 58 : next_header;
        wanted.level_kind[i] = i + 1 < levels ? 1 : last;
    }
    for (uint32_t edition = FIRST; edition <= last_edition; edition++) {
        c = brothladder_chain(p, n, edition);
        same_answer(what, &c, &wanted, sizeof c);
    }
}

static void chained(const char *what, const uint8_t *p, size_t n, uint32_t kind, uint32_t levels, uint32_t first, uint8_t next_header, uint8_t last) {
    chained_to(SECOND, what, p, n, kind, levels, first, next_header, last);
}

static void worked(void) {
    static uint8_t p[MOST];
    size_t n;

    refused("nothing behind the head", p, message(1, 0, p, 0), 15, 8, 0, 0, 0);
    n = message(1, 0, p, quote(17, p, 0));
    refused("39 bytes behind it", p, n - 1, 15, 8, 0, 0, 0);
    chained("40 bytes behind it", p, n, 1, 1, 8, 17, 0);
    n = message(1, 0, p, quote(58, p, message(128, 0, p, 0)));
    refused("no byte of the message", p, n - 8, 1, 8, 0, 0, 0);
    refused("seven of it", p, n - 1, 1, 8, 7, 0, 0);
    chained("all of it", p, n, 1, 1, 8, 58, 128);

    chained("eight levels", p, n = nest(8, p, message(128, 0, p, 0)), 1, 8, 8, 58, 128);
    same("eight levels", n, 392);
    refused("a ninth of no bytes", p, n = nest(8, p, message(1, 0, p, 0)), 17, 392, 0, 0, 0);
    same("a ninth of no bytes", n, 392);
    chained("a list at level 8", p, n = nest(8, p, redirect(p, 0)), 1, 8, 8, 58, 137);
    same("a list at level 8", n, 424);
    refused("with a quote", p, n = nest(8, p, redirect(p, option(p, 0))), 17, 432, 0, 0, 0);
    same("with a quote", n, 432);
    refused("not clean", p, n = nest(8, p, redirect(p, behind(p, 0, (const uint8_t *)"\1", 1))), 5, 1, 2, 1, 424);
    same("not clean", n, 425);

    n = redirect(p, option(p, quote(58, p, message(128, 0, p, 0))));
    chained("a redirect", p, n, 137, 1, 48, 58, 128);
    refused("a byte behind its option", p, behind(p, n, (const uint8_t *)"\1", 1), 5, 1, 2, 1, 96);
    n = option(p, quote(58, p, message(128, 0, p, 0)));
    refused("the first option counts", p, redirect(p, before((const uint8_t *)"\4\1\0\0\0\0\0", 8, p, n)), 15, 48, 0, 0, 0);
    n = message(135, 0, p, before(NULL, 16, p, 0));
    n = redirect(p, option(p, quote(58, p, behind(p, n, NULL, 8))));
    refused("a padded list", p, n, 6, 0, 112, 0, 0);
    same("a padded list", n, 120);
}

/* E10: lists that the second edition refuses, outside and in a quote; the first reads the chain. */
static void worked_in_editions(void) {
    static const uint8_t route[32] = {24, 4}, far[8] = {24, 1, 129}, servers[16] = {25, 2};
    static uint8_t p[MOST];
    size_t n = redirect(p, option(p, quote(17, p, 0)));
    chained("a redirect", p, n, 137, 1, 48, 17, 0);
    n = behind(p, n, route, 32);
    chained_to(FIRST, "four units of a route behind the quote", p, n, 137, 1, 48, 17, 0);
    refused_from(SECOND, "four units of a route behind the quote", p, n, 5, 24, 24, 32, 88);
    n = message(1, 0, p, quote(58, p, redirect(p, before(far, 8, p, option(p, quote(17, p, 0))))));
    struct brothladder_chain c = brothladder_chain(p, n, FIRST);
    check(c.answer == BROTHLADDER_CHAIN && c.levels == 2 && c.quote[1] == 104, "a far route in a quote", "in the first edition two levels");
    refused_from(SECOND, "a far route in a quote", p, n, 18, 88, 0, 0, 0);
    n = message(1, 0, p, quote(58, p, message(133, 0, p, before(servers, 16, p, 0))));
    chained_to(FIRST, "two units of servers in a quote", p, n, 1, 1, 8, 58, 133);
    refused_from(SECOND, "two units of servers in a quote", p, n, 5, 25, 24, 16, 56);
}

/* The kinds that quote, and those codes of theirs that are not listed: read by the kind, not by the type's number. */
static void kinds(void) {
    static uint8_t p[MOST];
    for (int type = 0; type < 256; type++)
        for (int code = 0; code < 256; code++) {
            size_t n = quote(17, p, 0);
            if (type >= 133 && type <= 137) n = before(NULL, (const size_t[]){0, 8, 16, 16, 32}[type - 133], p, option(p, n));
            n = message((uint8_t)type, (uint8_t)code, p, n);
            uint32_t edition = some_edition();
            struct brothladder_chain c = brothladder_chain(p, n, edition), w = plain_chain(p, n, edition);
            same_answer("a type and a code that may quote", &c, &w, sizeof c);
            same("and its kind", c.kind, brothladder_decode(p, n).answer == BROTHLADDER_KNOWN ? (uint32_t)type : 0);
        }
}

/* Options in good order, seldom of type 4. */
static size_t list(uint8_t *p) {
    size_t n = some_options(p);
    for (size_t at = 0; at < n; at += 8 * (size_t)p[at + 1])
        if (p[at] == 4 && below(8)) p[at] = 200;
    return n;
}

/* The innermost message: with a quote or without, or no message at all. */
static size_t innermost(uint8_t *p) {
    static const uint8_t types[] = {128, 129, 1, 133, 134, 135, 136, 137, 143};
    static const size_t fixed[] = {4, 0, 0, 0, 8, 16, 16, 32, 20};
    uint32_t k = below(10);
    if (k == 9) return below(8);
    size_t n = fixed[k] + (k >= 3 && k <= 7 && below(2) ? list(p + fixed[k]) : 0);
    return message(types[k], 0, p, n);
}

/* A quote of it, and around that an error or a list. */
static size_t around(uint8_t *p, size_t n) {
    static const uint8_t codes[] = {7, 1, 2, 11};
    uint8_t options[LONGEST];
    n = quote(below(16) ? 58 : (uint8_t)chance(), p, n);
    for (size_t i = 1; i < 40; i++)
        if (i != 6) p[i] = (uint8_t)chance();
    if (below(40) == 0) p[0] = (uint8_t)chance();
    if (below(3)) {
        uint32_t k = below(4);
        return message((uint8_t)(1 + k), (uint8_t)below(codes[k]), p, n);
    }
    uint32_t k = below(2) ? 4 : below(5);
    n = option(p, behind(p, n, NULL, (8 - n % 8) % 8));
    if (below(3) == 0) n = behind(p, n, options, list(options));
    if (below(3) == 0) n = before(options, list(options), p, n);
    return message((uint8_t)(133 + k), 0, p, before(NULL, (const size_t[]){0, 8, 16, 16, 32}[k], p, n));
}

static unsigned long deep[9], refusals[23], first_alone;

/* Q13: what stands behind a level is the chain of its message, read by itself. */
static void by_itself(const uint8_t *p, size_t n, const struct brothladder_chain *c, uint32_t edition) {
    size_t end = n;
    for (uint32_t i = 0; i < c->levels; i++) {
        uint32_t outside = i == 0 ? c->kind : c->level_kind[i - 1];
        if (outside > 4) end = c->quote[i] - 8 + 8 * (size_t)p[c->quote[i] - 7];
        if (c->next_header[i] != 58) return;
        size_t at = c->quote[i] + 40;
        struct brothladder_chain own = brothladder_chain(p + at, end - at, edition), wanted;
        memset(&wanted, 0, sizeof wanted);
        wanted.answer = BROTHLADDER_CHAIN;
        wanted.kind = c->level_kind[i];
        wanted.levels = c->levels - i - 1;
        for (uint32_t k = 0; k < wanted.levels; k++) {
            wanted.quote[k] = c->quote[i + 1 + k] - (uint32_t)at;
            wanted.next_header[k] = c->next_header[i + 1 + k];
            wanted.level_kind[k] = c->level_kind[i + 1 + k];
        }
        same_answer("a level by itself", &own, &wanted, sizeof own);
    }
}

/* E10: a chain that is read in the second edition is read in the first. */
static void read_in_both(const uint8_t *p, size_t n) {
    struct brothladder_chain one = brothladder_chain(p, n, FIRST), two = brothladder_chain(p, n, SECOND);
    if (two.answer == BROTHLADDER_CHAIN) same_answer("a chain in the second edition, and in the first", &one, &two, sizeof one);
    else first_alone += one.answer == BROTHLADDER_CHAIN;
}

static void reads(uint8_t *packet, size_t n) {
    uint32_t edition = some_edition();
    const uint8_t *p = lend(PACKET, below(2) ? LOW : HIGH, packet, n);
    struct brothladder_chain c = brothladder_chain(p, n, edition), w = plain_chain(packet, n, edition);
    same_answer("chain", &c, &w, sizeof c);
    read_in_both(p, n);
    check(stands(PACKET, packet, n), "chain", "the packet is left alone");
    note(c.answer, c.refusal, 0);
    if (c.answer == BROTHLADDER_REFUSED) {
        refusals[c.refusal % 23]++;
        return;
    }
    deep[c.levels % 9]++;
    by_itself(p, n, &c, edition);
    /* Q8: the checksum field of the packet or of a message in it */
    size_t at = c.levels > 0 && below(2) && c.next_header[0] == 58 ? c.quote[0] + 40 : 0;
    packet[at + 2] = (uint8_t)chance();
    packet[at + 3] = (uint8_t)chance();
    w = brothladder_chain(lend(PACKET, HIGH, packet, n), n, edition);
    same_answer("another checksum, the same chain", &w, &c, sizeof c);
}

void quotes(void) {
    worked();
    worked_in_editions();
    kinds();
    for (int i = 0; i < PACKETS; i++) {
        static uint8_t packet[2 * MOST];
        size_t n = innermost(packet);
        for (uint32_t k = below(11); k > 0 && n < MOST - LONGEST; k--) n = around(packet, n);
        if (below(2))
            for (uint32_t k = 1 + below(2); k > 0; k--) n = damage(packet, n);
        reads(packet, n);
    }
    often("levels", deep, "0 1 2 3 4 5 6 7 8");
    often("refusal of a quote", refusals, "1 4 5 6 7 15 16 17 18");
    check(first_alone >= 500, "a chain in the first edition alone", "often enough");
}
