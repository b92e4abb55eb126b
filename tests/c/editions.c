/* docs/RULES.md, area E: the walk in two editions. All that the second edition looks at of an option, beside plain.c; every number of an edition;
   and of each list that these tests walk, what the two editions have to do with each other. */
#include "check.h"
#include "plain.h"
#include <stdio.h>
#include <string.h>

enum { FIRST = BROTHLADDER_EDITION_FIRST, SECOND = BROTHLADDER_EDITION_SECOND };

static const uint32_t first_too[] = {0, 3, 256, 258, 65538, 0x02000000, 0x80000002, 0xffffffff};
enum { FIRST_TOO = sizeof first_too / sizeof *first_too };

uint32_t some_edition(void) {
    uint32_t k = below(16);
    return k < 8 ? SECOND : k < 15 ? FIRST : first_too[below(FIRST_TOO)];
}

/* The types that the second edition adds, with those beside them: the first and the last are in no edition. */
static const uint8_t types_of[] = {23, 24, 25, 26};
enum { TYPES = sizeof types_of };

static int is_newer(uint32_t type) { return memchr(types_of + 1, (int)type, TYPES - 2) != NULL; }

/* How the two walks went together: both to the end, both refused alike, the second refused alone; and of the last, where the first is whole. */
static unsigned long whole, alike, alone, first_whole, shown;

static int first_ends(const uint8_t *options, size_t length, size_t offset, size_t at) {
    struct brothladder_stepped s;
    while ((s = brothladder_step(options, length, offset, at, FIRST)).answer == BROTHLADDER_OPTION) at = s.next;
    return s.answer == BROTHLADDER_END;
}

void both_editions(const uint8_t *options, size_t length, size_t offset) {
    for (size_t at = 0;;) {
        struct brothladder_stepped one = brothladder_step(options, length, offset, at, FIRST);
        struct brothladder_stepped two = brothladder_step(options, length, offset, at, SECOND);
        if (two.answer == BROTHLADDER_REFUSED && one.answer == BROTHLADDER_OPTION) {
            check(two.refusal == 5 || two.refusal == 18, "refused in the second edition alone", "5 or 18");
            check(is_newer(one.type), "refused in the second edition alone", "of a type that it adds");
            first_whole += (unsigned long)first_ends(options, length, offset, one.next);
            alone++;
            return;
        }
        if (two.answer == BROTHLADDER_OPTION && two.type > 5) {
            shown += two.kind != 0;
            two.kind = 0;
        }
        same_answer("what the second edition answers, the first does", &one, &two, sizeof one);
        if (two.answer != BROTHLADDER_OPTION) {
            *(two.answer == BROTHLADDER_END ? &whole : &alike) += 1;
            return;
        }
        at = two.next;
    }
}

/* An option with this type and these units, prefix length and flags, alone in a list. Counted by edition and answer. */
static unsigned long kinds[3][256], refusals[3][23];

static void alone_in_a_list(const uint8_t *lent, const uint8_t *bytes, size_t n) {
    for (uint32_t edition = FIRST; edition <= SECOND; edition++) {
        struct brothladder_stepped s = brothladder_step(lent, n, 16, 0, edition), w = plain_step(bytes, n, 16, 0, edition);
        same_answer("a newer option", &s, &w, sizeof s);
        if (s.answer == BROTHLADDER_OPTION) kinds[edition][s.kind % 256] += (unsigned long)is_newer(s.type);
        else refusals[edition][s.refusal % 23] += (unsigned long)is_newer(bytes[0]);
    }
}

static const uint8_t units_of[] = {0, 1, 2, 3, 4, 5, 6, 7, 8, 254, 255};
enum { UNITS = sizeof units_of, MOST = MOST_OPTION };

void each_newer(void (*whole)(const uint8_t *lent, const uint8_t *bytes, size_t n), void (*other)(const uint8_t *bytes, size_t n)) {
    static uint8_t bytes[MOST + 1];
    for (int i = 0; i < TYPES * UNITS; i++) {
        for (size_t k = 4; k <= MOST; k++) bytes[k] = (uint8_t)chance();
        bytes[0] = types_of[i / UNITS];
        bytes[1] = units_of[i % UNITS];
        size_t n = bytes[1] == 0 ? 8 : 8 * (size_t)bytes[1];
        uint8_t *p = lend(PACKET, HIGH, bytes, n);
        for (int k = 0; k < 65536; k++) {
            p[2] = bytes[2] = (uint8_t)(k >> 8);
            p[3] = bytes[3] = (uint8_t)k;
            whole(p, bytes, n);
        }
        check(stands(PACKET, bytes, n), "a newer option", "is left alone");
        for (int k = 0; k < 256; k++) {
            bytes[2] = (uint8_t)k;
            other(bytes, n);
        }
    }
}

static void a_byte_short(const uint8_t *bytes, size_t n) {
    struct brothladder_stepped s = brothladder_step(lend(PACKET, HIGH, bytes, n - 1), n - 1, 16, 0, SECOND), w = plain_step(bytes, n - 1, 16, 0, SECOND);
    same_answer("a newer option, a byte short", &s, &w, sizeof s);
}

static void every_option(void) {
    each_newer(alone_in_a_list, a_byte_short);
    /* Counted by hand: of the prefix lengths 1 fits into one unit, 65 into two and 129 into three; 127 are above 128. Of 256 flags 64 have the
       preference 10. Servers have 3, 5, 7 or 255 of these units. */
    same("routes", kinds[SECOND][24], (1 + 65 + 129) * 192);
    same("routes that are ignored", kinds[SECOND][0], (1 + 65 + 129) * 64);
    same("routes with a prefix above 128", refusals[SECOND][18], 3 * 127 * 256);
    same("servers", kinds[SECOND][25], 4 * 65536);
    same("routes and servers of another size", refusals[SECOND][5], (128 + 64) * 256 + (7 + 6) * 65536);
    same("of no units", refusals[SECOND][6], 2 * 65536);
    same("in the first edition unknown", kinds[FIRST][0], 2 * 10 * 65536);
    same("in the first edition of no units", refusals[FIRST][6], 2 * 65536);
}

/* The same on the way in and out, at the bounds: an advertisement with such an option. */
static void in_messages(void) {
    static const uint8_t prefixes[] = {0, 1, 64, 65, 128, 129, 255}, flags[] = {0, 8, 16, 24};
    static uint8_t packet[16 + MOST], out[16 + MOST], wanted[16 + MOST];
    for (int i = 0; i < TYPES * UNITS * 7 * 4 * 2; i++) {
        uint32_t edition = i % 2 ? SECOND : FIRST;
        memset(packet, 0, sizeof packet);
        packet[0] = 134;
        packet[16] = types_of[i / 2 / 4 / 7 / UNITS];
        packet[17] = units_of[i / 2 / 4 / 7 % UNITS];
        packet[18] = prefixes[i / 2 / 4 % 7];
        packet[19] = flags[i / 2 % 4];
        size_t n = 16 + (packet[17] == 0 ? 8 : 8 * (size_t)packet[17]);
        unsigned sum = plain_checksum(packet, n, router, all_routers);
        packet[2] = (uint8_t)(sum >> 8);
        packet[3] = (uint8_t)sum;
        struct brothladder_received r = brothladder_receive(packet, n, 255, router, all_routers, edition);
        struct brothladder_received rw = plain_receive(packet, n, 255, router, all_routers, edition);
        same_answer("a newer option received", &r, &rw, sizeof r);
        memset(out, 0x11, sizeof out);
        memset(wanted, 0x11, sizeof wanted);
        struct brothladder_written w = brothladder_write(134, 0, 0, packet + 8, n - 8, router, all_routers, out, sizeof out, edition);
        struct brothladder_written ww = plain_write(134, 0, 0, packet + 8, n - 8, router, all_routers, wanted, sizeof wanted, edition);
        same_answer("a newer option written", &w, &ww, sizeof w);
        check(memcmp(out, wanted, sizeof out) == 0, "a newer option written", "or the output left alone");
        same("written where it is received", w.answer == BROTHLADDER_WRITTEN, r.answer == BROTHLADDER_RECEIVED);
    }
}

/* 2 is the second edition and every other number the first: a route of four units is refused in the second alone, in each call that takes one. */
static void numbers(void) {
    uint8_t out[48], packet[48] = {134, [16] = 24, 4};
    unsigned sum = plain_checksum(packet, 48, router, all_routers);
    packet[2] = (uint8_t)(sum >> 8);
    packet[3] = (uint8_t)sum;
    for (uint32_t i = 0; i < FIRST_TOO + 2; i++) {
        uint32_t edition = i < FIRST_TOO ? first_too[i] : i == FIRST_TOO ? FIRST : SECOND;
        int taken = edition != SECOND;
        same("a step", brothladder_step(packet + 16, 32, 16, 0, edition).answer, taken ? BROTHLADDER_OPTION : BROTHLADDER_REFUSED);
        same("the receive check", brothladder_receive(packet, 48, 255, router, all_routers, edition).answer, taken ? BROTHLADDER_RECEIVED : BROTHLADDER_REFUSED);
        same("the chain", brothladder_chain(packet, 48, edition).answer, taken ? BROTHLADDER_CHAIN : BROTHLADDER_REFUSED);
        uint32_t wanted = taken ? BROTHLADDER_WRITTEN : BROTHLADDER_REFUSED;
        same("write", brothladder_write(134, 0, 0, packet + 8, 40, router, all_routers, out, sizeof out, edition).answer, wanted);
        same("write clearing", brothladder_write_clearing(134, 0, 0, packet + 8, 40, router, all_routers, out, sizeof out, edition).answer, wanted);
        same("write keeping", brothladder_write_keeping(134, 0, 0, packet + 8, 40, router, all_routers, out, sizeof out, edition).answer, wanted);
    }
}

void editions(void) {
    every_option();
    in_messages();
    numbers();
}

void editions_compared(void) {
    char detail[120];
    snprintf(detail, sizeof detail, "whole %lu, alike %lu, alone %lu, of these whole in the first %lu, shown as 0 %lu", whole, alike, alone, first_whole, shown);
    check(whole >= 1000 && alike >= 1000 && alone >= 1000 && first_whole >= 1000 && shown >= 1000, "each way that two editions go together comes often", detail);
}
