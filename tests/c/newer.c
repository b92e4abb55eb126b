/* docs/RULES.md O10 to O14 and H21 to H23: routes, servers and the preference. All that they look at, beside plain.c and beside a step in the
   second edition; the worked cases by number. */
#include "check.h"
#include "plain.h"
#include <stdio.h>
#include <string.h>

enum { SECOND = BROTHLADDER_EDITION_SECOND, MOST = MOST_OPTION };

/* How often each answer came, and each refusal. */
static unsigned long answers[17], refusals[23];

static void count(uint32_t answer, uint32_t refusal) {
    answers[answer % 17]++;
    refusals[refusal % 23]++;
}

/* Both readers over some bytes, beside plain C. */
static void read_both(const uint8_t *lent, const uint8_t *bytes, size_t n, size_t offset) {
    struct brothladder_route r = brothladder_read_route(lent, n, offset), pr = plain_route(bytes, n, offset);
    struct brothladder_servers d = brothladder_read_dns(lent, n, offset), pd = plain_dns(bytes, n, offset);
    same_answer("a route", &r, &pr, sizeof r);
    same_answer("servers", &d, &pd, sizeof d);
    count(r.answer, r.refusal);
    count(d.answer, d.refusal);
}

/* O12: what is read is what a step over the same bytes hands out, and once type and size are right they are refused alike. */
static void beside_a_step(const uint8_t *option, size_t n, size_t offset) {
    struct brothladder_stepped s = brothladder_step(option, n, offset, 0, SECOND);
    struct brothladder_route r = brothladder_read_route(option, n, offset);
    struct brothladder_servers d = brothladder_read_dns(option, n, offset);
    int whole = s.answer == BROTHLADDER_OPTION && s.length == n;
    same("a route is kind 24", r.answer == BROTHLADDER_ROUTE, whole && s.kind == 24);
    same("an ignored one is type 24 of kind 0", r.answer == BROTHLADDER_IGNORED, whole && s.type == 24 && s.kind == 0);
    same("servers are kind 25", d.answer == BROTHLADDER_SERVERS, whole && s.kind == 25);
    if (n < 8 || option[1] == 0 || n != 8 * (size_t)option[1] || s.answer != BROTHLADDER_REFUSED) return;
    if (option[0] == 24) same("refused alike", r.refusal, s.refusal), check(memcmp(r.value, s.value, sizeof s.value) == 0, "a route is refused alike", "");
    if (option[0] == 25) same("refused alike", d.refusal, s.refusal), check(memcmp(d.value, s.value, sizeof s.value) == 0, "servers are refused alike", "");
}

static void as_it_says(const uint8_t *lent, const uint8_t *bytes, size_t n) {
    read_both(lent, bytes, n, 16);
    beside_a_step(bytes, n, 16);
}

/* And a byte less and a byte more. */
static void about_as_long(const uint8_t *bytes, size_t n) {
    for (size_t m = n - 1; m <= n + 1; m++) read_both(lend(PACKET, HIGH, bytes, m), bytes, m, 16), beside_a_step(bytes, m, 16);
}

static void every_option(void) {
    each_newer(as_it_says, about_as_long);
    /* Counted by hand, without the lengths that are a byte off: of the prefix lengths 1 fits into one unit, 65 into two and 129 into three; of 256
       flags 64 have the preference 10. Servers have 3, 5, 7 or 255 of these units. With the lengths in between, each once more for 256 prefix
       lengths, with one byte of flags, ff, whose preference is 11. */
    same("routes", answers[BROTHLADDER_ROUTE], (1 + 65 + 129) * (192 + 1));
    same("ignored routes", answers[BROTHLADDER_IGNORED], (1 + 65 + 129) * 64);
    same("servers", answers[BROTHLADDER_SERVERS], 4 * (65536 + 256));
    same("prefix lengths above 128", refusals[18], 3 * 127 * (256 + 1));
    check(refusals[5] > 1000 && refusals[6] > 1000 && refusals[8] > 1000, "each refusal comes often", "");
}

/* Few bytes, offsets up to the last place and beyond it. */
static void edges(void) {
    uint8_t b[24] = {24, 3, 128, 0, 0, 0, 2, 88};
    for (int type = 24; type <= 25; type++) {
        b[0] = (uint8_t)type;
        for (size_t n = 0; n <= 24; n++) {
            const size_t offsets[] = {0, 40, LAST_PLACE - n, LAST_PLACE - n + 1, SIZE_MAX - n, SIZE_MAX};
            for (size_t k = 0; k < sizeof offsets / sizeof *offsets; k++) read_both(n ? lend(PACKET, HIGH, b, n) : NULL, b, n, offsets[k]);
        }
    }
    struct brothladder_route r = brothladder_read_route(b, 24, LAST_PLACE - 23);
    refuses("a route one byte too far", &r, sizeof r, 22, 0, 0, 0, 0, 0);
    struct brothladder_servers d = brothladder_read_dns(b, 24, LAST_PLACE - 24);
    same("the farthest servers", d.place, LAST_PLACE - 24);
}

/* The bounds of a route by number: prefix length, units, flags, and the answer or the refusal with its values. */
static void by_number(void) {
    static const struct {
        uint8_t bits, units, flags;
        uint32_t answer, refusal;
        uint64_t expected, actual;
    } cases[] = {
        {0, 1, 0, BROTHLADDER_ROUTE, 0, 0, 0},          {1, 1, 0, BROTHLADDER_REFUSED, 5, 16, 8},    {64, 1, 0, BROTHLADDER_REFUSED, 5, 16, 8},
        {64, 2, 0, BROTHLADDER_ROUTE, 0, 0, 0},         {65, 2, 0, BROTHLADDER_REFUSED, 5, 24, 16},  {128, 3, 0, BROTHLADDER_ROUTE, 0, 0, 0},
        {129, 3, 0, BROTHLADDER_REFUSED, 18, 0, 0},     {129, 1, 0, BROTHLADDER_REFUSED, 18, 0, 0},  {255, 4, 0, BROTHLADDER_REFUSED, 5, 24, 32},
        {0, 3, 0, BROTHLADDER_ROUTE, 0, 0, 0},          {64, 2, 0x10, BROTHLADDER_IGNORED, 0, 0, 0}, {64, 2, 0x18, BROTHLADDER_ROUTE, 0, 0, 0},
        {64, 2, 0x08, BROTHLADDER_ROUTE, 0, 0, 0},      {129, 3, 0x10, BROTHLADDER_REFUSED, 18, 0, 0},
    };
    for (size_t i = 0; i < sizeof cases / sizeof *cases; i++) {
        uint8_t b[32] = {24, cases[i].units, cases[i].bits, cases[i].flags, 0x12, 0x34, 0x56, 0x78, 0x20, 1, 0x0d, 0xb8, [23] = 7};
        char what[60];
        snprintf(what, sizeof what, "prefix length %d, %d units, flags %02x", cases[i].bits, cases[i].units, cases[i].flags);
        struct brothladder_route r = brothladder_read_route(b, 8 * (size_t)cases[i].units, 40);
        same(what, r.answer, cases[i].answer);
        if (cases[i].refusal == 5) refuses(what, &r, sizeof r, 5, 24, cases[i].expected, cases[i].actual, 40, 0);
        if (cases[i].refusal == 18) refuses(what, &r, sizeof r, 18, 40, 0, 0, 0, 0);
        if (cases[i].answer != BROTHLADDER_ROUTE) continue;
        check(r.prefix_length == cases[i].bits && r.lifetime == 0x12345678 && r.place == 40, what, "its numbers");
        same(what, r.preference, cases[i].flags == 0x08 ? BROTHLADDER_PREFERENCE_HIGH : cases[i].flags == 0x18 ? BROTHLADDER_PREFERENCE_LOW : BROTHLADDER_PREFERENCE_MEDIUM);
        check(memcmp(r.prefix, b + 8, 8 * (size_t)cases[i].units - 8) == 0, what, "its prefix");
    }
    for (size_t units = 1; units <= 255; units++) {
        uint8_t b[MOST] = {25, (uint8_t)units, 0xff, 0xff, 0, 0, 4, 0xb0};
        struct brothladder_servers d = brothladder_read_dns(b, 8 * units, 40);
        if (units < 3 || units % 2 == 0) refuses("units of servers", &d, sizeof d, 5, 25, 24, 8 * units, 40, 0);
        else check(d.lifetime == 1200 && 8 + 16 * d.count == 8 * units && d.place == 40, "units of servers", "the addresses fill it");
    }
}

/* Every flags byte of every type, with two codes; then written both ways and read again. */
static void preferences(void) {
    unsigned long told[4] = {0};
    for (int k = 0; k < 256 * 256 * 2; k++) {
        uint8_t b[40] = {(uint8_t)(k >> 8), (uint8_t)(k >> 16), 0, 0, (uint8_t)chance(), (uint8_t)k, (uint8_t)chance(), (uint8_t)chance()}, out[40];
        struct brothladder_preferred p = brothladder_preference(b, 8), w = plain_preference(b, 8);
        same_answer("a preference", &p, &w, sizeof p);
        told[p.preference & 3]++;
        if (b[0] != 134 || b[1] != 0) continue;
        struct brothladder_head h = brothladder_decode(b, 8);
        if (brothladder_write_keeping(134, 0, h.bytes5to8, b + 8, 8, router, all_routers, out, sizeof out, SECOND).answer == BROTHLADDER_WRITTEN)
            same("kept", brothladder_preference(out, 16).preference, p.preference);
        if (brothladder_write_clearing(134, 0, h.bytes5to8, b + 8, 8, router, all_routers, out, sizeof out, SECOND).answer == BROTHLADDER_WRITTEN)
            same("cleared", brothladder_preference(out, 16).preference, BROTHLADDER_PREFERENCE_MEDIUM);
    }
    same("high", told[BROTHLADDER_PREFERENCE_HIGH], 64);
    same("low", told[BROTHLADDER_PREFERENCE_LOW], 64);
    same("never 10", told[2], 0);
    for (size_t n = 0; n < 8; n++) {
        static const uint8_t b[8] = {134, 0, 0, 0, 64, 8, 0, 0};
        struct brothladder_preferred p = brothladder_preference(n ? lend(PACKET, HIGH, b, n) : NULL, n);
        refuses("a short packet", &p, sizeof p, 1, 8, n, 0, 0, 0);
    }
}

void newer(void) {
    every_option();
    edges();
    by_number();
    preferences();
}
