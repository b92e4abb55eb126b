/* 100,000 packets, random and damaged, each in an edition by chance, with the answers of plain.c beside those of the library. Each answer must turn up
   often enough that the comparison says something. What is received is passed on (forward.c), and every list is walked in both editions (editions.c). */
#include "check.h"
#include "plain.h"
#include <stdio.h>
#include <string.h>

static const uint8_t addresses[][16] = {
    {0},                                                        /* unspecified */
    {0xfe, 0x80, [15] = 1},                                     /* link-local */
    {0xfe, 0x80, [15] = 2},
    {0xfe, 0x90, [15] = 1},
    {0x20, 0x01, 0x0d, 0xb8, [15] = 1},                         /* global */
    {0xff, 0x02, [15] = 1},                                     /* multicast */
    {0xff, 0x02, [11] = 1, 0xff, 0, 0, 2},                      /* solicited-node */
    {0xff, 0x02, [11] = 1, 0xfe, 0, 0, 2},
    {0xfe, 0xc0, [15] = 1},                                     /* behind the last that is link-local */
};

static void any_address(uint8_t *a) {
    uint32_t i = below(10);
    for (int k = 0; k < 16; k++) a[k] = i < 9 ? addresses[i][k] : (uint8_t)chance();
}

uint8_t some_type(void) {
    static const uint8_t types[] = {1, 2, 3, 4, 5, 24, 24, 25};
    return types[below(8)];
}

/* How many units an option has, of a type that looks at them; for a route and for servers by chance as many as it must have. */
static uint32_t some_units(uint8_t type) {
    switch (type) {
    case 3: return 4;
    case 5: return 1;
    case 24: return below(8) ? 1 + below(3) : 1 + below(5);
    case 25: return below(8) ? 3 + 2 * below(2) : 1 + below(5);
    default: return 1 + below(4);
    }
}

size_t some_option(uint8_t type, uint8_t *p) {
    uint32_t units = some_units(type);
    for (size_t i = 0; i < 8 * units; i++) p[i] = (uint8_t)chance();
    p[0] = type;
    p[1] = (uint8_t)units;
    if (type == 24 && below(8)) p[2] = (uint8_t)below(units == 1 ? 1 : units == 2 ? 65 : 129);
    return 8 * (size_t)units;
}

size_t some_options(uint8_t *p) {
    size_t n = 0;
    for (uint32_t k = below(5); k > 0; k--) n += some_option(below(6) ? some_type() : (uint8_t)below(256), p + n);
    return n;
}

size_t some_message(uint8_t *p, uint8_t *source, uint8_t *destination) {
    static const uint8_t types[] = {133, 134, 135, 136, 137, 128, 1, 2};
    static const size_t fixed[] = {0, 8, 16, 16, 32, 5, 9, 0};
    uint32_t k = below(10);
    k = k < 8 ? k : k - 6;
    for (size_t i = 0; i < 8 + fixed[k]; i++) p[i] = (uint8_t)chance();
    p[0] = types[k];
    p[1] = 0;
    if (k >= 2 && k <= 4) any_address(p + 8);
    if (k == 4) any_address(p + 24);
    if (k == 4 && below(2)) memcpy(p + 24, p + 8, 16); /* to a neighbor: its own target */
    any_address(source);
    any_address(destination);
    if ((k == 1 || k == 4) && below(4)) memcpy(source, addresses[1], 16);
    if (k == 2 && below(2)) memcpy(destination, addresses[6], 16);
    return 8 + fixed[k] + (k < 5 ? some_options(p + 8 + fixed[k]) : 0);
}

size_t damage(uint8_t *p, size_t n) {
    switch (below(6)) {
    case 0: return below((uint32_t)n + 1);
    case 1: p[n] = (uint8_t)chance(); return n + 1;
    case 2: if (n > 0) p[below((uint32_t)n)] = 0; return n;
    case 3: if (n > 9) p[8 + below((uint32_t)n - 8)] = (uint8_t)below(6); return n;
    case 4: if (n > 1) p[below(2)] ^= (uint8_t)(1 << below(8)); return n;
    default: if (n > 0) p[below((uint32_t)n)] ^= (uint8_t)(1 << below(8)); return n;
    }
}

enum { REFUSALS = 23 }; /* one more than the last number */
static unsigned long seen[16], reasons[9], refusals[REFUSALS], kinds[256], first_alone;

void note(uint32_t answer, uint32_t refusal, uint64_t value) {
    seen[answer & 15]++;
    if (answer == BROTHLADDER_REFUSED && refusal < REFUSALS) refusals[refusal]++;
    if (refusal == 11) reasons[value % 9]++;
}

/* Where so many bytes may stand in a packet, and now and then where they may not. */
static size_t some_offset(size_t length) {
    switch (below(8)) {
    case 0: return LAST_PLACE - length;
    case 1: return LAST_PLACE - length + 1;
    case 2: return (size_t)chance();
    case 3: return below(LAST_PLACE);
    default: return below(64);
    }
}

/* The whole walk, and a step at some place that no step handed on. */
static void walks(const uint8_t *options, size_t length, size_t offset, uint32_t edition) {
    enum side side = below(2) ? LOW : HIGH;
    const uint8_t *p = lend(PACKET, side, options, length);
    size_t at = 0;
    struct brothladder_stepped s, w;
    for (int over = 0; over < 3;) {
        s = brothladder_step(p, length, offset, at, edition);
        w = plain_step(options, length, offset, at, edition);
        same_answer("step", &s, &w, sizeof s);
        note(s.answer, s.refusal, 0);
        if (s.answer == BROTHLADDER_OPTION) kinds[s.kind % 256]++;
        if (s.answer != BROTHLADDER_OPTION || s.next <= at) over++;
        at = s.next;
    }
    at = below(2) ? below((uint32_t)length + 3) : (size_t)chance();
    s = brothladder_step(p, length, offset, at, edition);
    w = plain_step(options, length, offset, at, edition);
    same_answer("step anywhere", &s, &w, sizeof s);
    both_editions(p, length, offset);
    if (length >= 32) {
        struct brothladder_prefix r = brothladder_read_prefix(p, 32, offset), rw = plain_prefix(options, 32, offset);
        same_answer("prefix", &r, &rw, sizeof r);
        note(r.answer, r.refusal, 0);
    }
    check(stands(PACKET, options, length), "a walk", "the options are left alone");
}

/* E10: what is accepted in the second edition is accepted in the first, and handed on alike. */
static void accepted_in_both(const uint8_t *packet, size_t n, uint8_t hop_limit, const uint8_t *source, const uint8_t *destination) {
    struct brothladder_received one = brothladder_receive(packet, n, hop_limit, source, destination, BROTHLADDER_EDITION_FIRST);
    struct brothladder_received two = brothladder_receive(packet, n, hop_limit, source, destination, BROTHLADDER_EDITION_SECOND);
    if (two.answer == BROTHLADDER_RECEIVED) same_answer("received in the second edition, and in the first", &one, &two, sizeof one);
    if (one.answer == BROTHLADDER_RECEIVED && two.answer != BROTHLADDER_RECEIVED) {
        refuses("received in the first edition alone", &two, sizeof two, 11, BROTHLADDER_REASON_OPTIONS, 0, 0, 0, 0);
        first_alone++;
    }
}

static void reads(const uint8_t *packet, size_t n, uint8_t hop_limit, const uint8_t *source, const uint8_t *destination, uint32_t edition) {
    enum side side = below(2) ? LOW : HIGH;
    const uint8_t *p = lend(PACKET, side, packet, n), *from = lend(SOURCE, side, source, 16), *to = lend(DESTINATION, side, destination, 16);
    struct brothladder_head h = brothladder_decode(p, n), hw = plain_decode(packet, n);
    same_answer("decode", &h, &hw, sizeof h);
    note(h.answer, h.refusal, 0);
    struct brothladder_verified v = brothladder_verify(p, n, from, to), vw = plain_verify(packet, n, source, destination);
    same_answer("verify", &v, &vw, sizeof v);
    note(v.answer, v.refusal, 0);
    struct brothladder_received r = brothladder_receive(p, n, hop_limit, from, to, edition);
    struct brothladder_received rw = plain_receive(packet, n, hop_limit, source, destination, edition);
    same_answer("receive", &r, &rw, sizeof r);
    note(r.answer, r.refusal, r.value[0]);
    accepted_in_both(p, n, hop_limit, from, to);
    check(stands(PACKET, packet, n) && stands(SOURCE, source, 16) && stands(DESTINATION, destination, 16), "reading", "all is left alone");
    if (r.answer != BROTHLADDER_RECEIVED) return;
    walks(packet + r.options_at, r.options_length, r.options_at, edition);
    pass_on(packet, n, source, destination, edition);
}

void often(const char *what, const unsigned long *counts, const char *numbers) {
    for (unsigned n; sscanf(numbers, "%u", &n) == 1; numbers += strcspn(numbers, " ") + 1) {
        char detail[60];
        snprintf(detail, sizeof detail, "%u came %lu times", n, counts[n]);
        check(counts[n] >= 100, what, detail);
        if (numbers[strcspn(numbers, " ")] == 0) break;
    }
}

void damaged(void) {
    for (int i = 0; i < PACKETS; i++) {
        uint8_t packet[LONGEST] = {0}, source[16], destination[16];
        size_t n;
        if (below(8) == 0) {
            n = below(200);
            for (size_t k = 0; k < n; k++) packet[k] = (uint8_t)chance();
            any_address(source);
            any_address(destination);
        } else {
            n = some_message(packet, source, destination);
        }
        for (uint32_t k = below(3); k > 0; k--) n = damage(packet, n);
        if (n >= 8 && below(8)) {
            unsigned sum = plain_checksum(packet, n, source, destination);
            packet[2] = (uint8_t)(sum >> 8);
            packet[3] = (uint8_t)sum;
        }
        reads(packet, n, below(8) ? 255 : (uint8_t)chance(), source, destination, some_edition());
        if (n > 8) walks(packet + 8, n - 8, some_offset(n - 8), some_edition());
        write_again(packet, n, source, destination);
    }
    often("answer", seen, "1 2 3 4 5 6 7 8 9 10 11");
    often("refusal", refusals, "1 4 5 6 7 8 9 11 18 22");
    often("reason", reasons, "1 2 3 4 5 6 7 8");
    often("kind", kinds, "0 1 2 3 4 5 24 25");
    check(first_alone >= 500, "received in the first edition alone", "often enough");
    passed_on();
}
