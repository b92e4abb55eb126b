/* The packet writer, in each edition: its refusals, its limits, what it touches, and every message that damaged.c makes written again, each way. */
#include "check.h"
#include "plain.h"
#include <stdio.h>
#include <string.h>

/* The default, which keeps, and both ways by their names; and the same in plain C. */
enum way { DEFAULT, CLEARING, KEEPING, WAYS };

static struct brothladder_written by(enum way way, const uint8_t head[8], const uint8_t *payload, size_t n, const uint8_t *source,
                                     const uint8_t *destination, uint8_t *out, size_t room, uint32_t edition) {
    uint32_t rest = (uint32_t)head[4] << 24 | (uint32_t)head[5] << 16 | (uint32_t)head[6] << 8 | head[7];
    switch (way) {
    case CLEARING: return brothladder_write_clearing(head[0], head[1], rest, payload, n, source, destination, out, room, edition);
    case KEEPING: return brothladder_write_keeping(head[0], head[1], rest, payload, n, source, destination, out, room, edition);
    default: return brothladder_write(head[0], head[1], rest, payload, n, source, destination, out, room, edition);
    }
}

static struct brothladder_written plain_by(enum way way, const uint8_t head[8], const uint8_t *payload, size_t n, const uint8_t *source,
                                           const uint8_t *destination, uint8_t *out, size_t room, uint32_t edition) {
    uint32_t rest = (uint32_t)head[4] << 24 | (uint32_t)head[5] << 16 | (uint32_t)head[6] << 8 | head[7];
    return way == CLEARING ? plain_write_clearing(head[0], head[1], rest, payload, n, source, destination, out, room, edition)
                           : plain_write(head[0], head[1], rest, payload, n, source, destination, out, room, edition);
}

/* The refusals of a walk come behind the fixed part too; whatever is refused, the output stays. */
static void write_refused(uint32_t edition) {
    uint8_t b[64] = {0}, out[80], before[80];
    memset(out, 0x11, sizeof out);
    memcpy(before, out, sizeof out);
    struct brothladder_written w = brothladder_write(135, 0, 0, none, 15, router, all_routers, out, sizeof out, edition);
    refuses("P14", &w, sizeof w, 4, 16, 15, 0, 0, 0);
    for (size_t i = 0; i < (edition == BROTHLADDER_EDITION_SECOND ? BAD_OPTIONS : BAD_IN_BOTH); i++) {
        size_t n = hex(bad_options[i].bytes, b + 8);
        w = brothladder_write(134, 0, 0, b, 8 + n, router, all_routers, out, sizeof out, edition);
        refuses_option(&w, sizeof w, &bad_options[i], 16);
    }
    /* 01 00 behind the fixed part: 6 (1, place), and the place counts from the packet's first byte */
    static const size_t places[] = {8, 16, 24, 24, 40};
    memset(b, 0, sizeof b);
    for (size_t i = 0; i < 5; i++) {
        b[places[i] - 8] = 1;
        w = brothladder_write((uint8_t)(133 + i), 0, 0, b, places[i] - 8 + 2, router, all_routers, out, sizeof out, edition);
        refuses("a length of 0 behind the fixed part", &w, sizeof w, 6, 1, places[i], 0, 0, 0);
        b[places[i] - 8] = 0;
    }
    w = brothladder_write(128, 0, 0, b, 16, router, all_routers, out, 23, edition);
    refuses("23 bytes for 24", &w, sizeof w, 9, 24, 0, 0, 0, 0);
    check(memcmp(out, before, sizeof out) == 0, "refused", "the output is left alone");
}

static void write_empty(uint32_t edition) {
    uint8_t out[8];
    struct brothladder_written w = brothladder_write(128, 0, 0, NULL, 0, router, router, NULL, 0, edition);
    refuses("write into nothing", &w, sizeof w, 9, 8, 0, 0, 0, 0);
    w = brothladder_write(128, 0, 0x00010002, NULL, 0, router, router, out, 8, edition);
    same("write of no payload", w.answer, BROTHLADDER_WRITTEN);
    same("its length", w.length, 8);
}

static void write_longest(uint32_t edition) {
    static uint8_t b[65536], out[65536 + 8];
    for (size_t i = 0; i < sizeof b; i++) b[i] = (uint8_t)chance();
    struct brothladder_written w = brothladder_write(128, 0, 0, b, 65527, router, all_routers, out, sizeof out, edition);
    same("65,535 bytes", w.length, 65535);
    check(memcmp(out + 8, b, 65527) == 0 && out[65535] == 0, "65,535 bytes", "the payload and no more");
    same("validate", brothladder_verify(out, w.length, router, all_routers).answer, BROTHLADDER_VALID);
    w = brothladder_write(128, 0, 0, b, 65528, router, all_routers, out, sizeof out, edition);
    refuses("one more", &w, sizeof w, 3, 65527, 65528, 0, 0, 0);
    w = brothladder_write(128, 0, 0, b, 65527, router, all_routers, out, 65534, edition);
    refuses("no room for it", &w, sizeof w, 9, 65535, 0, 0, 0, 0);
}

/* All types with all codes, bytes 4 to 7 all ones and all zeros, each way. */
static void write_pairs(uint32_t edition) {
    for (int i = 0; i < 65536 * 2 * WAYS; i++) {
        uint8_t out[40] = {0}, wanted[40] = {0}, head[8] = {(uint8_t)(i >> 8), (uint8_t)i};
        enum way way = (enum way)(i >> 17);
        memset(head + 4, i >> 16 & 1 ? 0xff : 0, 4);
        struct brothladder_written w = by(way, head, NULL, 0, router, all_routers, out, sizeof out, edition);
        struct brothladder_written ww = plain_by(way, head, NULL, 0, router, all_routers, wanted, sizeof wanted, edition);
        same_answer("written", &w, &ww, sizeof w);
        check(memcmp(out, wanted, sizeof out) == 0, "the bytes written", "");
    }
}

/* A head with one bit of bytes 4 to 7, read and written: by the default it comes back whole, cleared without that bit where it is reserved (H8). */
static unsigned reserved_bits(uint8_t type, size_t fixed, uint32_t edition) {
    unsigned reserved = 0;
    for (int bit = 0; bit < 32; bit++) {
        uint8_t came[40] = {type}, kept[40] = {0}, cleared[40] = {0};
        came[4 + bit / 8] = (uint8_t)(0x80 >> bit % 8);
        unsigned sum = plain_checksum(came, 8 + fixed, router, all_routers);
        came[2] = (uint8_t)(sum >> 8);
        came[3] = (uint8_t)sum;
        struct brothladder_head h = brothladder_decode(came, 8 + fixed);
        struct brothladder_written w = brothladder_write(h.type, h.code, h.bytes5to8, came + 8, fixed, router, all_routers, kept, sizeof kept, edition);
        same("kept", w.length, 8 + fixed);
        check(memcmp(kept, came, 8) == 0, "kept", "the eight bytes that came");
        w = brothladder_write_clearing(h.type, h.code, h.bytes5to8, came + 8, fixed, router, all_routers, cleared, sizeof cleared, edition);
        same("cleared", w.length, 8 + fixed);
        reserved += cleared[4 + bit / 8] == 0;
    }
    return reserved;
}

static const struct {
    uint8_t type;
    uint8_t fixed; /* the bytes behind the head that the type needs */
    unsigned reserved;
} bits_of[] = {{1, 0, 32}, {2, 0, 0}, {3, 0, 32}, {4, 0, 0}, {128, 0, 0}, {129, 0, 0}, {133, 0, 32}, {134, 8, 6}, {135, 16, 32}, {136, 16, 29}, {137, 32, 32}, {200, 0, 0}};

static void write_bits(uint32_t edition) {
    for (size_t i = 0; i < sizeof bits_of / sizeof *bits_of; i++) {
        char name[32];
        snprintf(name, sizeof name, "reserved bits of %u", bits_of[i].type);
        same(name, reserved_bits(bits_of[i].type, bits_of[i].fixed, edition), bits_of[i].reserved);
    }
}

/* The checksum of one way does not go with the bytes of the other (docs/RULES.md S11). */
static void write_mixed(uint32_t edition) {
    uint8_t kept[16], cleared[16];
    struct brothladder_written w = brothladder_write(134, 0, 0x40080708, none, 8, none, none, kept, sizeof kept, edition);
    same("kept", w.answer, BROTHLADDER_WRITTEN);
    w = brothladder_write_clearing(134, 0, 0x40080708, none, 8, none, none, cleared, sizeof cleared, edition);
    same("cleared", w.answer, BROTHLADDER_WRITTEN);
    check(kept[2] == 0x32 && kept[3] == 0xa5 && kept[5] == 8, "kept", "86 00 32 a5 40 08 07 08");
    check(cleared[2] == 0x32 && cleared[3] == 0xad && cleared[5] == 0, "cleared", "86 00 32 ad 40 00 07 08");
    kept[3] = 0xad;
    cleared[3] = 0xa5;
    same("kept bits, the checksum of clearing", brothladder_verify(kept, 16, none, none).answer, BROTHLADDER_INVALID);
    same("no kept bits, the checksum of keeping", brothladder_verify(cleared, 16, none, none).answer, BROTHLADDER_INVALID);
}

/* E10: what is written in the second edition is written in the first, the same bytes. */
static void written_in_both(enum way way, const uint8_t *packet, size_t n, const uint8_t *source, const uint8_t *destination, const uint8_t *out) {
    uint8_t again[LONGEST];
    struct brothladder_written w = by(way, packet, packet + 8, n - 8, source, destination, again, sizeof again, BROTHLADDER_EDITION_FIRST);
    same("written in the second edition, and in the first", w.length, n);
    check(memcmp(again, out, n) == 0, "written in the second edition, and in the first", "the same bytes");
}

static void write_by(enum way way, const uint8_t *packet, size_t n, const uint8_t *source, const uint8_t *destination) {
    uint8_t out[LONGEST], wanted[LONGEST];
    uint32_t edition = some_edition();
    size_t room = below(8) ? n + below(40) : below((uint32_t)n + 1);
    for (size_t i = 0; i < room; i++) wanted[i] = out[i] = (uint8_t)chance();
    enum side side = below(2) ? LOW : HIGH;
    const uint8_t *p = lend(PACKET, side, packet + 8, n - 8), *from = lend(SOURCE, side, source, 16), *to = lend(DESTINATION, side, destination, 16);
    uint8_t *o = lend(OUT, side, out, room);
    struct brothladder_written w = by(way, packet, p, n - 8, from, to, o, room, edition);
    struct brothladder_written ww = plain_by(way, packet, packet + 8, n - 8, source, destination, wanted, room, edition);
    same_answer("write", &w, &ww, sizeof w);
    note(w.answer, w.refusal, 0);
    check(stands(OUT, wanted, room), "write", "the output holds the packet, then what it held");
    check(stands(PACKET, packet + 8, n - 8) && stands(SOURCE, source, 16) && stands(DESTINATION, destination, 16), "write", "all else is left alone");
    if (w.answer != BROTHLADDER_WRITTEN) return;
    same("written validates", brothladder_verify(o, w.length, from, to).answer, BROTHLADDER_VALID);
    if (edition == BROTHLADDER_EDITION_SECOND) written_in_both(way, packet, n, source, destination, o);
    struct brothladder_head came = brothladder_decode(packet, n), went = brothladder_decode(o, w.length);
    went.checksum = came.checksum;
    if (way == CLEARING) went.bytes5to8 = came.bytes5to8; /* what is left of it stands in `wanted` */
    same_answer("write then read", &went, &came, sizeof went);
}

void write_again(const uint8_t *packet, size_t n, const uint8_t *source, const uint8_t *destination) {
    if (n < 8) return;
    for (int way = DEFAULT; way < WAYS; way++) write_by((enum way)way, packet, n, source, destination);
}

void writes(void) {
    same("written has no hole", sizeof(struct brothladder_written), 48 + sizeof(size_t));
    for (uint32_t edition = BROTHLADDER_EDITION_FIRST; edition <= BROTHLADDER_EDITION_SECOND; edition++) {
        write_refused(edition);
        write_empty(edition);
        write_longest(edition);
        write_pairs(edition);
        write_bits(edition);
        write_mixed(edition);
    }
}
