/* docs/RULES.md X27 to X31: MTU, link-layer addresses and redirected headers, the fixed part of a message, options that are put, and packets written in
   place. The worked cases by number, every refusal, and 100,000 by chance beside plain.c; every lent buffer between two pages that cannot be touched. */
#include "check.h"
#include "plain.h"
#include <stdio.h>
#include <string.h>

enum { SOURCE_KIND = BROTHLADDER_KIND_SOURCE_LINK_LAYER_ADDRESS, TARGET_KIND = BROTHLADDER_KIND_TARGET_LINK_LAYER_ADDRESS };

/* How often each answer came, and each refusal. */
static unsigned long answers[28], refusals[24];

static void count(uint32_t answer, uint32_t refusal) {
    answers[answer % 28]++;
    refusals[refusal % 24]++;
}

/* The three readers over some bytes, beside plain C. */
static void read_all(const uint8_t *lent, const uint8_t *bytes, size_t n, size_t offset, uint32_t kind) {
    struct brothladder_mtu m = brothladder_read_mtu(lent, n, offset), pm = plain_mtu(bytes, n, offset);
    struct brothladder_bytes l = brothladder_read_link_layer_address(lent, n, offset, kind), pl = plain_link_layer_address(bytes, n, offset, kind);
    struct brothladder_bytes r = brothladder_read_redirected_header(lent, n, offset), pr = plain_redirected_header(bytes, n, offset);
    same_answer("an MTU", &m, &pm, sizeof m);
    same_answer("a link-layer address", &l, &pl, sizeof l);
    same_answer("a redirected header", &r, &pr, sizeof r);
    count(m.answer, m.refusal);
    count(l.answer, l.refusal);
    count(r.answer, r.refusal);
}

static void options_by_number(void) {
    uint8_t b[40];
    size_t n = hex("05 01 00 00 00 00 05 dc", b);
    struct brothladder_mtu m = brothladder_read_mtu(b, n, 16);
    check(m.answer == BROTHLADDER_MTU && m.kind == 5 && m.mtu == 1500 && m.place == 16, "an MTU of 1500", "its numbers");
    m = brothladder_read_mtu(b, 7, 16);
    refuses("7 bytes", &m, sizeof m, 5, 5, 8, 7, 16, 0);
    b[1] = 2;
    m = brothladder_read_mtu(b, n, 16);
    refuses("two units", &m, sizeof m, 8, 5, 5, 1, 2, 16);
    b[0] = 3;
    m = brothladder_read_mtu(b, n, LAST_PLACE - 7);
    refuses("too far on", &m, sizeof m, 22, 0, 0, 0, 0, 0);

    n = hex("01 01 02 00 00 00 00 01", b);
    struct brothladder_bytes a = brothladder_read_link_layer_address(b, n, 8, SOURCE_KIND);
    check(a.answer == BROTHLADDER_BYTES && a.at == 2 && a.length == 6 && a.place == 8, "a source's address", "its numbers");
    a = brothladder_read_link_layer_address(b, n, 8, TARGET_KIND);
    refuses("a source's option read as a target's", &a, sizeof a, 8, 2, 1, 1, 1, 8);
    b[0] = 2;
    a = brothladder_read_link_layer_address(b, n, 8, TARGET_KIND);
    check(a.answer == BROTHLADDER_BYTES && a.at == 2 && a.length == 6, "a target's address", "its numbers");
    for (uint32_t kind = 0; kind < 600; kind++) {
        a = brothladder_read_link_layer_address(b, n, 8, kind);
        same("2 alone asks for the target's", a.answer == BROTHLADDER_BYTES, kind == 2);
    }

    n = hex("04 02 00 00 00 00 00 00 60 00 00 00 00 08 3a ff", b);
    a = brothladder_read_redirected_header(b, n, 40);
    check(a.answer == BROTHLADDER_BYTES && a.at == 8 && a.length == 8 && a.place == 40, "a redirected header", "its numbers");
    a = brothladder_read_redirected_header(b, 7, 40);
    refuses("7 bytes", &a, sizeof a, 5, 4, 8, 7, 40, 0);
    a = brothladder_read_redirected_header(b, 24, 40);
    refuses("more than it says", &a, sizeof a, 5, 4, 16, 24, 40, 0);
    b[1] = 0;
    a = brothladder_read_redirected_header(b, n, 40);
    refuses("a length of 0", &a, sizeof a, 6, 4, 40, 0, 0, 0);
    b[0] = 3;
    a = brothladder_read_redirected_header(b, n, 40);
    refuses("another type", &a, sizeof a, 8, 4, 3, 0, 0, 40);
    a = brothladder_read_redirected_header(b, n, SIZE_MAX);
    refuses("too far on", &a, sizeof a, 22, 0, 0, 0, 0, 0);
}

/* Every type with every length byte, as long as it says, a byte less and a byte more, and few bytes at offsets up to the last place and beyond. */
static void every_option(void) {
    static uint8_t bytes[8 * 255 + 1];
    for (size_t i = 0; i < sizeof bytes; i++) bytes[i] = (uint8_t)chance();
    for (int i = 0; i < 8 * 256; i++) {
        bytes[0] = (uint8_t)(i >> 8);
        bytes[1] = (uint8_t)i;
        size_t n = bytes[1] == 0 ? 8 : 8 * (size_t)bytes[1];
        for (size_t m = n - 1; m <= n + 1; m++) {
            const uint8_t *p = lend(PACKET, m % 2 ? LOW : HIGH, bytes, m);
            for (uint32_t kind = 1; kind <= 2; kind++) read_all(p, bytes, m, 16, kind);
            check(stands(PACKET, bytes, m), "an option", "is left alone");
        }
    }
    for (size_t n = 0; n <= 17; n++) {
        const size_t offsets[] = {0, 40, LAST_PLACE - n, LAST_PLACE - n + 1, SIZE_MAX - n, SIZE_MAX};
        for (size_t k = 0; k < 6 * 6; k++) {
            bytes[0] = (uint8_t)(k / 6);
            bytes[1] = (uint8_t)(n / 8);
            read_all(n ? lend(PACKET, HIGH, bytes, n) : NULL, bytes, n, offsets[k % 6], 1 + (uint32_t)(k & 1));
        }
    }
}

static void messages_by_number(void) {
    uint8_t b[64] = {134, 0, 0, 0, 64, 0, 7, 8, 0, 0, 0x75, 0x30, 0, 0, 3, 0xe8};
    struct brothladder_message m = brothladder_read_message(b, 24);
    check(m.answer == BROTHLADDER_MESSAGE && m.kind == 134 && m.fixed_length == 8 && m.options_at == 16 && m.options_length == 8,
          "an advertisement", "its places");
    check(m.reachable_time == 30000 && m.retrans_timer == 1000 && m.target_at == 0 && m.destination_at == 0, "an advertisement", "its timers");
    static const struct {
        uint8_t type;
        size_t fixed, target, destination;
    } kinds[] = {{133, 0, 0, 0}, {134, 8, 0, 0}, {135, 16, 8, 0}, {136, 16, 8, 0}, {137, 32, 8, 24}};
    for (size_t i = 0; i < 5; i++) {
        b[0] = kinds[i].type;
        for (size_t n = 0; n <= sizeof b; n++) {
            m = brothladder_read_message(n ? lend(PACKET, HIGH, b, n) : NULL, n);
            if (n < 8) refuses("a short packet", &m, sizeof m, 1, 8, n, 0, 0, 0);
            else if (n < 8 + kinds[i].fixed) refuses("a short fixed part", &m, sizeof m, 4, kinds[i].fixed, n - 8, 0, 0, 0);
            else check(m.kind == kinds[i].type && m.target_at == kinds[i].target && m.destination_at == kinds[i].destination
                           && m.options_at == 8 + kinds[i].fixed && m.options_length == n - m.options_at,
                       "a message", "its places");
        }
        b[1] = 1;
        m = brothladder_read_message(b, 9);
        check(m.answer == BROTHLADDER_MESSAGE && m.kind == 0 && m.options_at == 9 && m.options_length == 0, "another code", "has no fixed part");
        b[1] = 0;
    }
    m = brothladder_read_message(b, (size_t)LAST_PLACE + 1);
    refuses("a long packet", &m, sizeof m, 2, LAST_PLACE, (uint64_t)LAST_PLACE + 1, 0, 0, 0);
}

/* All types with two codes, every length up to a redirect's with an option. */
static void every_message(void) {
    for (int i = 0; i < 256 * 2; i++) {
        uint8_t b[56];
        for (size_t k = 0; k < sizeof b; k++) b[k] = (uint8_t)chance();
        b[0] = (uint8_t)i;
        b[1] = (uint8_t)(i >> 8);
        for (size_t n = 0; n <= sizeof b; n++) {
            const uint8_t *p = n ? lend(PACKET, n % 2 ? LOW : HIGH, b, n) : NULL;
            struct brothladder_message m = brothladder_read_message(p, n), w = plain_message(b, n);
            same_answer("a message", &m, &w, sizeof m);
            count(m.answer, m.refusal);
            if (n) check(stands(PACKET, b, n), "a message", "is left alone");
        }
    }
}

/* One of the three options: its bytes by hand, and put by the library or by plain C. */
static struct brothladder_written put(int plain, uint32_t which, const uint8_t *chosen, uint8_t *out, size_t room, size_t at, uint8_t *option, size_t *length) {
    uint32_t n = (uint32_t)chosen[4] << 24 | (uint32_t)chosen[5] << 16 | (uint32_t)chosen[6] << 8 | chosen[7];
    uint32_t o = (uint32_t)chosen[8] << 24 | (uint32_t)chosen[9] << 16 | (uint32_t)chosen[10] << 8 | chosen[11];
    memset(option, 0, 32);
    *length = 8;
    switch (which) {
    case 0: /* 03 04 length flags, the lifetimes, 4 reserved bytes, the prefix */
        *length = 32;
        option[0] = 3, option[1] = 4, option[2] = chosen[2];
        option[3] = (uint8_t)((chosen[0] ? 0x80 : 0) | (chosen[1] ? 0x40 : 0));
        memcpy(option + 4, chosen + 4, 8);
        memcpy(option + 16, chosen + 16, 16);
        return plain ? plain_put_prefix(chosen[2], (uint16_t)(chosen[0] << 8), chosen[1], n, o, chosen + 16, out, room, at)
                     : brothladder_put_prefix(chosen[2], (uint16_t)(chosen[0] << 8), chosen[1], n, o, chosen + 16, out, room, at);
    case 1: /* 05 01 00 00, the MTU */
        option[0] = 5, option[1] = 1;
        memcpy(option + 4, chosen + 4, 4);
        return plain ? plain_put_mtu(n, out, room, at) : brothladder_put_mtu(n, out, room, at);
    default: /* 01 or 02, 01, the address */
        option[0] = which == TARGET_KIND ? 2 : 1, option[1] = 1;
        memcpy(option + 2, chosen + 4, 6);
        return plain ? plain_put_link_layer_address(which, chosen + 4, out, room, at) : brothladder_put_link_layer_address(which, chosen + 4, out, room, at);
    }
}

/* What was put walks to END in each edition, and is read back. */
static void read_back(const uint8_t *option, size_t n, const uint8_t *chosen) {
    for (uint32_t edition = 1; edition <= 2; edition++) {
        struct brothladder_stepped s = brothladder_step(option, n, 0, 0, edition);
        check(s.answer == BROTHLADDER_OPTION && s.kind == option[0] && s.length == n, "an option that was put", "is handed out");
        same("and then the end", brothladder_step(option, n, 0, s.next, edition).answer, BROTHLADDER_END);
    }
    if (option[0] == 3) {
        struct brothladder_prefix p = brothladder_read_prefix(option, n, 0);
        check(p.answer == BROTHLADDER_PREFIX && p.prefix_length == chosen[2] && p.on_link == (chosen[0] != 0) && p.autonomous == (chosen[1] != 0)
                  && memcmp(p.prefix, chosen + 16, 16) == 0,
              "a prefix", "is read back");
    } else if (option[0] == 5) {
        same("an MTU is read back", brothladder_read_mtu(option, n, 0).mtu,
             (uint32_t)chosen[4] << 24 | (uint32_t)chosen[5] << 16 | (uint32_t)chosen[6] << 8 | chosen[7]);
    } else {
        struct brothladder_bytes b = brothladder_read_link_layer_address(option, n, 0, option[0]);
        check(b.length == 6 && memcmp(option + b.at, chosen + 4, 6) == 0, "an address", "is read back");
    }
}

/* Every place of buffers of every size up to 48, and places far beyond; what stands before and behind stays. */
static void every_put(void) {
    for (size_t room = 0; room <= 48; room++) {
        for (size_t k = 0; k < 4 * (room + 4); k++) {
            const size_t beyond[] = {room + 1, SIZE_MAX - 8, SIZE_MAX};
            size_t at = k / 4 <= room ? k / 4 : beyond[k / 4 - room - 1], length;
            uint8_t chosen[32], before[48], wanted[48], plainly[48], option[32];
            for (size_t i = 0; i < sizeof chosen; i++) chosen[i] = below(2) ? (uint8_t)chance() : 0;
            for (size_t i = 0; i < sizeof before; i++) before[i] = (uint8_t)chance();
            memcpy(wanted, before, sizeof wanted);
            memcpy(plainly, before, sizeof plainly);
            uint8_t *out = lend(OUT, room % 2 ? LOW : HIGH, before, room);
            struct brothladder_written w = put(0, (uint32_t)(k % 4), chosen, room ? out : NULL, room, at, option, &length);
            struct brothladder_written pw = plain_put(option, length, wanted, room, at);
            struct brothladder_written qw = put(1, (uint32_t)(k % 4), chosen, plainly, room, at, option, &length);
            same_answer("a put", &w, &pw, sizeof w);
            same_answer("a put by plain C", &qw, &pw, sizeof w);
            check(memcmp(plainly, wanted, sizeof wanted) == 0, "a put by plain C", "its bytes and no other");
            count(w.answer, w.refusal);
            check(stands(OUT, wanted, room), "a put", "its bytes and no other");
            if (w.answer == BROTHLADDER_WRITTEN) read_back(out + at, length, chosen);
        }
    }
}

/* A packet in place, the same into another buffer, and the same by plain C. */
static void in_place(const uint8_t *packet, size_t n, const uint8_t head[8], int clearing, const uint8_t *source, const uint8_t *destination,
                     uint32_t edition) {
    static uint8_t other[65536 + 16], wanted[65536 + 16], plainly[65536 + 16];
    uint32_t rest = (uint32_t)head[4] << 24 | (uint32_t)head[5] << 16 | (uint32_t)head[6] << 8 | head[7];
    const uint8_t *payload = n > 8 ? packet + 8 : NULL;
    size_t length = n > 8 ? n - 8 : 0, room = n < 8 ? n : sizeof other;
    if (n > 0) memcpy(wanted, packet, n), memcpy(plainly, packet, n);
    uint8_t *p = lend(PACKET, n % 2 ? LOW : HIGH, packet, n);
    const uint8_t *from = lend(SOURCE, HIGH, source, 16), *to = lend(DESTINATION, LOW, destination, 16);
    struct brothladder_written w, o, plain, before;
    if (clearing) {
        w = brothladder_write_in_place_clearing(head[0], head[1], rest, n ? p : NULL, n, from, to, edition);
        o = brothladder_write_clearing(head[0], head[1], rest, payload, length, source, destination, other, room, edition);
        plain = plain_write_clearing(head[0], head[1], rest, payload, length, source, destination, wanted, n, edition);
        before = plain_write_in_place_clearing(head[0], head[1], rest, plainly, n, source, destination, edition);
    } else {
        w = brothladder_write_in_place(head[0], head[1], rest, n ? p : NULL, n, from, to, edition);
        o = brothladder_write(head[0], head[1], rest, payload, length, source, destination, other, room, edition);
        plain = plain_write(head[0], head[1], rest, payload, length, source, destination, wanted, n, edition);
        before = plain_write_in_place(head[0], head[1], rest, plainly, n, source, destination, edition);
    }
    same_answer("in place as into another buffer", &w, &o, sizeof w);
    same_answer("in place as by plain C", &w, &plain, sizeof w);
    same_answer("in place as by plain C in place", &w, &before, sizeof w);
    check(memcmp(plainly, wanted, n) == 0, "in place", "the packet of plain C in place");
    count(w.answer, w.refusal);
    check(stands(PACKET, wanted, n), "in place", "the packet of plain C, or as it was");
    if (w.answer == BROTHLADDER_WRITTEN) check(w.length == n && memcmp(p, other, n) == 0, "in place", "the packet of the other buffer");
    check(stands(SOURCE, source, 16) && stands(DESTINATION, destination, 16), "in place", "the addresses are left alone");
}

static void in_place_by_number(void) {
    /* P11, with garbage where the head goes */
    uint8_t b[16], p[16];
    hex("11 22 33 44 55 66 77 88 01 01 02 00 00 00 00 01", b);
    memcpy(p, b, 16);
    struct brothladder_written w = brothladder_write_in_place(133, 0, 0, p, 16, router, all_routers, 2);
    static const uint8_t head[8] = {133, 0, 0x7a, 0x2c};
    check(w.answer == BROTHLADDER_WRITTEN && w.length == 16 && memcmp(p, head, 8) == 0 && memcmp(p + 8, b + 8, 8) == 0, "P11", "in place");
    for (size_t n = 0; n < 8; n++) {
        w = brothladder_write_in_place(128, 0, 0, n ? lend(PACKET, HIGH, b, n) : NULL, n, router, all_routers, 1);
        refuses("no room for a head", &w, sizeof w, 9, 8, 0, 0, 0, 0);
        w = brothladder_write_in_place_clearing(135, 0, 0, n ? lend(PACKET, HIGH, b, n) : NULL, n, router, all_routers, 1);
        refuses("no fixed part, which is tested before", &w, sizeof w, 4, 16, 0, 0, 0, 0);
    }
    w = brothladder_write_in_place(133, 0, 0, p, 15, router, all_routers, 1);
    refuses("an option cut short", &w, sizeof w, 7, 1, 8, 7, 8, 0);
    static uint8_t longest[65536];
    w = brothladder_write_in_place(128, 0, 0, longest, 65535, router, all_routers, 1);
    same("65,535 bytes", w.length, 65535);
    same("validate", brothladder_verify(longest, 65535, router, all_routers).answer, BROTHLADDER_VALID);
    w = brothladder_write_in_place(128, 0, 0, longest, 65536, router, all_routers, 1);
    refuses("one more", &w, sizeof w, 3, 65527, 65528, 0, 0, 0);
}

/* Messages with options, damaged, in place and read. */
static void by_chance(void) {
    static const uint8_t types[] = {133, 134, 135, 136, 137, 128, 1, 200};
    static const size_t fixed[] = {0, 8, 16, 16, 32, 0, 0, 0};
    for (int i = 0; i < PACKETS; i++) {
        uint8_t packet[LONGEST] = {0}, head[8], source[16], destination[16];
        uint32_t k = below(8);
        for (size_t j = 0; j < 8 + fixed[k]; j++) packet[j] = (uint8_t)chance();
        for (size_t j = 0; j < 16; j++) source[j] = (uint8_t)chance(), destination[j] = (uint8_t)chance();
        for (size_t j = 0; j < 8; j++) head[j] = (uint8_t)chance();
        head[0] = types[k];
        head[1] = below(4) ? 0 : (uint8_t)below(3);
        size_t n = 8 + fixed[k] + some_options(packet + 8 + fixed[k]);
        for (uint32_t d = below(3); d > 0; d--) n = damage(packet, n);
        in_place(packet, n, head, (int)below(2), source, destination, some_edition());
        if (n > 1 && below(2)) packet[0] = types[k], packet[1] = head[1];
        const uint8_t *p = lend(PACKET, below(2) ? LOW : HIGH, packet, n);
        struct brothladder_message m = brothladder_read_message(n ? p : NULL, n), w = plain_message(packet, n);
        same_answer("a message", &m, &w, sizeof m);
        count(m.answer, m.refusal);
        if (n > 8) read_all(p + 8, packet + 8, n - 8, below(2) ? 8 : (size_t)chance(), 1 + below(2));
    }
}

void parts(void) {
    options_by_number();
    every_option();
    messages_by_number();
    every_message();
    every_put();
    in_place_by_number();
    by_chance();
    often("answer", answers, "1 10 25 26 27");
    often("refusal", refusals, "1 4 5 6 7 8 9 18 22");
}
