/* The worked cases P1 to P13 of docs/RULES.md, every refusal with its numbers, and the edges: no bytes, the longest packets, places beyond the end,
   offsets beyond the longest packet. In each edition, but for what does not walk. */
#define _GNU_SOURCE
#include "check.h"
#include "plain.h"
#include <stdio.h>
#include <string.h>
#include <sys/mman.h>

enum { FIRST = BROTHLADDER_EDITION_FIRST, SECOND = BROTHLADDER_EDITION_SECOND };

const uint8_t none[16], router[16] = {0xfe, 0x80, [15] = 1}, all_routers[16] = {0xff, 0x02, [15] = 2};
static const uint8_t global[16] = {0x20, 0x01, 0x0d, 0xb8, [15] = 1}, other[16] = {0xfe, 0x80, [15] = 2};
static const uint8_t solicited[16] = {0xff, 0x02, [11] = 1, 0xff, 0, 0, 1};

const struct bad_option bad_options[BAD_OPTIONS] = {
    {"01", 5, {1, 2, 1}},
    {"fe", 5, {254, 2, 1}},
    {"01 00", 6, {1}},
    {"fd 00 00 00 00 00 00 00", 6, {253}},
    {"01 01 00 00 00 00 00", 7, {1, 8, 7}},
    {"03 01", 7, {3, 8, 2}},
    {"ff ff 00 00 00 00 00 00", 7, {255, 2040, 8}},
    {"03 01 00 00 00 00 00 00", 5, {3, 32, 8}},
    {"05 02 00 00 00 00 00 00 00 00 00 00 00 00 00 00", 5, {5, 8, 16}},
    {"18 01 01 00 00 00 00 00", 5, {24, 16, 8}},
    {"18 02 41 00 00 00 00 00 00 00 00 00 00 00 00 00", 5, {24, 24, 16}},
    {"18 04 ff 00 00 00 00 00 00 00 00 00 00 00 00 00 00 00 00 00 00 00 00 00 00 00 00 00 00 00 00 00", 5, {24, 24, 32}},
    {"18 01 81 00 00 00 00 00", 18, {0}},
    {"18 03 81 10 00 00 00 00 00 00 00 00 00 00 00 00 00 00 00 00 00 00 00 00", 18, {0}},
    {"19 01 00 00 00 00 00 00", 5, {25, 24, 8}},
    {"19 04 00 00 00 00 00 00 00 00 00 00 00 00 00 00 00 00 00 00 00 00 00 00 00 00 00 00 00 00 00 00", 5, {25, 24, 32}},
};

size_t hex(const char *text, uint8_t *bytes) {
    size_t n = 0;
    for (unsigned x; sscanf(text, "%2x", &x) == 1; text += text[2] ? 3 : 2) bytes[n++] = (uint8_t)x;
    return n;
}

void refuses(const char *what, const void *answer, size_t size, uint32_t number, uint64_t v0, uint64_t v1, uint64_t v2, uint64_t v3,
             uint64_t v4) {
    struct refused r, wanted = {BROTHLADDER_REFUSED, number, {v0, v1, v2, v3, v4}};
    static const uint8_t rest[64];
    memcpy(&r, answer, sizeof r);
    same_answer(what, &r, &wanted, sizeof r);
    check(memcmp((const uint8_t *)answer + sizeof r, rest, size - sizeof r) == 0, what, "other numbers are 0");
}

void refuses_option(const void *answer, size_t size, const struct bad_option *option, uint64_t place) {
    uint64_t v[4] = {option->value[0], option->value[1], option->value[2]};
    v[option->number == 18 ? 0 : option->number == 6 ? 1 : 3] = place;
    refuses(option->bytes, answer, size, option->number, v[0], v[1], v[2], v[3], 0);
}

/* of a step: all but `next` is 0, and that is beyond the bytes */
static void step_refuses(const char *what, struct brothladder_stepped s, size_t length, uint32_t number, uint64_t v0, uint64_t v1, uint64_t v2,
                         uint64_t v3) {
    same(what, s.next, length + 1);
    s.next = 0;
    refuses(what, &s, sizeof s, number, v0, v1, v2, v3, 0);
}

static void layout(void) {
    same("head has no hole", sizeof(struct brothladder_head), 48 + 1 + 1 + 2 + 4 + 16);
    same("verified has no hole", sizeof(struct brothladder_verified), 48);
    same("stepped has no hole", sizeof(struct brothladder_stepped), 48 + 4 + 4 + 4 * sizeof(size_t));
    same("received has no hole", sizeof(struct brothladder_received), 48 + 2 * sizeof(size_t));
    same("prefix has no hole", sizeof(struct brothladder_prefix), 48 + 4 + 2 + 2 + 4 + 4 + 16 + sizeof(size_t));
    same("route has no hole", sizeof(struct brothladder_route), 48 + 2 + 2 + 4 + 16 + sizeof(size_t));
    same("servers has no hole", sizeof(struct brothladder_servers), 48 + 8 + 2 * sizeof(size_t));
    same("preferred has no hole", sizeof(struct brothladder_preferred), 48 + 8);
    same("chain has no hole", sizeof(struct brothladder_chain), 48 + 4 + 4 + 8 * 4 + 8 + 8);
    const uint32_t answers[] = {BROTHLADDER_REFUSED, BROTHLADDER_KNOWN, BROTHLADDER_UNKNOWN, BROTHLADDER_VALID, BROTHLADDER_INVALID,
                                BROTHLADDER_OPTION, BROTHLADDER_END, BROTHLADDER_STOPPED, BROTHLADDER_RECEIVED, BROTHLADDER_WRITTEN,
                                BROTHLADDER_PREFIX, BROTHLADDER_CHAIN, BROTHLADDER_ROUTE, BROTHLADDER_IGNORED, BROTHLADDER_SERVERS,
                                BROTHLADDER_PREFERENCE};
    for (size_t i = 0; i < sizeof answers / sizeof *answers; i++) {
        check(answers[i] != 0, "no answer is 0", "");
        for (size_t j = 0; j < i; j++) check(answers[i] != answers[j], "two answers differ", "");
    }
    same("the version", brothladder_version_6(), BROTHLADDER_VERSION);
}

static void worked(uint32_t edition) {
    uint8_t b[64];
    size_t n;

    struct brothladder_head h = brothladder_decode((const uint8_t *)"\x85\0\0\0\0\0\0", 7);
    refuses("P1", &h, sizeof h, 1, 8, 7, 0, 0, 0);
    n = hex("80 01 12 34 56 78 9a bc", b);
    h = brothladder_decode(b, n);
    same("P2", h.answer, BROTHLADDER_UNKNOWN);
    same("P2 type", h.type, 128);
    same("P2 code", h.code, 1);
    same("P2 checksum", h.checksum, 0x1234);
    same("P2 bytes 4 to 7", h.field[BROTHLADDER_FIELD_BYTES], 0x56789abc);
    same("P2 as they stand", h.bytes5to8, 0x56789abc);
    n = hex("02 00 00 00 00 00 05 00", b);
    h = brothladder_decode(b, n);
    same("P3", h.answer, BROTHLADDER_KNOWN);
    same("P3 type", h.type, BROTHLADDER_TYPE_PACKET_TOO_BIG);
    same("P3 MTU", h.field[BROTHLADDER_FIELD_MTU], 1280);
    same("P3 bytes 4 to 7", h.bytes5to8, 1280);

    struct brothladder_prefix p;
    for (size_t offset = 0; offset <= 8; offset += 8) {
        same("P4", brothladder_step(NULL, 0, offset, 0, edition).answer, BROTHLADDER_END);
        struct brothladder_stepped s = brothladder_step((const uint8_t *)"\1", 1, offset, 0, edition);
        step_refuses("P5", s, 1, 5, 1, 2, 1, offset);
        same("P5, then", brothladder_step((const uint8_t *)"\1", 1, offset, s.next, edition).answer, BROTHLADDER_STOPPED);
        n = hex("01 00", b);
        step_refuses("P6", brothladder_step(b, n, offset, 0, edition), n, 6, 1, offset, 0, 0);
        n = hex("01 02 00 00 00 00 00 00", b);
        step_refuses("P7", brothladder_step(b, n, offset, 0, edition), n, 7, 1, 16, 8, offset);
        memset(b, 0, sizeof b);
        n = hex("03 03", b);
        p = brothladder_read_prefix(b, 24, offset);
        refuses("P8", &p, sizeof p, 5, 3, 32, 24, offset, 0);
    }
    n = hex("03 04 40 c0 00 01 51 80 00 00 38 40 00 00 00 00 20 01 0d b8 00 00 00 00 00 00 00 00 00 00 00 00", b);
    for (int i = 0; i < 2; i++, b[3] = 0xff) {
        p = brothladder_read_prefix(b, n, 16);
        same("P9, P10", p.answer, BROTHLADDER_PREFIX);
        same("P9, P10 place", p.place, 16);
        same("P9, P10 length", p.prefix_length, 64);
        check(p.on_link == 1 && p.autonomous == 1, "P9, P10 flags", "");
        same("P9, P10 valid", p.valid_lifetime, 86400);
        same("P9, P10 preferred", p.preferred_lifetime, 14400);
        check(memcmp(p.prefix, b + 16, 16) == 0, "P9, P10 prefix", "");
    }

    n = hex("85 00 7a 2c 00 00 00 00 01 01 02 00 00 00 00 01", b);
    same("P11", brothladder_verify(b, n, router, all_routers).answer, BROTHLADDER_VALID);
    b[3] = 0x2d;
    same("P12", brothladder_verify(b, n, router, all_routers).answer, BROTHLADDER_INVALID);
    n = hex("80 00 00 00 7f bd 00 00", b);
    same("P13", brothladder_verify(b, n, none, none).answer, BROTHLADDER_VALID);
    b[2] = b[3] = 0xff;
    same("P13, the other zero", brothladder_verify(b, n, none, none).answer, BROTHLADDER_VALID);
}

/* the two packets of the listing in docs/RULES.md */
static void dumped(uint32_t edition) {
    uint8_t b[64];
    size_t n = hex("85 00 7a 2c 00 00 00 00 01 01 02 00 00 00 00 01", b);
    struct brothladder_received r = brothladder_receive(b, n, 255, router, all_routers, edition);
    same("first packet", r.answer, BROTHLADDER_RECEIVED);
    same("its options begin at", r.options_at, 8);
    same("their bytes", r.options_length, 8);
    struct brothladder_stepped s = brothladder_step(b + r.options_at, r.options_length, r.options_at, 0, edition);
    same("its option", s.answer, BROTHLADDER_OPTION);
    check(s.kind == BROTHLADDER_KIND_SOURCE_LINK_LAYER_ADDRESS && s.type == 1 && s.at == 0 && s.length == 8 && s.next == 8 && s.place == 8, "opt 8 type 1 bytes 8", "");
    s = brothladder_step(b + r.options_at, r.options_length, r.options_at, s.next, edition);
    same("its end", s.answer, BROTHLADDER_END);
    same("END stays", brothladder_step(b + r.options_at, r.options_length, r.options_at, s.next, edition).answer, BROTHLADDER_END);
    n = hex("85 00 7a 2d 00 00 00 00 01 00 02 00 00 00 00 01", b);
    r = brothladder_receive(b, n, 255, router, all_routers, edition);
    refuses("second packet", &r, sizeof r, 11, BROTHLADDER_REASON_OPTIONS, 0, 0, 0, 0);
    step_refuses("its option", brothladder_step(b + 8, n - 8, 8, 0, edition), n - 8, 6, 1, 8, 0, 0);
}

/* A packet with its checksum set, and the reason that the receive check gives; 0 for none. */
static void reason(uint8_t *b, size_t n, uint8_t hop_limit, const uint8_t *source, const uint8_t *destination, uint32_t edition, uint32_t wanted) {
    char what[40];
    unsigned sum = plain_checksum(b, n, source, destination);
    b[2] = (uint8_t)(sum >> 8);
    b[3] = (uint8_t)sum;
    snprintf(what, sizeof what, "type %d, reason %u", b[0], wanted);
    struct brothladder_received r = brothladder_receive(b, n, hop_limit, source, destination, edition);
    if (wanted == 0)
        same(what, r.answer, BROTHLADDER_RECEIVED);
    else
        refuses(what, &r, sizeof r, 11, wanted, 0, 0, 0, 0);
}

/* RFC 4291, section 2.4: fe80::/10 is link-local. Such a source of a router advertisement and a redirect, and such a target of a redirect whose
   destination field is another address. */
static void link_local(uint32_t edition) {
    static const struct { uint8_t first, second, local; } kinds[] = {{0xfe, 0x7f, 0}, {0xfe, 0x80, 1}, {0xfe, 0x8f, 1}, {0xfe, 0x90, 1}, {0xfe, 0xbf, 1},
                                                                     {0xfe, 0xc0, 0}, {0xfe, 0xff, 0}, {0xfd, 0x80, 0}, {0xff, 0x80, 0}};
    uint8_t advertisement[16] = {134}, redirect[40] = {137}, address[16] = {[15] = 1};
    memcpy(redirect + 24, global, 16);
    for (size_t i = 0; i < sizeof kinds / sizeof *kinds; i++) {
        address[0] = kinds[i].first;
        address[1] = kinds[i].second;
        reason(advertisement, 16, 255, address, all_routers, edition, kinds[i].local ? 0 : BROTHLADDER_REASON_ADDRESSES);
        memcpy(redirect + 8, other, 16);
        reason(redirect, 40, 255, address, other, edition, kinds[i].local ? 0 : BROTHLADDER_REASON_ADDRESSES);
        memcpy(redirect + 8, address, 16);
        reason(redirect, 40, 255, router, other, edition, kinds[i].local ? 0 : BROTHLADDER_REASON_TARGET);
        reason(redirect, 40, 255, global, other, edition, BROTHLADDER_REASON_ADDRESSES);
    }
    /* the source will do, and the target will not */
    address[0] = 0xfe;
    address[1] = 0x90;
    memcpy(redirect + 8, global, 16);
    redirect[23] = 9;
    reason(redirect, 40, 255, address, other, edition, BROTHLADDER_REASON_TARGET);
    /* every first two bytes of a source */
    for (unsigned pair = 0; pair < 65536; pair++) {
        address[0] = (uint8_t)(pair >> 8);
        address[1] = (uint8_t)pair;
        reason(advertisement, 16, 255, address, all_routers, edition, pair >> 6 == 0xfe80 >> 6 ? 0 : BROTHLADDER_REASON_ADDRESSES);
    }
}

static void reasons(uint32_t edition) {
    uint8_t b[64];
    static const size_t whole[] = {8, 16, 24, 24, 40};
    for (int type = 133; type <= 137; type++) {
        size_t n = whole[type - 133];
        memset(b, 0, sizeof b);
        b[0] = (uint8_t)type;
        if (type >= 135) memcpy(b + 8, other, 16);
        if (type == 137) memcpy(b + 24, global, 16);
        reason(b, n, 255, router, all_routers, edition, 0);
        reason(b, n, 254, router, all_routers, edition, BROTHLADDER_REASON_HOP_LIMIT);
        b[1] = 1;
        reason(b, n, 255, router, all_routers, edition, BROTHLADDER_REASON_CODE);
        b[1] = 0;
        if (n > 8) reason(b, n - 1, 255, router, all_routers, edition, BROTHLADDER_REASON_LENGTH);
        reason(b, n + 1, 255, router, all_routers, edition, BROTHLADDER_REASON_OPTIONS);
        b[n] = 1;
        b[n + 1] = 1;
        reason(b, n + 8, 255, router, all_routers, edition, 0);
        if (type == 133) reason(b, n + 8, 255, none, all_routers, edition, BROTHLADDER_REASON_SOURCE_OPTION);
        if (type == 134 || type == 137) reason(b, n, 255, global, all_routers, edition, BROTHLADDER_REASON_ADDRESSES);
        if (type == 135) {
            reason(b, n + 8, 255, none, solicited, edition, BROTHLADDER_REASON_SOURCE_OPTION);
            reason(b, n, 255, none, solicited, edition, 0);
            reason(b, n, 255, none, all_routers, edition, BROTHLADDER_REASON_ADDRESSES);
        }
        if (type == 136) {
            b[4] = 0x40;
            reason(b, n, 255, router, all_routers, edition, BROTHLADDER_REASON_ADDRESSES);
            reason(b, n, 255, router, other, edition, 0);
            b[4] = 0;
        }
        if (type == 137) {
            memcpy(b + 8, global, 16);
            reason(b, n, 255, router, other, edition, 0);
            b[23] = 9;
            reason(b, n, 255, router, other, edition, BROTHLADDER_REASON_TARGET);
            memcpy(b + 8, other, 16);
            b[24] = 0xff;
            reason(b, n, 255, router, other, edition, BROTHLADDER_REASON_TARGET);
        }
        if (type == 135 || type == 136) {
            b[8] = 0xff;
            reason(b, n, 255, router, all_routers, edition, BROTHLADDER_REASON_TARGET);
        }
        b[7] ^= 1;
        struct brothladder_received r = brothladder_receive(b, n, 255, router, all_routers, edition);
        refuses("a wrong checksum", &r, sizeof r, 11, BROTHLADDER_REASON_CHECKSUM, 0, 0, 0, 0);
    }
    hex("80 00 00 00 12 34 00 01", b);
    reason(b, 8, 1, global, router, edition, 0);
    b[7] = 2;
    struct brothladder_received r = brothladder_receive(b, 8, 1, global, router, edition);
    refuses("echo, a wrong checksum", &r, sizeof r, 11, BROTHLADDER_REASON_CHECKSUM, 0, 0, 0, 0);
}

/* The refusals of a step, at the start of a packet, behind an advertisement's fixed part, and at a packet's farthest end. */
static void options_refused(uint32_t edition) {
    for (size_t i = 0; i < 3 * (edition == SECOND ? BAD_OPTIONS : BAD_IN_BOTH); i++) {
        const struct bad_option *option = &bad_options[i / 3];
        uint8_t b[64];
        size_t n = hex(option->bytes, b), offset = i % 3 == 0 ? 0 : i % 3 == 1 ? 16 : LAST_PLACE - n;
        struct brothladder_stepped s = brothladder_step(b, n, offset, 0, edition);
        same(option->bytes, s.next, n + 1);
        s.next = 0;
        refuses_option(&s, sizeof s, option, offset);
    }
    uint8_t b[32] = {4, 4};
    struct brothladder_prefix p = brothladder_read_prefix(b, 32, 48);
    refuses("another type", &p, sizeof p, 8, 3, 4, 4, 4, 48);
    b[0] = 3;
    b[1] = 5;
    p = brothladder_read_prefix(b, 32, 0);
    refuses("other units", &p, sizeof p, 8, 3, 3, 4, 5, 0);
    p = brothladder_read_prefix(NULL, 0, 24);
    refuses("no bytes", &p, sizeof p, 5, 3, 32, 0, 24, 0);
}

/* Types 23 to 26 by number: type, units, prefix length and flags, how many bytes are there, and what the second edition says of it: a kind, or a
   refusal with its values. In the first all are unknown. */
static const struct numbered {
    uint8_t bytes[4];
    size_t there;
    uint32_t kind, refusal;
    uint64_t value[3];
} by_number[] = {
    {{24, 1, 0, 0}, 8, 24, 0, {0}},       {{24, 1, 1, 0}, 8, 0, 5, {24, 16, 8}},      {{24, 1, 64, 0}, 8, 0, 5, {24, 16, 8}},
    {{24, 2, 64, 0}, 16, 24, 0, {0}},     {{24, 2, 65, 0}, 16, 0, 5, {24, 24, 16}},   {{24, 3, 128, 0}, 24, 24, 0, {0}},
    {{24, 3, 129, 0}, 24, 0, 18, {0}},    {{24, 1, 129, 0}, 8, 0, 18, {0}},           {{24, 4, 255, 0}, 32, 0, 5, {24, 24, 32}},
    {{24, 3, 0, 0}, 24, 24, 0, {0}},      {{24, 3, 64, 0x10}, 24, 0, 0, {0}},         {{24, 3, 64, 0x18}, 24, 24, 0, {0}},
    {{24, 3, 64, 0x08}, 24, 24, 0, {0}},  {{24, 3, 129, 0x10}, 24, 0, 18, {0}},       {{25, 1, 0, 0}, 8, 0, 5, {25, 24, 8}},
    {{25, 2, 0, 0}, 16, 0, 5, {25, 24, 16}}, {{25, 3, 0, 0}, 24, 25, 0, {0}},         {{25, 4, 0, 0}, 32, 0, 5, {25, 24, 32}},
    {{25, 5, 0, 0}, 40, 25, 0, {0}},      {{25, 254, 0, 0}, 2032, 0, 5, {25, 24, 2032}}, {{25, 255, 0, 0}, 2040, 25, 0, {0}},
    {{23, 1, 129, 0x10}, 8, 0, 0, {0}},   {{23, 4, 129, 0}, 32, 0, 0, {0}},           {{26, 1, 129, 0x10}, 8, 0, 0, {0}},
    {{26, 2, 129, 0}, 16, 0, 0, {0}},
};

static void newer_options(uint32_t edition) {
    static uint8_t b[2040];
    for (size_t i = 0; i < sizeof by_number / sizeof *by_number; i++) {
        char what[60];
        const struct numbered *o = &by_number[i];
        memcpy(b, o->bytes, 4);
        snprintf(what, sizeof what, "type %u, %u units, prefix %u, flags %x", b[0], b[1], b[2], b[3]);
        struct brothladder_stepped s = brothladder_step(b, o->there, 16, 0, edition);
        if (edition == SECOND && o->refusal != 0) {
            uint64_t v[4] = {o->value[0], o->value[1], o->value[2]};
            v[o->refusal == 18 ? 0 : 3] = 16;
            step_refuses(what, s, o->there, o->refusal, v[0], v[1], v[2], v[3]);
        } else {
            same(what, s.answer, BROTHLADDER_OPTION);
            same(what, s.kind, edition == SECOND ? o->kind : 0);
            check(s.type == b[0] && s.at == 0 && s.length == o->there && s.next == o->there && s.place == 16, what, "all of it is handed out");
        }
    }
    hex("18 04 00 00 00 00 00 00", b);
    step_refuses("four units said, 8 bytes there", brothladder_step(b, 8, 16, 0, edition), 8, 7, 24, 32, 8, 16);
}

/* A3, refusal 22: the bytes end at the last place that a packet can have, and one byte further. */
static void offsets(uint32_t edition) {
    static const uint8_t option[8] = {1, 1}, prefix[32] = {3, 4};
    struct brothladder_stepped s = brothladder_step(option, 8, 4294967287u, 0, edition);
    same("the farthest option", s.answer, BROTHLADDER_OPTION);
    check(s.at == 0 && s.length == 8 && s.next == 8, "the farthest option", "counted in its bytes");
    same("its place", s.place, 4294967287u);
    s = brothladder_step(option, 8, 4294967287u, 8, edition);
    same("the farthest option, then", s.answer, BROTHLADDER_END);
    same("END has no place", s.place, 0);
    for (size_t at = 0; at <= 8; at++) {
        s = brothladder_step(option, 8, 4294967288u, at, edition);
        step_refuses("one byte further", s, 8, 22, 0, 0, 0, 0);
        same("one byte further, then", brothladder_step(option, 8, 4294967288u, s.next, edition).answer, BROTHLADDER_STOPPED);
    }
    same("one byte further, beyond the bytes", brothladder_step(option, 8, 4294967288u, 9, edition).answer, BROTHLADDER_STOPPED);
    same("no bytes, at the last place", brothladder_step(NULL, 0, 4294967295u, 0, edition).answer, BROTHLADDER_END);
    step_refuses("no bytes, one further", brothladder_step(NULL, 0, 4294967296u, 0, edition), 0, 22, 0, 0, 0, 0);
    step_refuses("one byte at the last offset", brothladder_step(option, 1, SIZE_MAX, 0, edition), 1, 22, 0, 0, 0, 0);
    same("beyond it", brothladder_step(option, 1, SIZE_MAX, 2, edition).answer, BROTHLADDER_STOPPED);

    struct brothladder_prefix p = brothladder_read_prefix(prefix, 32, 4294967263u);
    same("the farthest prefix", p.answer, BROTHLADDER_PREFIX);
    same("its place", p.place, 4294967263u);
    p = brothladder_read_prefix(prefix, 32, 4294967264u);
    refuses("a prefix one byte further", &p, sizeof p, 22, 0, 0, 0, 0, 0);
    p = brothladder_read_prefix(prefix, 31, 4294967264u);
    refuses("one byte less", &p, sizeof p, 5, 3, 32, 31, 4294967264u, 0);
    p = brothladder_read_prefix(NULL, 0, 4294967296u);
    refuses("no prefix, one further", &p, sizeof p, 22, 0, 0, 0, 0, 0);
    p = brothladder_read_prefix(prefix, 32, SIZE_MAX);
    refuses("a prefix at the last offset", &p, sizeof p, 22, 0, 0, 0, 0, 0);
}

/* No bytes at all, as NULL and as an empty buffer. */
static void empty(uint32_t edition) {
    for (int i = 0; i < 2; i++) {
        uint8_t *nothing = i ? lend(PACKET, HIGH, NULL, 0) : NULL;
        struct brothladder_head h = brothladder_decode(nothing, 0);
        refuses("decode of nothing", &h, sizeof h, 1, 8, 0, 0, 0, 0);
        struct brothladder_verified v = brothladder_verify(nothing, 0, router, router);
        refuses("verify of nothing", &v, sizeof v, 1, 8, 0, 0, 0, 0);
        struct brothladder_received r = brothladder_receive(nothing, 0, 255, router, router, edition);
        refuses("receive of nothing", &r, sizeof r, 1, 8, 0, 0, 0, 0);
        struct brothladder_chain c = brothladder_chain(nothing, 0, edition);
        refuses("the quotes of nothing", &c, sizeof c, 1, 8, 0, 0, 0, 0);
        same("step in nothing", brothladder_step(nothing, 0, 0, 0, edition).answer, BROTHLADDER_END);
        same("step beyond nothing", brothladder_step(nothing, 0, 0, 1, edition).answer, BROTHLADDER_STOPPED);
        same("step far beyond nothing", brothladder_step(nothing, 0, 0, SIZE_MAX, edition).answer, BROTHLADDER_STOPPED);
    }
}

/* A packet of 65,535 bytes whose options fill it, and longer ones. */
static void longest(uint32_t edition) {
    static uint8_t b[65536 + 8];
    for (size_t i = 0; i < sizeof b; i++) b[i] = (uint8_t)chance();
    for (size_t at = 8; at < 65535; at += 8 * b[at + 1]) {
        size_t left = (65535 - at) / 8;
        b[at] = 200;
        b[at + 1] = left == 0 ? 1 : (uint8_t)(1 + below(left < 255 ? (uint32_t)left : 255));
    }
    for (size_t n = 65534; n <= 65536; n++) {
        struct brothladder_head h = brothladder_decode(b, n), hw = plain_decode(b, n);
        same_answer("decode of a long packet", &h, &hw, sizeof h);
        struct brothladder_verified v = brothladder_verify(b, n, router, other), vw = plain_verify(b, n, router, other);
        same_answer("verify of a long packet", &v, &vw, sizeof v);
    }
    b[0] = 133;
    b[1] = 0;
    unsigned sum = plain_checksum(b, 65528, router, all_routers);
    b[2] = (uint8_t)(sum >> 8);
    b[3] = (uint8_t)sum;
    struct brothladder_received r = brothladder_receive(b, 65528, 255, router, all_routers, edition);
    same("a long packet is received", r.answer, BROTHLADDER_RECEIVED);
    size_t at = 0, steps = 0;
    struct brothladder_stepped s;
    while ((s = brothladder_step(b + 8, r.options_length, 8, at, edition)).answer == BROTHLADDER_OPTION) {
        check(s.at == at && s.place == 8 + at && s.next == at + s.length && s.length == 8 * (size_t)b[8 + at + 1], "options touch", "");
        at = s.next;
        steps++;
    }
    same("to its end", s.answer, BROTHLADDER_END);
    same("which is the end", at, r.options_length);
    check(steps <= r.options_length / 8, "no more options than fit", "");

    /* above 4,294,967,295 bytes: pages that nobody touches */
    size_t huge = 4294967296u;
    uint8_t *p = mmap(NULL, huge, PROT_READ, MAP_PRIVATE | MAP_ANONYMOUS | MAP_NORESERVE, -1, 0);
    if (p == MAP_FAILED) {
        check(0, "4 GiB of address space", "");
        return;
    }
    struct brothladder_head h = brothladder_decode(p, huge);
    refuses("decode of 4 GiB", &h, sizeof h, 2, 4294967295u, huge, 0, 0, 0);
    struct brothladder_verified v = brothladder_verify(p, huge, router, router);
    refuses("verify of 4 GiB", &v, sizeof v, 2, 4294967295u, huge, 0, 0, 0);
    r = brothladder_receive(p, huge, 255, router, router, edition);
    refuses("receive of 4 GiB", &r, sizeof r, 2, 4294967295u, huge, 0, 0, 0);
    struct brothladder_chain c = brothladder_chain(p, huge, edition);
    refuses("the quotes of 4 GiB", &c, sizeof c, 2, 4294967295u, huge, 0, 0, 0);
    h = brothladder_decode(p, huge - 1);
    same("decode of one less", h.answer, BROTHLADDER_UNKNOWN);
    munmap(p, huge);
}

/* All types with all codes: known or not. */
static void pairs(void) {
    for (int type = 0; type < 256; type++)
        for (int code = 0; code < 256; code++) {
            uint8_t b[8] = {(uint8_t)type, (uint8_t)code, 0x12, 0x34, 0xff, 0xff, 0xff, 0xff};
            struct brothladder_head h = brothladder_decode(b, 8), hw = plain_decode(b, 8);
            same_answer("a type and a code", &h, &hw, sizeof h);
        }
}

void cases(void) {
    layout();
    for (uint32_t edition = FIRST; edition <= SECOND; edition++) {
        worked(edition);
        dumped(edition);
        reasons(edition);
        link_local(edition);
        options_refused(edition);
        newer_options(edition);
        offsets(edition);
        empty(edition);
        longest(edition);
    }
    pairs();
}
