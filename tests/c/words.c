/* Bytes 4 to 7 of each message, put together by the header's functions, written and read by the library, and taken apart again; and the texts. */
#include "check.h"
#include <string.h>

static const uint8_t fixed_part[16] = {0x20, 0x01};

/* A message of a type with this word, written and decoded. */
static struct brothladder_head through(uint8_t type, uint32_t word, size_t payload, int clearing) {
    uint8_t out[24];
    struct brothladder_written w = clearing ? brothladder_write_clearing(type, 0, word, fixed_part, payload, router, all_routers, out, sizeof out, 1)
                                            : brothladder_write(type, 0, word, fixed_part, payload, router, all_routers, out, sizeof out, 1);
    same("a message with a word", w.length, 8 + payload);
    struct brothladder_head h = brothladder_decode(out, 8 + payload), again;
    same("a message with a word", h.answer, BROTHLADDER_KNOWN);
    w = brothladder_write(h.type, h.code, h.bytes5to8, fixed_part, payload, router, all_routers, out, sizeof out, 1);
    same("written from the decoded head", w.length, 8 + payload);
    again = brothladder_decode(out, 8 + payload);
    same_answer("written from the decoded head", &again, &h, sizeof h);
    return h;
}

static void advertisement(uint32_t hop_limit, uint32_t flags, uint32_t lifetime) {
    uint32_t word = brothladder_ra_word(hop_limit, flags, lifetime);
    struct brothladder_head h = through(BROTHLADDER_TYPE_ROUTER_ADVERTISEMENT, word, 8, 0);
    same("ra: the word", h.bytes5to8, word);
    same("ra: hop limit", h.field[BROTHLADDER_FIELD_HOP_LIMIT], hop_limit);
    same("ra: managed", h.field[BROTHLADDER_FIELD_MANAGED], (flags & BROTHLADDER_RA_MANAGED) != 0);
    same("ra: other", h.field[BROTHLADDER_FIELD_OTHER], (flags & BROTHLADDER_RA_OTHER) != 0);
    same("ra: lifetime", h.field[BROTHLADDER_FIELD_LIFETIME], lifetime);
    same("ra: hop limit apart", brothladder_ra_hop_limit(h.bytes5to8), hop_limit);
    same("ra: flags apart", brothladder_ra_flags(h.bytes5to8), flags);
    same("ra: lifetime apart", brothladder_ra_lifetime(h.bytes5to8), lifetime);
    h = through(BROTHLADDER_TYPE_ROUTER_ADVERTISEMENT, word, 8, 1);
    same("ra: cleared", h.bytes5to8, brothladder_ra_word(hop_limit, flags & (BROTHLADDER_RA_MANAGED | BROTHLADDER_RA_OTHER), lifetime));
}

static void preferences(void) {
    static const uint32_t told[] = {BROTHLADDER_PREFERENCE_MEDIUM, BROTHLADDER_PREFERENCE_HIGH, BROTHLADDER_PREFERENCE_LOW};
    for (int i = 0; i < 3; i++) {
        uint8_t out[16];
        struct brothladder_written w = brothladder_write(BROTHLADDER_TYPE_ROUTER_ADVERTISEMENT, 0, brothladder_ra_word(64, BROTHLADDER_RA_PREFERENCE(told[i]), 1800),
                                                         fixed_part, 8, router, all_routers, out, sizeof out, 1);
        same("ra: written with a preference", w.length, 16);
        same("ra: preference", brothladder_preference(out, 16).preference, told[i]);
    }
}

static void neighbor(uint32_t flags) {
    uint32_t word = brothladder_na_word(flags);
    struct brothladder_head h = through(BROTHLADDER_TYPE_NEIGHBOR_ADVERTISEMENT, word, 16, 0);
    same("na: the word", h.bytes5to8, word);
    same("na: router", h.field[BROTHLADDER_FIELD_ROUTER], (flags & BROTHLADDER_NA_ROUTER) != 0);
    same("na: solicited", h.field[BROTHLADDER_FIELD_SOLICITED], (flags & BROTHLADDER_NA_SOLICITED) != 0);
    same("na: override", h.field[BROTHLADDER_FIELD_OVERRIDE], (flags & BROTHLADDER_NA_OVERRIDE) != 0);
    same("na: flags apart", brothladder_na_flags(h.bytes5to8), flags);
    h = through(BROTHLADDER_TYPE_NEIGHBOR_ADVERTISEMENT, word, 16, 1);
    same("na: cleared", h.bytes5to8, brothladder_na_word(flags & (BROTHLADDER_NA_ROUTER | BROTHLADDER_NA_SOLICITED | BROTHLADDER_NA_OVERRIDE)));
}

static void echo(uint32_t identifier, uint32_t sequence) {
    for (uint32_t type = BROTHLADDER_TYPE_ECHO_REQUEST; type <= BROTHLADDER_TYPE_ECHO_REPLY; type++) {
        struct brothladder_head h = through((uint8_t)type, brothladder_echo_word(identifier, sequence), 0, 1);
        same("echo: identifier", h.field[BROTHLADDER_FIELD_IDENTIFIER], identifier);
        same("echo: sequence", h.field[BROTHLADDER_FIELD_SEQUENCE], sequence);
        same("echo: identifier apart", brothladder_echo_identifier(h.bytes5to8), identifier);
        same("echo: sequence apart", brothladder_echo_sequence(h.bytes5to8), sequence);
    }
}

static void whole(uint32_t number) {
    struct brothladder_head h = through(BROTHLADDER_TYPE_PACKET_TOO_BIG, brothladder_too_big_word(number), 0, 1);
    same("too big: MTU", h.field[BROTHLADDER_FIELD_MTU], number);
    same("too big: MTU apart", brothladder_too_big_mtu(h.bytes5to8), number);
    h = through(BROTHLADDER_TYPE_PARAMETER_PROBLEM, brothladder_problem_word(number), 0, 1);
    same("problem: pointer", h.field[BROTHLADDER_FIELD_POINTER], number);
    same("problem: pointer apart", brothladder_problem_pointer(h.bytes5to8), number);
}

/* Each number has a text of its own, and those that are none have another; the copy of a beginning is the beginning. */
static void texts(void) {
    for (uint32_t i = 0; i <= 24; i++)
        for (uint32_t k = 0; k < i; k++) check(strcmp(brothladder_refusal_text(i), brothladder_refusal_text(k)) != 0, "two refusals", "the same text");
    for (uint32_t i = 0; i <= 9; i++)
        for (uint32_t k = 0; k < i; k++) check(strcmp(brothladder_reason_text(i), brothladder_reason_text(k)) != 0, "two reasons", "the same text");
    check(strcmp(brothladder_refusal_text(6), "the length of an option is given as 0") == 0, "the text of refusal 6", "");
    check(strcmp(brothladder_reason_text(1), "the hop limit is not 255") == 0, "the text of reason 1", "");
    same("a number that is no refusal", (uint64_t)strcmp(brothladder_refusal_text(24), brothladder_refusal_text(4294967295u)), 0);
    static const uint8_t two[] = {1, 0};
    struct brothladder_stepped s = brothladder_step(two, 2, 48, 0, 1);
    struct brothladder_answer a = BROTHLADDER_ANSWER_OF(s);
    refuses("the common beginning", &a, sizeof a, BROTHLADDER_REFUSAL_ZERO_LENGTH, 1, 48, 0, 0, 0);
}

void composed(void) {
    static const uint32_t edge[] = {0, 1, 127, 128, 255, 256, 1280, 1800, 9000, 32767, 32768, 65534, 65535};
    for (uint32_t n = 0; n < 256; n++) {
        neighbor(n);
        for (size_t i = 0; i < sizeof edge / sizeof *edge; i++) {
            if (edge[i] < 256) advertisement(n, edge[i], 1800), advertisement(edge[i], n, 65535);
            advertisement(64, n, edge[i]);
            echo(n << 8 | (255 - n), edge[i]);
            echo(edge[i], n);
            whole(n << 24 | edge[i]);
        }
    }
    for (uint32_t n = 0; n < 65536; n += 7) advertisement(n & 255, n >> 3 & 255, n);
    same("what is too large: hop limit, flags, lifetime", brothladder_ra_word(0x101, 0x1c0, 0x10708), brothladder_ra_word(1, 0xc0, 0x708));
    same("what is too large: identifier, sequence", brothladder_echo_word(0x10001, 0x20002), brothladder_echo_word(1, 2));
    same("what is too large: flags", brothladder_na_word(0x1e0), brothladder_na_word(0xe0));
    preferences();
    texts();
}
