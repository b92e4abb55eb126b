/* docs/RULES.md M1 to M9: a million words changed by chance, each beside a fresh checksum and beside plain C; every place that is refused; and RFC 1624's own
   example, as a packet. */
#include "check.h"
#include "plain.h"
#include <string.h>

enum { UPDATES = 1000000, MOST = 96 };

static unsigned long fresh, zero_fields, ones_fields, ones_left, same_words, refused[3], orders;

/* A number of 16 bits, often one at an edge. */
static uint16_t some_word(void) {
    uint32_t k = below(8);
    return k == 0 ? 0 : k == 1 ? 0xffff : (uint16_t)chance();
}

static uint16_t word_at(const uint8_t *p, size_t at) { return (uint16_t)(p[at] << 8 | p[at + 1]); }
static void put(uint8_t *p, size_t at, uint32_t word) { p[at] = (uint8_t)(word >> 8), p[at + 1] = (uint8_t)word; }

/* A packet by chance with its computed checksum in its field; one in four has the checksum 0, and half of these ff ff for it. */
static size_t some_packet(uint8_t *p) {
    size_t n = 8 + below(MOST - 8);
    for (size_t i = 0; i < n; i += 2) {
        uint16_t w = some_word();
        p[i] = (uint8_t)(w >> 8);
        if (i + 1 < n) p[i + 1] = (uint8_t)w;
    }
    put(p, 2, 0);
    uint32_t kind = below(4);
    if (kind == 0) {
        put(p, 4, 0);
        put(p, 4, plain_checksum(p, n, router, all_routers));
    }
    put(p, 2, plain_checksum(p, n, router, all_routers));
    if (kind == 0 && word_at(p, 2) == 0 && below(2)) put(p, 2, 0xffff);
    return n;
}

/* A place of a word that may be changed; 4 more often, where a packet of checksum 0 may have any word. */
static size_t some_place(size_t n) {
    size_t at = below(4) ? 2 * (size_t)below((uint32_t)(n / 2)) : 4;
    return at == 2 ? 0 : at;
}

static void valid(const char *what, const uint8_t *p, size_t n) {
    same(what, brothladder_verify(p, n, router, all_routers).answer, BROTHLADDER_VALID);
    same(what, brothladder_verify_by_fours(p, n, router, all_routers).answer, BROTHLADDER_VALID);
}

static void change_one(void) {
    uint8_t packet[MOST], wanted[MOST];
    size_t n = some_packet(packet), at = some_place(n);
    uint16_t field = word_at(packet, 2), old = word_at(packet, at), word = below(8) ? some_word() : old;
    memcpy(wanted, packet, n);
    uint8_t *lent = lend(PACKET, chance() % 2 ? LOW : HIGH, packet, n);
    struct brothladder_updated told = brothladder_updated_checksum(lent, n, at, word);
    check(stands(PACKET, packet, n), "an updated checksum", "changed the packet");
    struct brothladder_updated u = brothladder_change_word(lent, n, at, word), plain = plain_change(wanted, n, at, word);
    same_answer("an update told", &told, &plain, sizeof told);
    same_answer("a word changed", &u, &plain, sizeof u);
    check(stands(PACKET, wanted, n), "a changed packet", "is another");
    valid("a changed packet", wanted, n);
    /* the fresh checksum, but where M7 says otherwise */
    uint32_t again = plain_checksum(wanted, n, router, all_routers);
    int stays = field == 0xffff && old == 0xffff && word == 0;
    same("the fresh checksum", u.field, stays ? 0xffff : again);
    if (stays) same("a computed 0", again, 0);
    if (word == old) same("a word as it was", u.field, field == 0xffff ? 0 : field), same_words++;
    fresh += !stays, ones_left += (unsigned long)stays, zero_fields += u.field == 0, ones_fields += field == 0xffff;
}

/* One that does not validate does not come to validate, and the other way: the sum stays, for any addresses. */
static void change_invalid(void) {
    uint8_t packet[MOST];
    size_t n = some_packet(packet), at = some_place(n);
    put(packet, 2, some_word());
    uint32_t before = brothladder_verify(packet, n, none, router).answer, other = brothladder_verify(packet, n, router, all_routers).answer;
    same("a word changed", brothladder_change_word(packet, n, at, some_word()).answer, BROTHLADDER_UPDATED);
    same("a verdict that stays", brothladder_verify(packet, n, none, router).answer, before);
    same("a verdict that stays", brothladder_verify(packet, n, router, all_routers).answer, other);
}

/* M9: two words in either order, refused places among them. */
static void change_two(void) {
    uint8_t first[MOST], second[MOST];
    size_t n = some_packet(first), a = below((uint32_t)n + 2), b = below((uint32_t)n + 2);
    uint16_t v = some_word(), w = some_word();
    if (a == b) return;
    memcpy(second, first, n);
    struct brothladder_updated u[4];
    u[0] = brothladder_change_word(first, n, a, v), u[1] = brothladder_change_word(first, n, b, w);
    u[2] = brothladder_change_word(second, n, b, w), u[3] = brothladder_change_word(second, n, a, v);
    same_answer("two words in either order", first, second, n);
    same("the same place refused", u[0].refusal, u[3].refusal);
    same("the same place refused", u[1].refusal, u[2].refusal);
    orders++;
}

/* N19, behind N1: every place up to two behind the end, and places at which a sum would wrap. */
static void refusals(void) {
    static const size_t far[] = {LAST_PLACE, (size_t)LAST_PLACE + 1, SIZE_MAX - 3, SIZE_MAX - 2, SIZE_MAX - 1, SIZE_MAX};
    for (size_t n = 0; n < 40; n++)
        for (size_t k = 0; k < n + 3 + sizeof far / sizeof *far; k++) {
            uint8_t packet[40];
            size_t at = k < n + 3 ? k : far[k - n - 3];
            for (size_t i = 0; i < n; i++) packet[i] = (uint8_t)chance();
            uint8_t *lent = lend(PACKET, k % 2 ? LOW : HIGH, packet, n);
            struct brothladder_updated told = brothladder_updated_checksum(lent, n, at, 0x1234), u = brothladder_change_word(lent, n, at, 0x1234);
            same_answer("an update and a change", &told, &u, sizeof u);
            if (n < 8) refuses("a short packet", &u, sizeof u, 1, 8, n, 0, 0, 0), refused[0]++;
            else if (at % 2 || at == 2 || at >= n || n - at < 2) refuses("no word there", &u, sizeof u, 19, at, 0, 0, 0, 0), refused[1]++;
            else {
                same("a word there", u.answer, BROTHLADDER_UPDATED), refused[2]++;
                continue;
            }
            check(stands(PACKET, packet, n), "a refused change", "changed the packet");
        }
}

/* RFC 1624, section 4: the field dd 2f, and 55 55 becomes 32 85. Between addresses of zeros the last word makes dd 2f the computed checksum. */
static void rfc_1624(void) {
    uint8_t p[8] = {0x80, 0, 0xdd, 0x2f, 0x55, 0x55, 0, 0};
    for (uint32_t w = 0; w < 65536 && plain_checksum(p, 8, none, none) != 0xdd2f; w++) put(p, 6, w);
    same("the example's field", plain_checksum(p, 8, none, none), 0xdd2f);
    struct brothladder_updated u = brothladder_change_word(p, 8, 4, 0x3285);
    same("the example's answer", u.answer, BROTHLADDER_UPDATED);
    same("the example's new field", u.field, 0x0000);
    same("the example's fresh checksum", plain_checksum(p, 8, none, none), 0x0000);
    same("the example's verdict", brothladder_verify(p, 8, none, none).answer, BROTHLADDER_VALID);
}

/* M7: the smallest packet whose field stays ff ff where the computed one is 0. */
static void all_ones(void) {
    uint8_t p[8] = {0x80, 0, 0xff, 0xff, 0xff, 0xff, 0x7f, 0xbd};
    same("ff ff for 0", brothladder_verify(p, 8, none, none).answer, BROTHLADDER_VALID);
    same("ff ff stays", brothladder_change_word(p, 8, 4, 0).field, 0xffff);
    same("ff ff that stayed", brothladder_verify(p, 8, none, none).answer, BROTHLADDER_VALID);
    same("the computed checksum", plain_checksum(p, 8, none, none), 0);
}

void updates(void) {
    rfc_1624();
    all_ones();
    refusals();
    for (int i = 0; i < UPDATES; i++) change_one();
    for (int i = 0; i < UPDATES / 20; i++) change_invalid(), change_two();
    same("updates", fresh + ones_left, UPDATES);
    check(zero_fields > 10000, "updates", "too few came to the field 0");
    check(ones_fields > 10000, "updates", "too few began with the field ff ff");
    check(ones_left > 1000, "updates", "too few left the field ff ff");
    check(same_words > 50000, "updates", "too few words stayed as they were");
    check(orders > UPDATES / 25, "updates", "too few in two orders");
    same("refused for a length", refused[0], 100);
    same("refused for a place", refused[1], 704);
    same("places of words", refused[2], 336);
}
