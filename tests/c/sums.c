/* docs/RULES.md U1 to U10 and X17: sums of bytes that are cut by chance, into parts that are odd, even or empty, against one call over the whole, and
   against a sum taken another way, a byte at a time and modulo 65,535. */
#include "check.h"
#include <string.h>

enum { CUTS = 20000, PARTS = 7, MANY = 300, LONG = 131073 };

static unsigned long odd_cuts, even_cuts, empty_parts, alike, other, valid, invalid;

static uint16_t by_remainder(const uint8_t *p, size_t n) {
    uint64_t words = 0;
    for (size_t i = 0; i < n; i++) words += i % 2 ? p[i] : 256u * p[i];
    return words == 0 ? 0 : (uint16_t)((words - 1) % 65535 + 1);
}

/* The one's complement sum of two numbers: what a caller would write who knows nothing of odd parts. */
static uint16_t plus(uint16_t a, uint16_t b) {
    uint32_t t = (uint32_t)a + b;
    return (uint16_t)(t % 65536 + t / 65536);
}

static struct brothladder_summed made(uint16_t sum, uint16_t odd) {
    struct brothladder_summed s = {BROTHLADDER_SUM, sum, odd};
    return s;
}

static void same_sum(const char *what, struct brothladder_summed got, struct brothladder_summed wanted) {
    same_answer(what, &got, &wanted, sizeof got);
}

/* The sum of some bytes, which lie between pages that cannot be touched. */
static struct brothladder_summed summed(const uint8_t *p, size_t n) {
    struct brothladder_summed s = brothladder_sum(lend(PACKET, chance() % 2 ? LOW : HIGH, p, n), n);
    same_sum("a sum", s, made(by_remainder(p, n), n % 2));
    return s;
}

static struct brothladder_summed pushed(struct brothladder_summed s, const uint8_t *p, size_t n) {
    return brothladder_sum_push(s, lend(PACKET, chance() % 2 ? LOW : HIGH, p, n), n);
}

static uint16_t exchanged(uint16_t sum) { return (uint16_t)(sum % 256 * 256 + sum / 256); }

/* Two parts: U4 to U6. */
static void cut_at(const uint8_t *p, size_t n, size_t cut) {
    struct brothladder_summed a = summed(p, cut), b = summed(p + cut, n - cut), whole = summed(p, n);
    same_sum("two parts joined", brothladder_sum_join(a, b), whole);
    same_sum("a part pushed", pushed(a, p + cut, n - cut), whole);
    /* an exchange left out, or made where none is due, is right just where the two bytes are alike */
    int right = plus(a.sum, cut % 2 ? b.sum : exchanged(b.sum)) == whole.sum;
    same("the right way", plus(a.sum, cut % 2 ? exchanged(b.sum) : b.sum), whole.sum);
    same("the wrong way", (uint64_t)right, exchanged(b.sum) == b.sum);
    *(cut % 2 ? &odd_cuts : &even_cuts) += 1;
    *(right ? &alike : &other) += 1;
}

/* Several parts: U7, and U9 from the left, from the right, and by pushing. */
static void cut_often(const uint8_t *p, size_t n) {
    size_t at[PARTS + 1] = {0};
    for (int i = 1; i <= PARTS; i++) at[i] = i == PARTS ? n : below(3) == 0 ? at[i - 1] : at[i - 1] + below((uint32_t)(n - at[i - 1]) + 1);
    struct brothladder_summed none = brothladder_sum(NULL, 0), left = none, right = none, walked = none, whole = summed(p, n);
    for (int i = 0; i < PARTS; i++) {
        size_t length = at[i + 1] - at[i];
        walked = pushed(walked, p + at[i], length);
        left = brothladder_sum_join(left, summed(p + at[i], length));
        empty_parts += length == 0;
    }
    uint16_t shares = 0; /* the last first: their order is free */
    for (int i = PARTS; i > 0; i--) {
        struct brothladder_summed part = summed(p + at[i - 1], at[i] - at[i - 1]);
        right = brothladder_sum_join(part, right);
        shares = plus(shares, at[i - 1] % 2 ? exchanged(part.sum) : part.sum);
    }
    same("parts added", shares, whole.sum);
    same_sum("parts pushed", walked, whole);
    same_sum("parts joined from the left", left, whole);
    same_sum("parts joined from the right", right, whole);
}

/* Sums of any number: U1 to U3. */
static void any_sums(void) {
    static const uint16_t edge[] = {0, 1, 255, 256, 32767, 65280, 65534, 65535};
    uint16_t n[3];
    for (int i = 0; i < 3; i++) n[i] = below(4) ? (uint16_t)chance() : edge[below(8)];
    struct brothladder_summed a = made(n[0], 0), b = made(n[1], 0), c = made(n[2], (uint16_t)below(2)), ones = made(65535, 0), none = brothladder_sum(NULL, 0);
    same("the sum of two", brothladder_sum_join(a, b).sum, plus(n[0], n[1]));
    same_sum("the order of two", brothladder_sum_join(a, b), brothladder_sum_join(b, a));
    a.odd = (uint16_t)below(2), b.odd = (uint16_t)below(2);
    same_sum("the grouping of three", brothladder_sum_join(brothladder_sum_join(a, b), c), brothladder_sum_join(a, brothladder_sum_join(b, c)));
    same_sum("0 behind", brothladder_sum_join(c, none), c);
    same_sum("0 before", brothladder_sum_join(none, c), c);
    same("65535 before", brothladder_sum_join(ones, c).sum, n[2] == 0 ? 65535 : n[2]);
    same("65535 behind", brothladder_sum_join(c, ones).sum, n[2] == 0 ? 65535 : n[2]);
    /* what comes from elsewhere: any answer, any odd number */
    struct brothladder_summed d = {(uint32_t)chance(), b.sum, (uint16_t)chance()};
    same_sum("a struct from elsewhere", brothladder_sum_join(d, c), brothladder_sum_join(made(b.sum, d.odd % 2), c));
    same_sum("and its odd behind", brothladder_sum_join(c, d), brothladder_sum_join(c, made(b.sum, d.odd % 2)));
}

/* The worked examples of the header and of README.md, as they stand there: tests/c/run takes them out. */
struct buffer { const uint8_t *bytes; size_t length; };

static int in_two(const struct buffer *buffer, const uint8_t source[16], const uint8_t destination[16]) {
#include "two_buffers.inc"
}

static int drop_sum(void) { return 0; }

static int in_many(const struct buffer *buffer, int buffers, uint32_t length, const uint8_t source[16], const uint8_t destination[16]) {
#include "buffers.inc"
    return 1;
}

/* A packet in two buffers, the second maybe in two more: U10. */
static void in_buffers(uint8_t *p, size_t n) {
    uint8_t source[16], destination[16], front[40] = {0};
    for (int i = 0; i < 16; i++) source[i] = (uint8_t)chance(), destination[i] = (uint8_t)chance();
    memcpy(front, source, 16), memcpy(front + 16, destination, 16);
    front[32] = (uint8_t)(n >> 24), front[33] = (uint8_t)(n >> 16), front[34] = (uint8_t)(n >> 8), front[35] = (uint8_t)n, front[39] = 58;
    uint32_t many = below(2) ? (uint32_t)chance() : (uint32_t)n;
    same_sum("the pseudo-header", brothladder_sum_pseudo(lend(SOURCE, HIGH, source, 16), lend(DESTINATION, LOW, destination, 16), (uint32_t)n), made(by_remainder(front, 40), 0));
    front[32] = (uint8_t)(many >> 24), front[33] = (uint8_t)(many >> 16), front[34] = (uint8_t)(many >> 8), front[35] = (uint8_t)many;
    same_sum("of any length", brothladder_sum_pseudo(source, destination, many), made(by_remainder(front, 40), 0));
    /* the checksum by a walk with 0 in the field */
    p[2] = p[3] = 0;
    uint16_t field = (uint16_t)(65535 - brothladder_sum_push(brothladder_sum_pseudo(source, destination, (uint32_t)n), p, n).sum);
    field = (uint16_t)(field + below(2));
    p[2] = (uint8_t)(field / 256), p[3] = (uint8_t)field;
    uint32_t answer = brothladder_verify(p, n, source, destination).answer;
    size_t cut = below((uint32_t)n + 1), again = cut + below((uint32_t)(n - cut) + 1);
    struct buffer two[2] = {{p, cut}, {p + cut, n - cut}}, three[3] = {{p, cut}, {p + cut, again - cut}, {p + again, n - again}};
    same("two buffers", (uint64_t)in_two(two, source, destination), answer == BROTHLADDER_VALID);
    same("three buffers", (uint64_t)in_many(three, 3, (uint32_t)n, source, destination), answer == BROTHLADDER_VALID);
    *(answer == BROTHLADDER_VALID ? &valid : &invalid) += 1;
    struct buffer few[2] = {{p, below(8)}, {p, 0}};
    same("a short packet", (uint64_t)in_two(few, source, destination), 0);
    same("a short packet, verified", brothladder_verify(p, few[0].length, source, destination).answer, BROTHLADDER_REFUSED);
}

/* Where a piece of the sum ends (S12), and a cut beside it. */
static void long_sums(void) {
    static uint8_t p[LONG];
    static const size_t length[] = {65535, 65536, 65537, 131072, 131073};
    for (int fill = 0; fill < 2; fill++) {
        for (size_t i = 0; i < LONG; i++) p[i] = fill ? (uint8_t)chance() : 0xff;
        for (size_t k = 0; k < sizeof length / sizeof *length; k++) {
            struct brothladder_summed whole = brothladder_sum(p, length[k]);
            same_sum("a long sum", whole, made(by_remainder(p, length[k]), length[k] % 2));
            for (size_t cut = 32767; cut < 32769; cut++)
                same_sum("a long push", brothladder_sum_push(brothladder_sum(p, cut), p + cut, length[k] - cut), whole);
        }
    }
}

void sums(void) {
    static const uint8_t pair[2] = {0, 1};
    same("00 and 01", brothladder_sum_join(brothladder_sum(pair, 1), brothladder_sum(pair + 1, 1)).sum, 1);
    same("00 and 01 without the exchange", plus(brothladder_sum(pair, 1).sum, brothladder_sum(pair + 1, 1).sum), 256);
    for (int i = 0; i < CUTS; i++) {
        uint8_t p[MANY];
        size_t n = below(5) ? 8 + below(MANY - 8) : below(8);
        for (size_t k = 0; k < n; k++) p[k] = below(8) ? (uint8_t)chance() : below(2) ? 0 : 0xff;
        if (below(16) == 0) memset(p, 0, n);
        cut_at(p, n, below((uint32_t)n + 1));
        cut_often(p, n);
        any_sums();
        if (n >= 8) in_buffers(p, n);
    }
    long_sums();
    check(odd_cuts >= 5000 && even_cuts >= 5000 && empty_parts >= 5000, "sums", "odd, even and empty parts come often");
    check(alike >= 500 && other >= 5000 && valid >= 5000 && invalid >= 5000, "sums", "right and wrong come often");
}
