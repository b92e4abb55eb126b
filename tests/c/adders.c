/* docs/RULES.md Y1 and Y2: each wider sum beside the plain one, and beside a sum taken another way, a byte at a time and modulo 65,535: at every length up
   to 2,000 and around 65,535, with the first byte at each of eight addresses, on bytes by chance, ff and 00. And the wider verdict beside the plain one. */
#include "check.h"
#include <string.h>

uint16_t brothladder_bench_sum(const uint8_t *bytes, size_t length);
uint16_t brothladder_bench_sum_by_fours(const uint8_t *bytes, size_t length);
uint16_t brothladder_bench_sum_by_sixty_fours(const uint8_t *bytes, size_t length);
uint16_t brothladder_bench_sum_by_two_chains(const uint8_t *bytes, size_t length);

static const struct {
    const char *name;
    uint16_t (*sum)(const uint8_t *, size_t);
} adder[] = {
    {"sum", brothladder_bench_sum},
    {"sum_by_fours", brothladder_bench_sum_by_fours},
    {"sum_by_sixty_fours", brothladder_bench_sum_by_sixty_fours},
    {"sum_by_two_chains", brothladder_bench_sum_by_two_chains},
};
enum { ADDERS = sizeof adder / sizeof *adder, ALIGNMENTS = 8, SHORT = 2000, NEAR = 65535, AROUND = 9, LONGEST_SUM = NEAR + AROUND };

static uint8_t room[LONGEST_SUM + 2 * ALIGNMENTS];
static unsigned long compared, valid, invalid;

/* The sum of the bytes before i, as the loop has got to it; 0 stands for an empty list of words or for words of 0 alone. */
static uint16_t remainder_of(uint64_t words) { return words == 0 ? 0 : (uint16_t)((words - 1) % 65535 + 1); }

static void same_sums(const uint8_t *p, size_t n, uint64_t words) {
    uint16_t wanted = remainder_of(words);
    for (int k = 0; k < ADDERS; k++) same(adder[k].name, adder[k].sum(p, n), wanted), compared++;
}

/* With the field that validates, and with the next one. */
static void same_verdicts(uint8_t *p, size_t n) {
    uint8_t field[2] = {0};
    memcpy(field, p + 2, 2);
    p[2] = p[3] = 0;
    struct brothladder_summed s = brothladder_sum_push(brothladder_sum_pseudo(router, all_routers, (uint32_t)n), p, n);
    for (uint32_t next = 0; next < 2; next++) {
        uint32_t put = 65535u - s.sum + next;
        p[2] = (uint8_t)(put / 256), p[3] = (uint8_t)put;
        struct brothladder_verified plain = brothladder_verify(p, n, router, all_routers);
        struct brothladder_verified wide = brothladder_verify_by_fours(p, n, router, all_routers);
        same_answer("a verdict by fours", &wide, &plain, sizeof wide);
        same("the field that validates", plain.answer, next ? BROTHLADDER_INVALID : BROTHLADDER_VALID);
        *(next ? &invalid : &valid) += 1;
    }
    memcpy(p + 2, field, 2);
}

static void at_lengths(uint8_t *p, size_t from, size_t to) {
    uint64_t words = 0;
    for (size_t i = 0; i < to; i++) {
        if (i >= from) {
            same_sums(p, i, words);
            if (i >= 8) same_verdicts(p, i);
        }
        words += i % 2 ? p[i] : 256u * p[i];
    }
}

void adders(void) {
    uint8_t *bytes = room + (ALIGNMENTS - (uintptr_t)room % ALIGNMENTS) % ALIGNMENTS; /* an address that 8 divides */
    for (int fill = 0; fill < 3; fill++) {
        for (size_t i = 0; i < sizeof room; i++) room[i] = fill == 0 ? (uint8_t)chance() : fill == 1 ? 0xff : 0;
        for (int at = 0; at < ALIGNMENTS; at++) {
            at_lengths(bytes + at, 0, SHORT + 1);
            at_lengths(bytes + at, NEAR - AROUND, NEAR + AROUND + 1);
        }
    }
    for (size_t n = 0; n < 8; n++) { /* refusal 1 */
        struct brothladder_verified v = brothladder_verify_by_fours(lend(PACKET, HIGH, bytes, n), n, router, all_routers);
        refuses("a verdict by fours of a short packet", &v, sizeof v, 1, 8, n, 0, 0, 0);
    }
    for (size_t n = 8; n < 200; n++) { /* between pages that cannot be touched */
        uint8_t *p = lend(PACKET, n % 2 ? LOW : HIGH, bytes, n);
        struct brothladder_verified plain = brothladder_verify(p, n, router, all_routers);
        struct brothladder_verified wide = brothladder_verify_by_fours(p, n, router, all_routers);
        same_answer("a verdict by fours at an edge", &wide, &plain, sizeof wide);
    }
    same("sums compared", compared, 3ul * ALIGNMENTS * ADDERS * (SHORT + 1 + 2 * AROUND + 1));
    same("verdicts compared", valid, invalid);
}
