/* The sums of several parts in plain C, written from docs/RULES.md U4 to U10. */
#include "brothladder.h"

static uint16_t fold(uint64_t t) {
    while (t > 65535) t = t % 65536 + t / 65536;
    return (uint16_t)t;
}

static uint64_t words(const uint8_t *p, size_t n) {
    uint64_t t = 0;
    for (size_t i = 0; i + 1 < n; i += 2) t += (uint64_t)p[i] << 8 | p[i + 1];
    return n % 2 ? t + ((uint64_t)p[n - 1] << 8) : t;
}

static struct brothladder_summed made(uint16_t sum, size_t odd) {
    struct brothladder_summed s = {BROTHLADDER_SUM, sum, odd % 2};
    return s;
}

struct brothladder_summed plain_sum(const uint8_t *bytes, size_t length) { return made(fold(words(bytes, length)), length); }

struct brothladder_summed plain_join(struct brothladder_summed a, struct brothladder_summed b) {
    uint16_t second = a.odd % 2 ? (uint16_t)(b.sum << 8 | b.sum >> 8) : b.sum;
    return made(fold((uint64_t)a.sum + second), (size_t)a.odd + b.odd);
}

struct brothladder_summed plain_push(struct brothladder_summed a, const uint8_t *bytes, size_t length) { return plain_join(a, plain_sum(bytes, length)); }

struct brothladder_summed plain_pseudo(const uint8_t source[16], const uint8_t destination[16], uint32_t length) {
    return made(fold(words(source, 16) + words(destination, 16) + length / 65536 + length % 65536 + 58), 0);
}
