/* What plain.c, plain_plans.c and plain_index.c share: the refusal of an option and of a walk. Each has its own copy, so that what a compiler makes of
   one does not change with another. */
#ifndef PLAIN_WALK_H
#define PLAIN_WALK_H
#include "plain.h"
#include <stdbool.h>

/* E1: the number 2 is the second edition, every other number the first. */
static inline bool in_second(uint32_t edition) { return edition == 2; }

/* E2: the types that the second edition has a rule of its own for. */
static bool is_newer(uint8_t type) { return type == 24 || type == 25; }

/* RFC 4191, section 2.3: the prefix of a route has 0, 8 or 16 bytes behind the option's first eight, by the bits that are valid of it. */
static inline size_t route_needs(uint8_t prefix_bits) {
    if (prefix_bits == 0) return 8;
    return prefix_bits > 64 ? 24 : 16;
}

/* E3 and E4: what the second edition asks of an option that is all there and is a route or a list of servers; 0 where nothing is wrong. */
static inline uint32_t bad_newer_option(const uint8_t *p, size_t place, uint64_t value[5]) {
    size_t bytes = 8 * (size_t)p[1], needs = 24;
    if (p[0] == 24 && bytes <= 24) {
        if (p[2] > 128) return value[0] = place, value[3] = 0, 18;
        needs = route_needs(p[2]);
        if (bytes >= needs) return 0;
    }
    /* RFC 8106, section 5.1: eight bytes, and sixteen for each address, of which there is at least one */
    if (p[0] == 25 && bytes >= 24 && (bytes - 8) % 16 == 0) return 0;
    return value[1] = needs, value[2] = bytes, 5;
}

/* W4, A2 and E3: the refusal of what stands at the head of the bytes that are left, with its place in the packet; 0 for an option. */
static inline uint32_t bad_option(const uint8_t *p, size_t left, size_t place, uint32_t edition, uint64_t value[5]) {
    value[0] = p[0];
    value[3] = place;
    if (left < 2) return value[1] = 2, value[2] = left, 5;
    size_t bytes = 8 * (size_t)p[1];
    if (bytes == 0) return value[1] = place, value[3] = 0, 6;
    if (left < bytes) return value[1] = bytes, value[2] = left, 7;
    if (p[0] == 3 && bytes != 32) return value[1] = 32, value[2] = bytes, 5;
    if (p[0] == 5 && bytes != 8) return value[1] = 8, value[2] = bytes, 5;
    if (in_second(edition) && is_newer(p[0])) {
        uint32_t refusal = bad_newer_option(p, place, value);
        if (refusal != 0) return refusal;
    }
    return value[0] = value[3] = 0;
}

/* A3, refusal 22: the bytes would reach beyond the longest packet. */
static inline bool far(size_t offset, size_t length) { return offset > 4294967295u || length > 4294967295u - offset; }

/* The refusal of a whole walk, from a place of the packet on; 0 for a clean one. `source_option` says whether a type 1 is among the options. */
static inline uint32_t bad_walk(const uint8_t *p, size_t left, size_t place, uint32_t edition, uint64_t value[5], bool *source_option) {
    uint32_t refusal = 0;
    *source_option = false;
    while (left > 0 && (refusal = bad_option(p, left, place, edition, value)) == 0) {
        *source_option = *source_option || p[0] == 1;
        left -= 8 * (size_t)p[1];
        place += 8 * (size_t)p[1];
        p += 8 * (size_t)p[1];
    }
    return refusal;
}
#endif
