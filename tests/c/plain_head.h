/* What plain.c and plain_writes.c share: the table of types, and the sum. Each has its own copy (plain_walk.h). */
#ifndef PLAIN_HEAD_H
#define PLAIN_HEAD_H
#include "plain.h"
#include <stdbool.h>

/* H3: how many codes a type lists, from 0 on. */
static inline int codes(int type) {
    switch (type) {
    case 1: return 7;
    case 3: return 2;
    case 4: return 11;
    case 2: case 128: case 129: case 133: case 134: case 135: case 136: case 137: return 1;
    default: return 0;
    }
}

/* H3: the length of a type's fixed part. */
static inline size_t fixed_part(int type) {
    switch (type) {
    case 134: return 8;
    case 135: case 136: return 16;
    case 137: return 32;
    default: return 0;
    }
}

static inline bool neighbor_discovery(int type) { return 133 <= type && type <= 137; }

/* S1, without the carries. */
static inline uint64_t words(uint64_t sum, const uint8_t *p, size_t n) {
    size_t i;
    for (i = 0; i + 1 < n; i += 2) sum += (uint32_t)p[i] << 8 | p[i + 1];
    if (i < n) sum += (uint32_t)p[i] << 8;
    return sum;
}

static inline uint32_t folded(uint64_t sum) {
    while (sum >> 16) sum = (sum & 65535) + (sum >> 16);
    return (uint32_t)sum;
}

/* S2, what stands before the packet. */
static inline uint64_t pseudo_header(size_t length, const uint8_t *source, const uint8_t *destination) {
    return words(words(0, source, 16), destination, 16) + (length >> 16) + (length & 65535) + 58;
}
#endif
