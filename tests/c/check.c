#define _GNU_SOURCE
#include "check.h"
#include <stdio.h>
#include <stdlib.h>
#include <string.h>
#include <sys/mman.h>
#include <unistd.h>

unsigned long passed, failed;

void check(int holds, const char *what, const char *detail) {
    if (holds) {
        passed++;
        return;
    }
    if (failed++ < 20) printf("FAILED: %s%s%s\n", what, *detail ? ": " : "", detail);
    if (getenv("FIRST_FAILURE")) exit(1); /* tests/c/faults asks whether a mistake is seen, not how often */
}

void same(const char *what, uint64_t got, uint64_t wanted) {
    char detail[80] = "";
    if (got != wanted) snprintf(detail, sizeof detail, "got %llu, wanted %llu", (unsigned long long)got, (unsigned long long)wanted);
    check(got == wanted, what, detail);
}

void same_answer(const char *what, const void *got, const void *wanted, size_t size) {
    char detail[80] = "";
    size_t i = 0;
    while (i < size && ((const uint8_t *)got)[i] == ((const uint8_t *)wanted)[i]) i++;
    if (i < size) snprintf(detail, sizeof detail, "byte %zu of the answer", i);
    check(i == size, what, detail);
}

/* A room is seen twice: `start` may be written, `shown` may only be read, and both stand between two pages that cannot be touched. */
static struct {
    uint8_t *start, *shown, *lent;
    size_t length;
    enum side side;
} rooms[ROOMS];

enum { PAGE = 4096 };
static uint8_t guards[GUARD_BYTES];

static uint8_t *view(int file, int may) {
    uint8_t *all = mmap(NULL, ROOM_BYTES + 2 * PAGE, PROT_NONE, MAP_PRIVATE | MAP_ANONYMOUS, -1, 0);
    if (all == MAP_FAILED || mmap(all + PAGE, ROOM_BYTES, may, MAP_SHARED | MAP_FIXED, file, 0) == MAP_FAILED) {
        puts("no memory to lend");
        exit(2);
    }
    return all + PAGE;
}

static void make_room(enum room room) {
    int file = memfd_create("room", 0);
    if (file < 0 || ftruncate(file, ROOM_BYTES)) {
        puts("no memory to lend");
        exit(2);
    }
    rooms[room].start = view(file, PROT_READ | PROT_WRITE);
    rooms[room].shown = view(file, PROT_READ);
    close(file);
    memset(guards, 0xa5, sizeof guards);
}

uint8_t *lend(enum room room, enum side side, const uint8_t *bytes, size_t length) {
    static const size_t into[] = {[LOW] = 0, [ODD] = PAGE + 1, [FOURTH] = PAGE + 4, [EIGHTH] = PAGE + 8};
    if (rooms[room].start == NULL) make_room(room);
    uint8_t *p = side == HIGH ? rooms[room].start + ROOM_BYTES - length : rooms[room].start + into[side];
    if (length > 0) memcpy(p, bytes, length);
    if (side != LOW) memcpy(p - GUARD_BYTES, guards, GUARD_BYTES);
    if (side != HIGH) memcpy(p + length, guards, GUARD_BYTES);
    rooms[room].lent = p;
    rooms[room].length = length;
    rooms[room].side = side;
    return p;
}

const uint8_t *lend_to_read(enum room room, enum side side, const uint8_t *bytes, size_t length) {
    const uint8_t *p = lend(room, side, bytes, length);
    return rooms[room].shown + (p - rooms[room].start);
}

const uint8_t *lent_bytes(enum room room) { return rooms[room].lent; }

int stands(enum room room, const uint8_t *bytes, size_t length) {
    const uint8_t *p = rooms[room].lent;
    if (rooms[room].side != LOW && memcmp(p - GUARD_BYTES, guards, GUARD_BYTES) != 0) return 0;
    if (rooms[room].side != HIGH && memcmp(p + rooms[room].length, guards, GUARD_BYTES) != 0) return 0;
    return length == rooms[room].length && (length == 0 || memcmp(p, bytes, length) == 0);
}

/* where the chance begins: never 0 */
#ifndef SEED
#define SEED 88172645463325252u
#endif

uint64_t chance(void) {
    static uint64_t x = SEED;
    x ^= x << 13;
    x ^= x >> 7;
    x ^= x << 17;
    return x * 2685821657736338717u;
}

uint32_t below(uint32_t n) { return (uint32_t)((chance() >> 32) * n >> 32); }
