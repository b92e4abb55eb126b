/* driver.c: makes the calls that standard input asks for, through the header alone, and writes to standard output what each one answered and what the
 * buffers that were lent to it then hold. Each buffer ends at a page that cannot be touched, and has guard bytes before it.
 * driver [REQUEST BIT]: of this request, counted from 0, one bit of the answer is written wrong: what compares must see it. */
#define _GNU_SOURCE
#include "brothladder.h"
#include <stdio.h>
#include <stdlib.h>
#include <string.h>
#include <sys/mman.h>
#include <unistd.h>

enum { BUFFERS = 3, ROOM = 1 << 20, PAGE = 4096, GUARD = 64, OPTION = 2040, BLOCK = OPTION * 512 };
static const uint64_t FAR = UINT64_C(4113) * BLOCK; /* a little over 4 GiB */

struct request {
    uint32_t call, edition;
    uint64_t number[4];
    uint64_t length[BUFFERS]; /* what the call is told: in bytes, or in numbers of 32 bits */
    uint32_t bytes[BUFFERS];  /* so many bytes of each buffer follow */
    uint32_t flags;           /* bit i: buffer i is NULL; bit 8 + i: it goes on behind its bytes, with zeros; bit 16 + i: with options of 2,040 bytes */
};

static uint8_t *end[BUFFERS];  /* where each buffer ends */
static uint8_t *zeros, *options; /* buffers that go on for more than 4 GiB */
static uint8_t before[BUFFERS][ROOM];

static void *must(void *mapped) {
    if (mapped == MAP_FAILED) {
        perror("driver");
        exit(2);
    }
    return mapped;
}

static void wrong(const char *what) {
    fprintf(stderr, "driver: %s\n", what);
    exit(2);
}

static uint8_t *reserved(uint64_t bytes, int protection) {
    return must(mmap(NULL, bytes, protection, MAP_PRIVATE | MAP_ANONYMOUS | MAP_NORESERVE, -1, 0));
}

/* 4 GiB of options of 255 units: one block of them, mapped again and again */
static uint8_t *long_list(void) {
    static uint8_t block[BLOCK];
    for (size_t at = 0; at < BLOCK; at += OPTION) {
        block[at] = 253;
        block[at + 1] = 255;
    }
    int file = memfd_create("options", 0);
    if (file < 0 || write(file, block, BLOCK) != BLOCK)
        wrong("no file in memory");
    uint8_t *list = reserved(FAR, PROT_NONE);
    for (uint64_t at = 0; at < FAR; at += BLOCK)
        must(mmap(list + at, BLOCK, PROT_READ | PROT_WRITE, MAP_PRIVATE | MAP_FIXED | MAP_NORESERVE, file, 0));
    return list;
}

static uint8_t *far_buffer(const struct request *r, int i) {
    if (r->flags >> (16 + i) & 1)
        return options ? options : (options = long_list());
    return zeros ? zeros : (zeros = reserved(FAR, PROT_READ | PROT_WRITE));
}

static int is_far(const struct request *r, int i) { return (r->flags >> (8 + i) | r->flags >> (16 + i)) & 1; }

/* reads the bytes of buffer i and answers where they stand */
static uint8_t *lent(const struct request *r, int i) {
    size_t n = r->bytes[i];
    if (n > ROOM - GUARD)
        wrong("a buffer is too long");
    uint8_t *p = is_far(r, i) ? far_buffer(r, i) : end[i] - n;
    if (is_far(r, i))
        memcpy(before[i], p, n);
    else
        memset(p - GUARD, 0xa5, GUARD);
    if (fread(p, 1, n, stdin) != n)
        wrong("a request is cut");
    return p;
}

/* writes what buffer i holds, and leaves a long one as it was found */
static void given_back(const struct request *r, int i, uint8_t *p) {
    fwrite(p, 1, r->bytes[i], stdout);
    if (is_far(r, i)) {
        memcpy(p, before[i], r->bytes[i]);
        return;
    }
    for (int j = 1; j <= GUARD; j++)
        if (p[-j] != 0xa5)
            wrong("a byte before a buffer was written");
}

/* makes one call; the answer's bytes stand in `out` */
static size_t called(const struct request *r, uint8_t *b[BUFFERS], uint8_t *out) {
    const uint64_t *n = r->number, *l = r->length;
    const uint32_t e = r->edition;
    uint32_t *first = (uint32_t *)(void *)b[0], *second = (uint32_t *)(void *)b[1];
#define CALL(number, name, call)                \
    case number: {                              \
        struct brothladder_##name s = call;     \
        memcpy(out, &s, sizeof s);              \
        return sizeof s;                        \
    }
    switch (r->call) {
        CALL(1, chain, brothladder_chain(b[0], l[0], e))
        CALL(2, indexed, brothladder_index_build(b[0], l[0], second, l[1], e))
        CALL(3, indexed, brothladder_index_append(b[0], l[0], n[0], second, l[1], n[1], b[2], l[2], e))
        CALL(4, found, brothladder_index_first(first, l[0], n[0], (uint8_t)n[1]))
        CALL(5, found, brothladder_index_next(first, l[0], n[0], (uint8_t)n[1], n[2]))
        CALL(6, checked, brothladder_check_plan(b[0], l[0], n[0], second, l[1], e))
        CALL(7, planned, brothladder_plan(b[0], l[0], n[0], second, l[1], e))
        CALL(8, part, brothladder_plan_message(b[0], l[0], n[0], second, l[1], n[1], e))
    }
    wrong("no such call");
    return 0;
}

int main(int argc, char **argv) {
    const long flipped = argc == 3 ? atol(argv[1]) : -1, bit = argc == 3 ? atol(argv[2]) : 0;
    for (int i = 0; i < BUFFERS; i++) {
        end[i] = reserved(ROOM + PAGE, PROT_READ | PROT_WRITE) + ROOM;
        if (mprotect(end[i], PAGE, PROT_NONE))
            wrong("no guard page");
    }
    struct request r;
    for (long number = 0; fread(&r, sizeof r, 1, stdin) == 1; number++) {
        uint8_t *b[BUFFERS], *p[BUFFERS], out[256];
        for (int i = 0; i < BUFFERS; i++) {
            p[i] = lent(&r, i);
            b[i] = r.flags >> i & 1 ? NULL : p[i];
        }
        size_t size = called(&r, b, out);
        if (number == flipped)
            out[bit / 8 % (long)size] ^= (uint8_t)(1u << bit % 8);
        fwrite(out, 1, size, stdout);
        for (int i = 0; i < BUFFERS; i++)
            given_back(&r, i, p[i]);
    }
    return fflush(stdout) ? 2 : 0;
}
