/* calls CAPTURE: every call of brothladder.h on each of its inputs, between two markers that the counting plugin sees (count.c); a call that takes an
   edition, in each. Prints a line for each: its number, its table, the call, the input, the edition, whether a caller's loop is counted too, the answer,
   and a hash of the answer and of all buffers that calls write to. bench/calls links it with the library, with the archive for kernels and with plain C,
   whose lines must all be the same, and with calls that do nothing: `calls CAPTURE empty`, which leaves out the caller's loops. `calls CAPTURE stack`
   prints, for each of the chain's deepest packets, the bytes of stack that it was seen to write to, and the refusal. */
#include "brothladder.h"
#include <stdio.h>
#include <stdlib.h>
#include <string.h>

enum { FIRST = BROTHLADDER_EDITION_FIRST, SECOND = BROTHLADDER_EDITION_SECOND, ROOM = 2048, NUMBERS = 128 };

/* what the calls answer and write to; before each call the buffers are as they were given */
static union {
    uint32_t answer;
    struct brothladder_head head;
    struct brothladder_verified verified;
    struct brothladder_received received;
    struct brothladder_stepped stepped;
    struct brothladder_prefix prefix;
    struct brothladder_route route;
    struct brothladder_servers servers;
    struct brothladder_preferred preferred;
    struct brothladder_mtu mtu;
    struct brothladder_bytes bytes;
    struct brothladder_message message;
    struct brothladder_written written;
    struct brothladder_chain chain;
    struct brothladder_updated updated;
    struct brothladder_summed summed;
    struct brothladder_indexed indexed;
    struct brothladder_found found;
    struct brothladder_planned planned;
    struct brothladder_checked checked;
    struct brothladder_part part;
} got;
static uint8_t out[ROOM], given[ROOM];
static uint32_t numbers[NUMBERS], given_numbers[NUMBERS];
static uint32_t edition;
static int empty;
static long measured;
static const char *table;

static inline void mark(long a, long b) {
    long r;
    __asm__ volatile("syscall" : "=a"(r) : "a"(9999L), "D"(a), "S"(b) : "rcx", "r11", "memory");
}

static void ready(void) {
    memset(&got, 0, sizeof got);
    memcpy(out, given, sizeof out);
    memcpy(numbers, given_numbers, sizeof numbers);
}

static void give(const uint8_t *p, size_t n) {
    memset(given, 0, sizeof given);
    memcpy(given, p, n);
}

static uint64_t hash(uint64_t h, const void *bytes, size_t n) {
    for (size_t i = 0; i < n; i++) h = (h ^ ((const uint8_t *)bytes)[i]) * 1099511628211u;
    return h;
}

static void tell(const char *call, const char *on, int loop, uint32_t wanted) {
    uint64_t h = hash(hash(hash(14695981039346656037u, &got, sizeof got), out, sizeof out), numbers, sizeof numbers);
    printf("%ld;%s;%s;%s;%u;%d;%u;%016llx\n", measured++, table, call, on, edition, loop, got.answer, (unsigned long long)h);
    if (!empty && got.answer != wanted) printf("%s, %s: the answer is not %u\n", call, on, wanted), exit(1);
}

/* one call, or a caller's loop of calls: once before, so that all is translated, and once to be counted; its name is told without brothladder_ */
#define MEASURE(call, on, loop, wanted, ...)              \
    do {                                                  \
        for (int i = 0; i < 2; i++) {                     \
            ready();                                      \
            mark(-1, 0);                                  \
            __VA_ARGS__;                                  \
            mark(measured, 0);                            \
        }                                                 \
        tell(#call + 12, on, loop, BROTHLADDER_##wanted); \
    } while (0)
#define CALL(call, on, wanted, member, ...) MEASURE(call, on, 0, wanted, got.member = call(__VA_ARGS__))
#define LOOP(call, on, wanted, ...) MEASURE(call, on, 1, wanted, if (!empty) __VA_ARGS__)

/* ---- a record of a capture: 49 36, the hop limit, source, destination, the length, the packet */
static size_t length_of(const uint8_t *r) { return (size_t)r[35] * 256 + r[36]; }

static uint32_t word(const uint8_t *p) { return (uint32_t)p[0] << 24 | (uint32_t)p[1] << 16 | (uint32_t)p[2] << 8 | p[3]; }

/* where in an advertisement the first option of a type stands */
static size_t find(const uint8_t *p, size_t n, uint8_t type) {
    for (size_t at = 16; at < n; at += 8 * (size_t)p[at + 1])
        if (p[at] == type) return at;
    exit(3);
}

/* a caller's loops: steps from 0 until no option comes, and to the first option of a type */
static __attribute__((noinline)) void walk(const uint8_t *p, size_t n, size_t offset) {
    size_t at = 0;
    while ((got.stepped = brothladder_step(p, n, offset, at, edition)).answer == BROTHLADDER_OPTION) at = got.stepped.next;
}

static __attribute__((noinline)) void walk_to(const uint8_t *p, size_t n, uint32_t type) {
    size_t at = 0;
    while ((got.stepped = brothladder_step(p, n, 0, at, edition)).answer == BROTHLADDER_OPTION && got.stepped.type != type) at = got.stepped.next;
}

/* ---- reading */
static void received(const uint8_t *r, const char *bytes) {
    const uint8_t *p = r + 37;
    size_t n = length_of(r);
    CALL(brothladder_receive, bytes, RECEIVED, received, p, n, r[2], r + 3, r + 19, edition);
    LOOP(brothladder_step, bytes, END, walk(p + 16, n - 16, 16));
}

static void verified(const uint8_t *r, const char *bytes) {
    const uint8_t *p = r + 37;
    size_t n = length_of(r);
    CALL(brothladder_verify, bytes, VALID, verified, p, n, r + 3, r + 19);
    CALL(brothladder_verify_by_fours, bytes, VALID, verified, p, n, r + 3, r + 19);
}

/* the readers, over the options of an advertisement of 464 bytes and those of a redirect */
static void options(const uint8_t *r, const uint8_t *redirect) {
    const uint8_t *p = r + 37;
    size_t n = length_of(r), at = find(p, n, 3);
    CALL(brothladder_read_prefix, "", PREFIX, prefix, p + at, 32, at);
    at = find(p, n, 24);
    CALL(brothladder_read_route, "", ROUTE, route, p + at, 8 * (size_t)p[at + 1], at);
    at = find(p, n, 25);
    CALL(brothladder_read_dns, "", SERVERS, servers, p + at, 8 * (size_t)p[at + 1], at);
    at = find(p, n, 5);
    CALL(brothladder_read_mtu, "", MTU, mtu, p + at, 8, at);
    CALL(brothladder_read_link_layer_address, "", BYTES, bytes, redirect + 40, 8, 40, BROTHLADDER_KIND_TARGET_LINK_LAYER_ADDRESS);
    CALL(brothladder_read_redirected_header, "", BYTES, bytes, redirect + 48, 56, 48);
}

/* ---- writing: an advertisement, as its sender writes it and as the others do */
static void sent(const uint8_t *r, const char *bytes) {
    const uint8_t *p = r + 37;
    size_t n = length_of(r);
    memset(given, 0, sizeof given);
    CALL(brothladder_write_clearing, bytes, WRITTEN, written, p[0], p[1], word(p + 4), p + 8, n - 8, r + 3, r + 19, out, ROOM, edition);
    give(p, n);
    memset(given, 0x5a, 8);
    CALL(brothladder_write_in_place_clearing, bytes, WRITTEN, written, p[0], p[1], word(p + 4), out, n, r + 3, r + 19, edition);
}

static void passed_on(const uint8_t *r, const char *bytes) {
    const uint8_t *p = r + 37;
    size_t n = length_of(r);
    memset(given, 0, sizeof given);
    CALL(brothladder_write, bytes, WRITTEN, written, p[0], p[1], word(p + 4), p + 8, n - 8, r + 3, r + 19, out, ROOM, edition);
    CALL(brothladder_write_keeping, bytes, WRITTEN, written, p[0], p[1], word(p + 4), p + 8, n - 8, r + 3, r + 19, out, ROOM, edition);
    give(p, n);
    memset(given, 0x5a, 8);
    CALL(brothladder_write_in_place, bytes, WRITTEN, written, p[0], p[1], word(p + 4), out, n, r + 3, r + 19, edition);
}

static void put(const uint8_t *address) {
    memset(given, 0, sizeof given);
    CALL(brothladder_put_prefix, "", WRITTEN, written, 64, 1, 1, 86400, 14400, address, out, ROOM, 16);
    CALL(brothladder_put_mtu, "", WRITTEN, written, 1500, out, ROOM, 48);
    CALL(brothladder_put_link_layer_address, "", WRITTEN, written, BROTHLADDER_KIND_SOURCE_LINK_LAYER_ADDRESS, address, out, ROOM, 56);
}

static void changed(const uint8_t *r) {
    give(r + 37, length_of(r));
    CALL(brothladder_updated_checksum, "", UPDATED, updated, out, length_of(r), 4, 0x1234);
    CALL(brothladder_change_word, "", UPDATED, updated, out, length_of(r), 4, 0x1234);
}

/* an advertisement of 1,240 bytes: 38 prefixes and an MTU */
static const uint8_t *longest(void) {
    static uint8_t r[37 + 1240] = {0x49, 0x36, 255, 0xfe, 0x80};
    static const uint8_t prefix[20] = {3, 4, 64, 0xc0, 0, 1, 0x51, 0x80, 0, 0, 0x38, 0x40, 0, 0, 0, 0, 0x20, 1, 0x0d, 0xb8};
    static const uint8_t mtu[8] = {5, 1, 0, 0, 0, 0, 5, 0xdc};
    uint8_t *p = r + 37;
    r[18] = 1, r[19] = 0xff, r[20] = 2, r[34] = 1, r[35] = 1240 / 256, r[36] = 1240 % 256;
    for (int i = 0; i < 38; i++) memcpy(p + 16 + 32 * i, prefix, sizeof prefix), p[16 + 32 * i + 21] = (uint8_t)i;
    memcpy(p + 1232, mtu, sizeof mtu);
    got.written = brothladder_write_clearing(134, 0, 0x40000708, p + 8, 1232, r + 3, r + 19, out, sizeof out, FIRST);
    memcpy(p, out, 8);
    return r;
}

/* ---- packets that quote others: one echo request, one behind eight errors, and a real redirect, which a Linux router sent with the link-layer address of
   its target and the echo request that it was about */
static const uint8_t redirect[104 + 1] =
    "\x89\0\x9a\x27\0\0\0\0\xfe\x80\0\0\0\0\0\0\0\0\0\xff\xfe\0\1\3\x20\1\x0d\xb8\0\3\0\0\0\0\0\0\0\0\0\x33\2\1\2\0\0\0\1\3\4\7\0\0\0\0\0\0"
    "\x60\2\xe0\x61\0\x08\x3a\x40\x20\1\x0d\xb8\0\1\0\0\0\0\0\0\0\0\0\x11\x20\1\x0d\xb8\0\3\0\0\0\0\0\0\0\0\0\x33\x80\0\x0d\x43\x16\xbf\0\1";

static void nest(uint8_t *p, int deep) {
    memset(p, 0, 8 + 48 * (size_t)deep);
    for (int i = 0; i < deep; i++, p += 48) p[0] = 1, p[8] = 0x60, p[14] = 58;
    p[0] = 128;
}

static void quoting(void) {
    static uint8_t one[8 + 48], eight[8 + 48 * 8];
    nest(one, 1);
    nest(eight, 8);
    CALL(brothladder_chain, "one level", CHAIN, chain, one, sizeof one, edition);
    CALL(brothladder_chain, "eight levels", CHAIN, chain, eight, sizeof eight, edition);
    CALL(brothladder_chain, "a redirect", CHAIN, chain, redirect, sizeof redirect - 1, edition);
}

/* ---- sums of several parts */
static uint8_t bytes[1280];
static __attribute__((noinline)) void in_halves(void) {
    got.summed = brothladder_sum_push(brothladder_sum_push(brothladder_sum_pseudo(bytes, bytes + 16, 1280), bytes, 640), bytes + 640, 640);
}

static void sums(void) {
    const struct brothladder_summed even = {BROTHLADDER_SUM, 0xf204, 0}, odd = {BROTHLADDER_SUM, 0xf201, 1}, later = {BROTHLADDER_SUM, 0xf0eb, 1};
    uint32_t x = 1;
    for (int i = 0; i < 1280; i++) x = x * 1103515245u + 12345u, bytes[i] = (uint8_t)(x >> 16);
    CALL(brothladder_sum, "1,280 bytes", SUM, summed, bytes, 1280);
    CALL(brothladder_sum_push, "1,280 bytes", SUM, summed, even, bytes, 1280);
    CALL(brothladder_sum_push, "1,280 bytes behind an odd part", SUM, summed, odd, bytes, 1280);
    CALL(brothladder_sum_join, "", SUM, summed, even, later);
    CALL(brothladder_sum_join, "behind an odd part", SUM, summed, odd, later);
    CALL(brothladder_sum_pseudo, "", SUM, summed, bytes, bytes + 16, 1280);
    LOOP(brothladder_sum_pseudo, "and two pushes of 640 bytes", SUM, in_halves());
}

/* ---- the index, and the walks that it saves */
static void indexed(const uint8_t *list, size_t n, const char *of, int with_append) {
    static const uint8_t unit[8] = {200, 1};
    give(list, n);
    memset(given_numbers, 0, sizeof given_numbers);
    CALL(brothladder_index_build, of, INDEXED, indexed, list, n, numbers, NUMBERS, edition);
    size_t entries = got.indexed.entries;
    memcpy(given_numbers, numbers, sizeof numbers);
    if (with_append) CALL(brothladder_index_append, of, INDEXED, indexed, out, ROOM, n, numbers, NUMBERS, entries, unit, 8, edition);
    LOOP(brothladder_step, of, END, walk(list, n, 0));
}

/* 64 options of eight bytes: the i-th, counted from 1, has type 100 + i */
static void looked_up(void) {
    static uint8_t units[8 * 64];
    for (uint8_t i = 0; i < 64; i++) units[8 * i] = (uint8_t)(101 + i), units[8 * i + 1] = 1;
    indexed(units, sizeof units, "a list of 64", 0);
    if (edition == SECOND) return;
    for (uint32_t i = 0; i < 64; i++) given_numbers[2 * i] = 101 + i, given_numbers[2 * i + 1] = 8 * i;
    CALL(brothladder_index_first, "the 3rd of 64", FOUND, found, numbers, NUMBERS, 64, 103);
    CALL(brothladder_index_first, "the 64th", FOUND, found, numbers, NUMBERS, 64, 164);
    CALL(brothladder_index_next, "the 3rd of 64", FOUND, found, numbers, NUMBERS, 64, 103, 0);
    CALL(brothladder_index_next, "the 64th", FOUND, found, numbers, NUMBERS, 64, 164, 0);
    LOOP(brothladder_step, "to the 3rd of 64", OPTION, walk_to(units, sizeof units, 103));
    LOOP(brothladder_step, "to the 64th", OPTION, walk_to(units, sizeof units, 164));
}

/* ---- plans: 40 prefixes at 1,240 bytes a message, which go into two */
static void plans(void) {
    static uint8_t list[32 * 40];
    static const uint32_t plan[2] = {38, 2};
    for (int i = 0; i < 40; i++) list[32 * i] = 3, list[32 * i + 1] = 4;
    CALL(brothladder_plan, "", PLANNED, planned, list, sizeof list, 1240, numbers, 8, edition);
    CALL(brothladder_check_plan, "", ACCEPTED, checked, list, sizeof list, 1240, plan, 2, edition);
    CALL(brothladder_plan_message, "the first", ACCEPTED, part, list, sizeof list, 1240, plan, 2, 0, edition);
    CALL(brothladder_plan_message, "the second", ACCEPTED, part, list, sizeof list, 1240, plan, 2, 1, edition);
}

/* ---- The stack that the chain writes to, down from the address to return to: it is called on a stack of its own that was filled before. */
static size_t stack_of(const uint8_t *p, size_t n, unsigned in_edition) {
    static uint8_t stack[16384] __attribute__((aligned(16)));
    size_t i = 0;
    memset(stack, 0xa5, sizeof stack);
    uint8_t *top = stack + sizeof stack;
    struct brothladder_chain *to = &got.chain;
    __asm__ volatile("mov %%rsp, %%rbx\n mov %[top], %%rsp\n call brothladder_chain\n mov %%rbx, %%rsp"
                     : "+D"(to), "+S"(p), "+d"(n), "+c"(in_edition)
                     : [top] "r"(top)
                     : "rax", "rbx", "r8", "r9", "r10", "r11", "cc", "memory", "xmm0", "xmm1", "xmm2", "xmm3", "xmm4", "xmm5", "xmm6", "xmm7",
                       "xmm8", "xmm9", "xmm10", "xmm11", "xmm12", "xmm13", "xmm14", "xmm15");
    while (i < sizeof stack && stack[i] == 0xa5) i++;
    return sizeof stack - i;
}

/* eight levels, and in the last a message: without a quote and with a ninth, and lists that are clean and that are refused in each way */
static int stacks(void) {
    static const struct { uint8_t rest[40 + 8]; size_t bytes; } last[] = {
        {{128}, 8}, {{1}, 8}, {{137}, 40}, {{137, [40] = 4, 1}, 48}, {{137, [40] = 1, 9}, 48}, {{137, [40] = 3, 1}, 48}, {{135, [24] = 1, 0}, 48},
        {{137, [40] = 24, 1, 129}, 48}, {{137, [40] = 24, 1, 1}, 48}, {{137, [40] = 25, 1}, 48}};
    static uint8_t p[8 + 48 * 8 + 48];
    for (size_t i = 0; i < 2 * sizeof last / sizeof *last; i++) {
        nest(p, 8);
        memcpy(p + 384, last[i / 2].rest, last[i / 2].bytes);
        size_t used = stack_of(p, 384 + last[i / 2].bytes, i % 2 ? SECOND : FIRST);
        printf("%zu %u\n", used, got.chain.refusal);
    }
    return 0;
}

/* the calls that take no edition */
static void in_any(const uint8_t *r, const uint8_t *second, const uint8_t *third) {
    table = "reading";
    CALL(brothladder_decode, "", KNOWN, head, r + 37, length_of(r));
    verified(r, "64 bytes"), verified(second, "464 bytes"), verified(third, "1,240 bytes");
    options(second, redirect);
    CALL(brothladder_preference, "", PREFERENCE, preferred, second + 37, length_of(second));
    CALL(brothladder_read_message, "an advertisement", MESSAGE, message, r + 37, length_of(r));
    CALL(brothladder_read_message, "a redirect", MESSAGE, message, redirect, sizeof redirect - 1);
    table = "writing";
    put(r + 3);
    changed(r);
    table = "sums";
    sums();
}

int main(int argc, char **argv) {
    static uint8_t capture[4096];
    FILE *f = argc > 1 ? fopen(argv[1], "rb") : NULL;
    if (f == NULL || fread(capture, 1, sizeof capture, f) == 0) return 2;
    empty = argc > 2 && !strcmp(argv[2], "empty");
    if (argc > 2 && !strcmp(argv[2], "stack")) return stacks();
    const uint8_t *r = capture, *second = r + 37 + length_of(r), *third = longest(); /* its first two records are advertisements */
    for (edition = FIRST; edition <= SECOND; edition++) {
        if (edition == FIRST) in_any(r, second, third);
        table = "reading";
        received(r, "64 bytes"), received(second, "464 bytes");
        quoting();
        table = "writing";
        sent(r, "64 bytes"), sent(second, "464 bytes"), sent(third, "1,240 bytes");
        passed_on(r, "64 bytes"), passed_on(second, "464 bytes"), passed_on(third, "1,240 bytes");
        table = "index";
        indexed(r + 37 + 16, length_of(r) - 16, "a list of 3", 1), indexed(second + 37 + 16, length_of(second) - 16, "a list of 17", 1);
        looked_up();
        table = "plans";
        plans();
    }
    return 0;
}
