/* bench check: every function against the definition. bench names: their numbers. bench: each function once at each length,
   between two markers that the counting plugin sees (count.c). */
#include <stdint.h>
#include <stddef.h>
#include <stdio.h>
#include <string.h>
typedef uint64_t (*fn)(const void *, size_t);
#include "table.h"
#define N (sizeof T / sizeof *T)
static uint8_t buf[65536 + 128] __attribute__((aligned(64)));
static uint64_t x = 88172645463325252ull;
static void fill(void) {
    for (size_t i = 0; i < sizeof buf; i++) { x ^= x << 13; x ^= x >> 7; x ^= x << 17; buf[i] = x; }
}
/* RFC 1071 by definition, modulo 65535 */
static unsigned wanted(const uint8_t *p, size_t n) {
    uint64_t s = 0;
    for (size_t i = 0; i < n; i++) s += (i & 1) ? p[i] : (unsigned)p[i] << 8;
    if (s == 0) return 0;
    s %= 65535;
    return s ? s : 65535;
}
static unsigned got(size_t k, const uint8_t *p, size_t n) {
    unsigned r = T[k].f(p, n) & 0xffff;
    return T[k].swap ? (r >> 8 | r << 8) & 0xffff : r;
}
static int check(void) {
    int bad = 0;
    for (size_t k = 0; k < N; k++)
        for (int pass = 0; pass < 4; pass++) { /* random, all ones, all zeros, an odd address */
            fill();
            for (size_t n = 0; n <= 2001; n++) {
                size_t m = n == 2001 ? 65535 : n;
                uint8_t *p = buf + (pass == 3 ? 1 : pass * 2);
                if (pass == 1) memset(p, 0xff, m);
                if (pass == 2) memset(p, 0, m);
                if (wanted(p, m) != got(k, p, m)) { printf("%s: wrong at length %zu\n", T[k].name, m); bad = 1; break; }
            }
        }
    return bad;
}
__attribute__((noinline)) uint64_t empty(const void *p, size_t n) { __asm__ volatile("" :: "r"(p), "r"(n)); return 0; }
static inline void mark(long a, long b) {
    long r;
    __asm__ volatile("syscall" : "=a"(r) : "a"(9999L), "D"(a), "S"(b) : "rcx", "r11", "memory");
}
static volatile uint64_t sink;
static __attribute__((noinline)) void one(fn f, long id, const uint8_t *p, size_t n) {
    sink = f(p, n); /* once unmarked, so that everything is bound */
    mark(-1, 0);
    uint64_t r = f(p, n);
    mark(id, n);
    sink = r;
}
int main(int argc, char **argv) {
    static const size_t lens[] = {8, 40, 64, 576, 1280, 65535};
    if (argc > 1 && !strcmp(argv[1], "check")) return check();
    if (argc > 1) { for (size_t k = 0; k < N; k++) printf("%zu %s\n", k, T[k].name); return 0; }
    fill();
    for (size_t l = 0; l < sizeof lens / sizeof *lens; l++) {
        one(empty, 1000, buf, lens[l]);
        for (size_t k = 0; k < N; k++) one(T[k].f, k, buf, lens[l]);
    }
    return 0;
}
