// Two lists of 17 options, 448 bytes. Each case is called once before it is counted.
#include <stdint.h>
#include <stdio.h>
#include <string.h>
#include <unistd.h>
#include <sys/syscall.h>

size_t bench_compare(const uint8_t *first, size_t first_len, const uint8_t *second, size_t second_len, uint32_t *report, size_t report_len);
size_t bench_common(const uint8_t *first, size_t first_len, const uint8_t *second, size_t second_len);
size_t bench_count(const uint8_t *options, size_t length);

enum { BYTES = 448, NUMBERS = 5 * 18 };
static uint8_t a[BYTES], b[BYTES];
static uint32_t report[NUMBERS];
static size_t answer;

// The options of the advertisement of 464 bytes, the second record of the capture (bench/calls).
static int read_list(const char *name)
{
    uint8_t bytes[4096];
    FILE *f = fopen(name, "rb");
    size_t n = f ? fread(bytes, 1, sizeof bytes, f) : 0, at = 0;
    if (n < 74) return 0;
    at = 37 + 256 * bytes[35] + bytes[36];
    if (n < at + 37 + 16 + BYTES || 256 * bytes[at + 35] + bytes[at + 36] != 16 + BYTES) return 0;
    memcpy(a, bytes + at + 37 + 16, BYTES);
    return 1;
}

static void run(int what, size_t n)
{
    answer = what == 0 ? bench_compare(a, BYTES, b, n, report, NUMBERS) : what == 1 ? bench_common(a, BYTES, b, n) : bench_count(a, BYTES) + bench_count(b, n);
}

static void counted(const char *name, int what, size_t n, size_t wanted)
{
    run(what, n);
    syscall(9999L, -1L, 0L);
    run(what, n);
    syscall(9999L, 1L, 1L);
    printf("%s\n", answer == wanted ? name : "wrong answer");
}

int main(int argc, char **argv)
{
    size_t last = 0, at = 0;
    if (argc != 2 || !read_list(argv[1])) return 1;
    memcpy(b, a, BYTES);
    while (at < BYTES) last = at, at += 8 * a[at + 1];
    counted("`compare`, the same bytes", 0, BYTES, 17);
    counted("`compare`, one option less in the second list", 0, last, 17);
    b[BYTES - 1] ^= 1;
    counted("`compare`, another last byte", 0, BYTES, 17);
    memcpy(b, a, BYTES);
    for (at = 0; at < BYTES; at += 8 * b[at + 1]) b[at] = 14;
    counted("`compare`, another type of each option", 0, BYTES, 17);
    memcpy(b, a, BYTES);
    counted("`common_options`, the same bytes", 1, BYTES, BYTES);
    counted("`count` of both lists", 2, BYTES, 34);
    return 0;
}
