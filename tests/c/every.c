/* Packets through every call of the header: by chance, real ones that were changed or cut, messages with chosen options, and nests of quotes. Each call has
   its buffers against pages that cannot be touched, at their front and at their end in turns, those that it only reads in memory that cannot be written. Its
   answer, and what it leaves in the buffers that it writes, is that of plain C; and every answer keeps to the header's table of members. */
#define _GNU_SOURCE
#include "called.h"
#include "plain.h"
#include <stdio.h>
#include <stdlib.h>
#include <string.h>
#include <time.h>

/* How many packets go through every call. */
#ifndef EVERY
#define EVERY (PACKETS / 5)
#endif

static struct packet {
    uint8_t bytes[MOST_PACKET], source[16], destination[16];
    size_t length;
} packet;
static unsigned long made, calls_made, without_plain, ways[8];

/* ---- real packets: those of the captures that the variable CAPTURES names. Those in tests/c/captures were taken with tcpdump of links coming up and of the
   redirects of a Linux router */
static struct real {
    const uint8_t *bytes; /* of the packet; source and destination stand before its length */
    size_t length;
} *reals;
static size_t reals_there;

static void take_records(const char *name) {
    FILE *file = fopen(name, "rb");
    uint8_t *all = malloc(1 << 20);
    size_t n = file && all ? fread(all, 1, 1 << 20, file) : 0, at = 0;
    check(n > 0 || file, name, "a capture of records");
    while (n - at >= 37 && all[at] == 0x49) {
        size_t length = (size_t)all[at + 35] << 8 | all[at + 36];
        if (n - at - 37 < length || length > 9000) break;
        reals = realloc(reals, (reals_there + 1) * sizeof *reals);
        if (reals == NULL) exit(2);
        reals[reals_there].bytes = all + at + 37;
        reals[reals_there++].length = length;
        at += 37 + length;
    }
    if (file) fclose(file);
}

static void take_captures(void) {
    char names[16384];
    const char *given = getenv("CAPTURES");
    snprintf(names, sizeof names, "%s", given ? given : "examples/advertisements.rec tests/c/captures/boot.rec tests/c/captures/redirect.rec");
    for (char *name = strtok(names, " \n"); name; name = strtok(NULL, " \n")) take_records(name);
    check(reals_there > 0, "every call", "there are real packets to begin with");
}

/* One of them; a long one more seldom. */
static const struct real *some_real(void) {
    const struct real *r = &reals[below((uint32_t)reals_there)];
    return r->length > 1500 && below(16) ? some_real() : r;
}

static void real_packet(void) {
    const struct real *r = some_real();
    packet.length = r->length;
    memcpy(packet.bytes, r->bytes, r->length);
    memcpy(packet.source, r->bytes - 34, 16);
    memcpy(packet.destination, r->bytes - 18, 16);
}

/* ---- and what is made of them */
static void moved(size_t from, size_t to, size_t n) { memmove(packet.bytes + to, packet.bytes + from, n); }

/* Bytes taken out, put in twice, or taken from another packet, mostly whole units behind the head. */
static void cut_and_join(void) {
    size_t n = packet.length, unit = below(8) ? 8 : 1, at = n < 16 ? 0 : 8 + unit * below((uint32_t)((n - 8) / unit)), piece = unit * (1 + below(4));
    if (at + piece > n || n + piece > MOST_PACKET) return;
    switch (below(3)) {
    case 0: moved(at + piece, at, n - at - piece); packet.length -= piece; return;
    case 1: moved(at, at + piece, n - at); packet.length += piece; return;
    default: break;
    }
    const struct real *other = some_real();
    if (at > other->length) return;
    memcpy(packet.bytes + at, other->bytes + at, other->length - at);
    packet.length = other->length;
}

static void changed(void) {
    static const uint8_t telling[] = {0, 1, 2, 3, 4, 5, 6, 24, 25, 58, 127, 128, 133, 134, 135, 136, 137, 255};
    size_t n = packet.length;
    if (n == 0) return;
    switch (below(5)) {
    case 0: packet.bytes[below((uint32_t)n)] ^= (uint8_t)(1 << below(8)); return;
    case 1: packet.bytes[below((uint32_t)n)] = telling[below(sizeof telling)]; return;
    case 2: /* often the type or the length of an option */
        if (n > 16) packet.bytes[8 + 8 * below((uint32_t)(n - 8) / 8) + below(2)] = (uint8_t)below(8);
        return;
    case 3: packet.bytes[below(n < 2 ? 1 : 2)] = telling[below(sizeof telling)]; return;
    default: cut_and_join(); return;
    }
}

static void some_bytes(size_t n) {
    for (size_t i = 0; i < n; i++) packet.bytes[i] = (uint8_t)chance();
    packet.length = n;
}

/* A message with options that are chosen: up to 67 short ones in good order behind its own, or some of any type and length. */
static void chosen_options(void) {
    int many = below(8) == 0;
    packet.length = some_message(packet.bytes, packet.source, packet.destination);
    if (!many && below(4)) return;
    for (uint32_t k = many ? 56 + below(12) : below(12); k > 0; k--) {
        uint8_t *p = packet.bytes + packet.length;
        size_t units = many || below(3) ? 1 : below(6);
        memset(p, (int)below(4), 8 * units + 2);
        p[0] = (uint8_t)(many || below(3) ? 14 + below(3) : below(27));
        p[1] = (uint8_t)units;
        packet.length += units ? 8 * units : 8 * (size_t)(below(16) == 0);
    }
}

/* The field that validates, mostly. */
static void summed(void) {
    if (packet.length < 8 || below(8) == 0) return;
    unsigned sum = plain_checksum(packet.bytes, packet.length, packet.source, packet.destination);
    packet.bytes[2] = (uint8_t)(sum >> 8);
    packet.bytes[3] = (uint8_t)sum;
}

static void next_packet(void) {
    uint32_t way = below(16);
    some_message(packet.bytes, packet.source, packet.destination); /* addresses, where the packet has none of its own */
    ways[made++ % 4096 == 4095 ? 7 : way < 2 ? 0 : way < 4 ? 1 : way < 9 ? 2 : way < 11 ? 3 : way < 14 ? 4 : 5]++;
    if (made % 4096 == 0) some_bytes(65520 + below(32)), packet.bytes[0] = below(2) ? 128 : 135, packet.bytes[1] = 0; /* longer than a payload may be */
    else if (way < 2) some_bytes(below(8) ? below(200) : below(16));
    else if (way < 4) real_packet();
    else if (way < 9) for (real_packet(), way = 1 + below(4); way > 0; way--) changed();
    else if (way < 11) real_packet(), packet.length = below((uint32_t)packet.length + 1);
    else if (way < 14) chosen_options();
    else packet.length = some_nest(packet.bytes);
    if (made % 4 == 0) packet.length = damage(packet.bytes, packet.length);
    summed();
}

/* ---- through every call */
static void told(void) {
    printf("packet %lu from the seed, %zu bytes:", made, packet.length);
    for (size_t i = 0; i < packet.length && i < 600; i++) printf(" %02x", packet.bytes[i]);
    puts("");
    fflush(stdout);
}

static void through(const struct call *call, enum side side) {
    static uint8_t left[2 * MOST_PACKET], wanted_left[2 * MOST_PACKET];
    uint8_t wanted[MOST_ANSWER];
    struct value values[MOST_ARGUMENTS];
    size_t written = 0;
    values_of(call, values);
    struct outcome o = call_at(call, values, side, NOTHING, left);
    member_check(call, o.answer);
    for (int i = 0; i < MOST_ARGUMENTS && call->argument[i].name; i++)
        if (call->argument[i].kind == 'B' || call->argument[i].kind == 'N') written += values[i].length;
    if (plain_call(call, values, wanted, wanted_left)) {
        check(memcmp(o.answer, wanted, MOST_ANSWER) == 0, call->name, "another answer than plain C");
        check(memcmp(left, wanted_left, written) == 0, call->name, "other bytes left than by plain C");
    } else {
        struct refused r;
        memcpy(&r, o.answer, sizeof r);
        without_plain++;
        check(r.answer != BROTHLADDER_REFUSED || memcmp(left, wanted_left, written) == 0, call->name, "a refusal changed a buffer");
    }
}

void every(void) {
    static const char *const names[] = {"by chance", "real", "real and changed", "real and cut", "chosen options", "quotes", "", "too long"};
    struct timespec from, to;
    int telling = getenv("EVERY_TOLD") != NULL;
    take_captures();
    on_touch = told;
    clock_gettime(CLOCK_MONOTONIC, &from);
    for (unsigned long i = 0; i < EVERY; i++) {
        unsigned long failures = failed;
        next_packet();
        scene_of(packet.bytes, packet.length, packet.source, packet.destination);
        for (size_t c = 0; c < calls_there; c++) through(&calls[c], (i + c) % 16 == 15 ? ODD : (i + c) % 2 ? LOW : HIGH);
        same("the version", brothladder_version_6(), BROTHLADDER_VERSION);
        calls_made += calls_there + 1;
        if (telling && made % 1000000 == 0) fprintf(stderr, "fuzz: %lu packets, %lu failed\n", made, failed);
        if (failed > failures && failures == 0) told();
    }
    clock_gettime(CLOCK_MONOTONIC, &to);
    on_touch = NULL;
    members_seen();
    if (!telling) return;
    for (size_t c = 0; c < calls_there; c++) members_told(&calls[c]);
    printf("%-24s %lu calls: %u each time\n", "version_6", made, BROTHLADDER_VERSION);
    for (int i = 0; i < 8; i++)
        if (ways[i]) printf("%lu packets: %s\n", ways[i], names[i]);
    printf("%zu real packets; %lu calls without plain C; %lu comparisons; %ld seconds\n", reals_there, without_plain, passed, (long)(to.tv_sec - from.tv_sec));
    printf("fuzz: %lu packets, %lu calls, %lu failed\n", made, calls_made, failed);
}
