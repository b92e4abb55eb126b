/* The time of each call is linear in its lengths: its instructions, counted one by one, at a length, at twice and at four times it. What the second doubling
   adds is at most twice what the first added, and some for the ends of loops. */
#include "called.h"
#include <stdio.h>
#include <string.h>

enum { SHORT = 256, MOST = 4 * SHORT, SOME = 400 };

/* A long list: options of 8 bytes. As a packet it stands behind the head and the fixed part of a redirect or an advertisement. */
static uint8_t packet[MOST + 40], list[MOST + 8], out[MOST + 64];
static uint32_t index_numbers[2 * MOST / 8], plan[MOST / 8];
static const uint8_t address[16] = {0xfe, 0x80, [15] = 1};

/* n is the length of the options; the index has at most 64 entries, so lists for an index are a half as long. */
static struct value value_of(const char *name, char kind, size_t bytes, size_t n, int redirect) {
    struct value v = {0, NULL, 0};
    size_t fixed = redirect ? 40 : 16;
    if (kind == 'a') v.bytes = address, v.length = bytes;
    else if (strcmp(name, "packet") == 0) v.bytes = packet, v.length = fixed + n;
    else if (strcmp(name, "bytes") == 0) v.bytes = list, v.length = n;
    else if (strcmp(name, "options") == 0 || strcmp(name, "option") == 0) v.bytes = list, v.length = n;
    else if (strcmp(name, "payload") == 0) v.bytes = packet + 8, v.length = fixed - 8 + n;
    else if (strcmp(name, "list") == 0) v.bytes = list, v.length = n + 8;
    else if (strcmp(name, "more") == 0) v.bytes = list, v.length = 8;
    else if (strcmp(name, "out") == 0) v.bytes = out, v.length = sizeof out;
    else if (strcmp(name, "index") == 0) v.bytes = (const uint8_t *)index_numbers, v.length = n + 8;
    else if (strcmp(name, "plan") == 0) v.bytes = (const uint8_t *)plan, v.length = n / 8 * 4;
    else if (kind == 'b' || kind == 'B') v.bytes = packet, v.length = fixed + n;
    else if (strcmp(name, "hop_limit") == 0) v.number = 255;
    else if (strcmp(name, "type") == 0) v.number = 134;
    else if (strcmp(name, "edition") == 0) v.number = 2;
    else if (strcmp(name, "limit") == 0) v.number = 24;
    else if (strcmp(name, "used") == 0) v.number = n;
    else if (strcmp(name, "entries") == 0) v.number = n / 8;
    else if (strcmp(name, "i") == 0) v.number = n / 8 - 1;
    return v;
}

static unsigned long steps_at(const struct call *call, size_t n, int redirect) {
    static uint8_t left[3 * ROOM_LEFT];
    struct value values[MOST_ARGUMENTS];
    size_t fixed = redirect ? 40 : 16;
    memset(packet, 0, sizeof packet);
    packet[0] = redirect ? 137 : 134;
    memcpy(packet + fixed, list, n);
    /* the field that validates */
    struct brothladder_summed s = brothladder_sum_push(brothladder_sum_pseudo(address, address, (uint32_t)(fixed + n)), packet, fixed + n);
    packet[2] = (uint8_t)((65535 - s.sum) >> 8);
    packet[3] = (uint8_t)(65535 - s.sum);
    for (int i = 0; i < MOST_ARGUMENTS && call->argument[i].name; i++) values[i] = value_of(call->argument[i].name, call->argument[i].kind, call->argument[i].bytes, n, redirect);
    return call_at(call, values, LOW, STEPS, left).steps;
}

void linear(void) {
    for (size_t i = 0; i < MOST / 8; i++) {
        list[8 * i] = 14;
        list[8 * i + 1] = 1;
        index_numbers[2 * i] = 14;
        index_numbers[2 * i + 1] = (uint32_t)(8 * i);
        plan[i] = 1;
    }
    for (size_t c = 0; c < calls_there; c++)
        for (int redirect = 0; redirect < 2; redirect++) {
            size_t n = strncmp(calls[c].name, "index", 5) == 0 ? SHORT / 2 : SHORT;
            unsigned long one = steps_at(&calls[c], n, redirect), two = steps_at(&calls[c], 2 * n, redirect), four = steps_at(&calls[c], 4 * n - 8 * (n < SHORT), redirect);
            char detail[80];
            snprintf(detail, sizeof detail, "%lu, %lu and %lu instructions", one, two, four);
            check(one > 0 && four <= two + 2 * (two > one ? two - one : 0) + SOME, calls[c].name, detail);
            if (REPORT && !redirect) printf("%-18s %6lu %6lu %6lu instructions\n", calls[c].name, one, two, four);
        }
}
