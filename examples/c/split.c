/* Sends a long router advertisement in several messages by a plan of the site's own, after the library's checker accepted it; and by the library's plan, to
 * compare. What would be sent is printed: the options of each message, its bytes, and whether the receive check takes it.
 *
 *     split
 */
#include "brothladder.h"
#include <stdio.h>
#include <string.h>

enum { LIMIT = 1240, MOST = 64, LONGEST = 2048 };

/* Named once, and used for all calls over these options. */
static const uint32_t edition = BROTHLADDER_EDITION_SECOND;

static const uint8_t source[16] = {0xfe, 0x80, [15] = 1}, destination[16] = {0xff, 2, [15] = 1};

/* The site's planner: one option a message. Nobody has to trust it: the checker looks at what it proposes. */
static size_t one_each(size_t options, uint32_t *plan) {
    for (size_t i = 0; i < options; i++) plan[i] = 1;
    return options;
}

/* A source link-layer address, an MTU, and so many prefixes: 8, 8 and 32 bytes each. */
static size_t advertise(uint8_t *p, unsigned prefixes) {
    static const uint8_t first[16] = {1, 1, 2, 0, 0, 0, 0, 1, 5, 1, 0, 0, 0, 0, 5, 0xdc};
    static const uint8_t prefix[20] = {3, 4, 64, 0xc0, 0, 1, 0x51, 0x80, 0, 0, 0x38, 0x40, 0, 0, 0, 0, 0x20, 1, 0x0d, 0xb8};
    memcpy(p, first, sizeof first);
    p += sizeof first;
    for (unsigned i = 0; i < prefixes; i++, p += 32) {
        memset(p, 0, 32);
        memcpy(p, prefix, sizeof prefix);
        p[23] = (uint8_t)i;
    }
    return sizeof first + 32 * prefixes;
}

/* One message: head and fixed part, and the options of the part. Its own sender writes 0 in reserved bits: the call that clears. */
static int send_part(const uint8_t *options, const struct brothladder_part *part, uint32_t count) {
    static uint8_t payload[LONGEST], out[LONGEST];
    memset(payload, 0, 8); /* reachable time and retransmission timer: unspecified */
    memcpy(payload + 8, options + part->at, part->length);
    struct brothladder_written w = brothladder_write_clearing(BROTHLADDER_TYPE_ROUTER_ADVERTISEMENT, 0, 0x40000708, payload, 8 + part->length,
                                                              source, destination, out, sizeof out, edition);
    if (w.answer != BROTHLADDER_WRITTEN) return -1;
    struct brothladder_received r = brothladder_receive(out, w.length, 255, source, destination, edition);
    printf("  %u option%s, %zu bytes, %s\n", (unsigned)count, count == 1 ? "" : "s", w.length, r.answer == BROTHLADDER_RECEIVED ? "received" : "refused");
    return 0;
}

/* Sends by a plan that the checker accepts, and by no other. The answers are compared with ACCEPTED: the others are not 0 either. */
static int send_by(const uint8_t *options, size_t length, const uint32_t *plan, size_t messages) {
    if (brothladder_check_plan(options, length, LIMIT, plan, messages, edition).answer != BROTHLADDER_ACCEPTED) {
        printf("  not accepted: nothing is sent\n");
        return -1;
    }
    for (size_t i = 0; i < messages; i++) {
        struct brothladder_part part = brothladder_plan_message(options, length, LIMIT, plan, messages, i, edition);
        if (part.answer != BROTHLADDER_ACCEPTED || 16 + part.length > LONGEST || send_part(options, &part, plan[i]) != 0) return -1;
    }
    return 0;
}

int main(void) {
    static uint8_t options[LONGEST];
    static uint32_t plan[MOST];
    size_t length = advertise(options, 40), messages = one_each(42, plan);
    printf("42 options of %zu bytes, one a message, proposed\n", length);
    int bad = send_by(options, length, plan, messages);
    printf("the same, but the last message is forgotten\n");
    bad |= send_by(options, length, plan, messages - 1) == 0;
    struct brothladder_planned p = brothladder_plan(options, length, LIMIT, plan, MOST, edition);
    if (p.answer != BROTHLADDER_PLANNED) return 1;
    printf("in the fewest messages of %d bytes: %zu\n", LIMIT, p.messages);
    bad |= send_by(options, length, plan, p.messages);
    return bad || fflush(stdout) != 0;
}
