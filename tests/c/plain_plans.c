/* Plain C that gives the answers of brothladder.h over plans, written from docs/RULES.md, area Z. */
#include "plain_walk.h"
#include <string.h>

/* Z3: the refusal of the walk, at offset 0; else 0. */
static uint32_t walked(const uint8_t *options, size_t length, uint32_t edition, uint64_t value[5]) {
    bool source_option;
    return far(0, length) ? 22 : bad_walk(options, length, 0, edition, value, &source_option);
}

/* Z2, of options that are known to be in order: what a message of n of them from a place on takes; more than the length if there are fewer. */
static size_t bytes_of(const uint8_t *options, size_t length, size_t at, uint32_t n) {
    size_t from = at;
    for (; n > 0; n--) {
        if (at >= length) return length + 1;
        at += 8 * (size_t)options[at + 1];
    }
    return at - from;
}

/* Z2; and Z7, where message i begins and what it takes. */
static bool accepted(const uint8_t *options, size_t length, size_t limit, const uint32_t *plan, size_t messages, size_t i,
                     struct brothladder_part *part) {
    size_t at = 0;
    if (limit < 16 || messages == 0) return false;
    for (size_t j = 0; j < messages; j++) {
        size_t bytes = bytes_of(options, length, at, plan[j]);
        if (bytes > length || bytes > limit - 16) return false;
        if (plan[j] == 0 && (length > 0 || messages > 1)) return false;
        if (j == i) part->at = at, part->length = bytes;
        at += bytes;
    }
    return at == length;
}

struct brothladder_part plain_plan_message(const uint8_t *options, size_t length, size_t limit, const uint32_t *plan, size_t plan_length,
                                           size_t i, uint32_t edition) {
    struct brothladder_part p;
    memset(&p, 0, sizeof p);
    p.answer = BROTHLADDER_REFUSED;
    if ((p.refusal = walked(options, length, edition, p.value)) != 0) return p;
    p.answer = BROTHLADDER_ACCEPTED;
    if (accepted(options, length, limit, plan, plan_length, i, &p) && i < plan_length) return p;
    p.answer = BROTHLADDER_NOT_ACCEPTED;
    p.at = p.length = 0;
    return p;
}

struct brothladder_checked plain_check_plan(const uint8_t *options, size_t length, size_t limit, const uint32_t *plan, size_t plan_length,
                                            uint32_t edition) {
    struct brothladder_checked c;
    struct brothladder_part none;
    memset(&c, 0, sizeof c);
    c.answer = BROTHLADDER_REFUSED;
    if ((c.refusal = walked(options, length, edition, c.value)) != 0) return c;
    c.answer = accepted(options, length, limit, plan, plan_length, 0, &none) ? BROTHLADDER_ACCEPTED : BROTHLADDER_NOT_ACCEPTED;
    return c;
}

/* Z4, Z5: an option that no longer fits begins the next message. The first round counts, the second puts. */
struct brothladder_planned plain_plan(const uint8_t *options, size_t length, size_t limit, uint32_t *plan, size_t plan_length,
                                      uint32_t edition) {
    struct brothladder_planned p;
    memset(&p, 0, sizeof p);
    p.answer = BROTHLADDER_REFUSED;
    if ((p.refusal = walked(options, length, edition, p.value)) != 0) return p;
    for (int put = 0; put < 2; put++) {
        size_t used = 0, messages = 1;
        uint32_t n = 0;
        if (limit < 16) p.refusal = 21;
        for (size_t at = 0, bytes; at < length && p.refusal == 0; at += bytes) {
            bytes = 8 * (size_t)options[at + 1];
            if (bytes > limit - 16) p.refusal = 21;
            else if (used + bytes > limit - 16) {
                if (put) plan[messages - 1] = n;
                messages++, used = bytes, n = 1;
            } else used += bytes, n++;
        }
        if (p.refusal != 0) return p;
        if (plan_length < messages) {
            p.refusal = 9;
            p.value[0] = 4 * messages;
            return p;
        }
        if (put) plan[messages - 1] = n;
        p.messages = messages;
    }
    p.answer = BROTHLADDER_PLANNED;
    return p;
}
