/* Plain C that gives the answers of brothladder.h over an index, written from docs/RULES.md, area I. */
#include "plain_walk.h"
#include <string.h>

enum { MOST = 64 };

/* I2: how many options a list has that begins at a place of the packet, or the refusal of its walk. */
static uint32_t counted(const uint8_t *p, size_t length, size_t place, uint32_t edition, size_t *count, uint64_t value[5]) {
    uint32_t refusal = 0;
    size_t n = 0;
    if (far(place, length)) return 22;
    for (size_t at = 0; at < length; at += 8 * (size_t)p[at + 1], n++)
        if ((refusal = bad_option(p + at, length - at, place + at, edition, value)) != 0) return refusal;
    *count = n;
    return 0;
}

/* I1: the entries of a list that walks clean. */
static void enter(const uint8_t *p, size_t length, size_t place, uint32_t *index) {
    for (size_t at = 0; at < length; at += 8 * (size_t)p[at + 1]) {
        *index++ = p[at];
        *index++ = (uint32_t)(place + at);
    }
}

static bool entered(const uint8_t *p, size_t length, const uint32_t *index) {
    for (size_t at = 0; at < length; at += 8 * (size_t)p[at + 1], index += 2)
        if (index[0] != p[at] || index[1] != at) return false;
    return true;
}

/* I2, I3 */
struct brothladder_indexed plain_index_build(const uint8_t *options, size_t length, uint32_t *index, size_t index_length, uint32_t edition) {
    struct brothladder_indexed x;
    size_t count;
    memset(&x, 0, sizeof x);
    x.answer = BROTHLADDER_REFUSED;
    if ((x.refusal = counted(options, length, 0, edition, &count, x.value)) != 0) return x;
    if (count > MOST) return x.refusal = 20, x;
    if (index_length < 2 * count) return x.value[0] = 8 * count, x.refusal = 9, x;
    enter(options, length, 0, index);
    x.answer = BROTHLADDER_INDEXED;
    x.length = length;
    x.entries = count;
    return x;
}

/* I6 to I8 */
struct brothladder_indexed plain_index_append(uint8_t *list, size_t list_length, size_t used, uint32_t *index, size_t index_length,
                                              size_t entries, const uint8_t *more, size_t more_length, uint32_t edition) {
    struct brothladder_indexed x;
    size_t own, added;
    memset(&x, 0, sizeof x);
    x.answer = BROTHLADDER_REFUSED;
    if (used > list_length) return x.refusal = 23, x;
    if ((x.refusal = counted(list, used, 0, edition, &own, x.value)) != 0) return x;
    if (own > MOST || entries != own || index_length < 2 * own || !entered(list, used, index)) return x.refusal = 23, x;
    if ((x.refusal = counted(more, more_length, used, edition, &added, x.value)) != 0) return x;
    if (own + added > MOST) return x.refusal = 20, x;
    if (list_length - used < more_length) return x.value[0] = used + more_length, x.refusal = 9, x;
    if (index_length < 2 * (own + added)) return x.value[0] = 8 * (own + added), x.refusal = 9, x;
    if (more_length > 0) memcpy(list + used, more, more_length);
    enter(more, more_length, used, index + 2 * own);
    x.answer = BROTHLADDER_INDEXED;
    x.length = used + more_length;
    x.entries = own + added;
    return x;
}

/* I4, I5 */
struct brothladder_found plain_index_first(const uint32_t *index, size_t index_length, size_t entries, uint8_t type) {
    struct brothladder_found f;
    memset(&f, 0, sizeof f);
    f.answer = BROTHLADDER_NONE;
    if (entries > index_length / 2) entries = index_length / 2;
    for (size_t i = 0; i < entries; i++)
        if (index[2 * i] == type) return f.answer = BROTHLADDER_FOUND, f.at = index[2 * i + 1], f;
    return f;
}

struct brothladder_found plain_index_next(const uint32_t *index, size_t index_length, size_t entries, uint8_t type, size_t after) {
    struct brothladder_found f;
    memset(&f, 0, sizeof f);
    f.answer = BROTHLADDER_NONE;
    if (entries > index_length / 2) entries = index_length / 2;
    for (size_t i = 0; i < entries; i++)
        if (index[2 * i] == type && index[2 * i + 1] > after) return f.answer = BROTHLADDER_FOUND, f.at = index[2 * i + 1], f;
    return f;
}
