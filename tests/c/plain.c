/* Plain C that gives the answers of brothladder.h, written from the rules (docs/RULES.md) and the RFCs, which the comments name. */
#include "plain_head.h"
#include "plain_walk.h"
#include <string.h>

static uint32_t number(const uint8_t *p, int bytes) {
    uint32_t n = 0;
    for (int i = 0; i < bytes; i++) n = n << 8 | p[i];
    return n;
}

/* Refusals 1 and 2; 0 for none. */
static uint32_t bad_length(size_t length, uint64_t value[5]) {
    if (length >= 8 && length <= 4294967295u) return 0;
    value[0] = length < 8 ? 8 : 4294967295u;
    value[1] = length;
    return length < 8 ? 1 : 2;
}

struct brothladder_head plain_decode(const uint8_t *packet, size_t length) {
    struct brothladder_head h;
    memset(&h, 0, sizeof h);
    h.answer = BROTHLADDER_REFUSED;
    if ((h.refusal = bad_length(length, h.value)) != 0) return h;
    h.type = packet[0];
    h.code = packet[1];
    h.checksum = (uint16_t)number(packet + 2, 2);
    h.bytes5to8 = number(packet + 4, 4);
    h.answer = packet[1] < codes(packet[0]) ? BROTHLADDER_KNOWN : BROTHLADDER_UNKNOWN;
    if (h.answer == BROTHLADDER_UNKNOWN) {
        h.field[0] = number(packet + 4, 4);
        return h;
    }
    /* H3: what bytes 4 to 7 hold. */
    switch (h.type) {
    case 2: case 4:
        h.field[0] = number(packet + 4, 4);
        break;
    case 128: case 129:
        h.field[0] = number(packet + 4, 2);
        h.field[1] = number(packet + 6, 2);
        break;
    case 134:
        h.field[0] = packet[4];
        h.field[1] = packet[5] >> 7;
        h.field[2] = packet[5] >> 6 & 1;
        h.field[3] = number(packet + 6, 2);
        break;
    case 136:
        h.field[0] = packet[4] >> 7;
        h.field[1] = packet[4] >> 6 & 1;
        h.field[2] = packet[4] >> 5 & 1;
        break;
    }
    return h;
}

static bool sums_up(const uint8_t *packet, size_t length, const uint8_t *source, const uint8_t *destination) {
    return folded(words(pseudo_header(length, source, destination), packet, length)) == 65535;
}

struct brothladder_verified plain_verify(const uint8_t *packet, size_t length, const uint8_t *source, const uint8_t *destination) {
    struct brothladder_verified v;
    memset(&v, 0, sizeof v);
    v.answer = BROTHLADDER_REFUSED;
    if ((v.refusal = bad_length(length, v.value)) != 0) return v;
    v.answer = sums_up(packet, length, source, destination) ? BROTHLADDER_VALID : BROTHLADDER_INVALID;
    return v;
}

/* S1, U9, U10: a sum, and whether an odd number of bytes is in it. */
static struct brothladder_summed summed(uint64_t sum, unsigned odd) {
    struct brothladder_summed s = {BROTHLADDER_SUM, (uint16_t)folded(sum), (uint16_t)(odd % 2)};
    return s;
}

struct brothladder_summed plain_sum(const uint8_t *bytes, size_t length) { return summed(words(0, bytes, length), length % 2); }

struct brothladder_summed plain_sum_pseudo(const uint8_t *source, const uint8_t *destination, uint32_t length) {
    return summed(pseudo_header(length, source, destination), 0);
}

/* Behind an odd number of bytes each byte of the second part stands in the other half of its word. */
struct brothladder_summed plain_sum_join(struct brothladder_summed first, struct brothladder_summed second) {
    uint32_t behind = first.odd % 2 ? (uint32_t)(second.sum & 255) << 8 | second.sum >> 8 : second.sum;
    return summed((uint64_t)first.sum + behind, first.odd % 2u + second.odd % 2u);
}

/* M1 and M2: RFC 1624, equation 3; the three numbers come to less than 2^18, so that two rounds take every carry in. */
struct brothladder_updated plain_updated(const uint8_t *packet, size_t length, size_t place, uint16_t word) {
    struct brothladder_updated u;
    memset(&u, 0, sizeof u);
    u.answer = BROTHLADDER_REFUSED;
    if ((u.refusal = bad_length(length, u.value)) != 0) return u;
    if (place % 2 == 1 || place == 2 || place > length - 2) {
        u.refusal = 19, u.value[0] = place;
        return u;
    }
    uint32_t field = (uint32_t)packet[2] << 8 | packet[3], old = (uint32_t)packet[place] << 8 | packet[place + 1];
    uint32_t t = 65535 - field + (65535 - old) + word;
    t = (t & 65535) + (t >> 16);
    t = (t & 65535) + (t >> 16);
    u.answer = BROTHLADDER_UPDATED;
    u.field = 65535 - t;
    return u;
}

/* M3. */
struct brothladder_updated plain_change(uint8_t *packet, size_t length, size_t place, uint16_t word) {
    struct brothladder_updated u = plain_updated(packet, length, place, word);
    if (u.answer != BROTHLADDER_UPDATED) return u;
    packet[place] = (uint8_t)(word >> 8), packet[place + 1] = (uint8_t)word;
    packet[2] = (uint8_t)(u.field >> 8), packet[3] = (uint8_t)u.field;
    return u;
}

/* E5: the kind of an option that passed its tests. RFC 4191, section 2.1: the bits 10 of a preference are reserved. */
static uint32_t kind_of(const uint8_t *p, uint32_t edition) {
    if (p[0] <= 5) return p[0];
    if (!in_second(edition) || !is_newer(p[0])) return 0;
    return p[0] == 24 && (p[3] & 0x18) == 0x10 ? 0 : p[0];
}

struct brothladder_stepped plain_step(const uint8_t *options, size_t length, size_t offset, size_t at, uint32_t edition) {
    struct brothladder_stepped s;
    memset(&s, 0, sizeof s);
    s.next = at;
    if (at > length) return s.answer = BROTHLADDER_STOPPED, s;
    if (far(offset, length))
        s.refusal = 22;
    else if (at == length)
        return s.answer = BROTHLADDER_END, s;
    else
        s.refusal = bad_option(options + at, length - at, offset + at, edition, s.value);
    if (s.refusal != 0) return s.answer = BROTHLADDER_REFUSED, s.next = length + 1, s;
    const uint8_t *p = options + at;
    s.answer = BROTHLADDER_OPTION;
    s.kind = kind_of(p, edition);
    s.type = p[0];
    s.at = at;
    s.length = 8 * (size_t)p[1];
    s.next = at + s.length;
    s.place = offset + at;
    return s;
}

/* RFC 4291, section 2.4: link-local unicast is fe80::/10, 1111111010. */
static bool link_local(const uint8_t *a) { return a[0] == 0xfe && (a[1] & 0xc0) == 0x80; }
static bool multicast(const uint8_t *a) { return a[0] == 0xff; }
static bool unspecified(const uint8_t *a) { static const uint8_t none[16]; return memcmp(a, none, 16) == 0; }
static bool solicited_node(const uint8_t *a) {
    static const uint8_t start[13] = {0xff, 0x02, 0, 0, 0, 0, 0, 0, 0, 0, 0, 1, 0xff};
    return memcmp(a, start, 13) == 0;
}

/* The reason why a packet of 8 bytes at least does not pass; 0 if it does. */
static uint32_t reason(const uint8_t *p, size_t length, uint8_t hop_limit, const uint8_t *source, const uint8_t *destination,
                       uint32_t edition) {
    int type = p[0];
    uint64_t value[5];
    bool source_option;
    if (!neighbor_discovery(type)) return sums_up(p, length, source, destination) ? 0 : 2;
    if (hop_limit != 255) return 1;
    if (!sums_up(p, length, source, destination)) return 2;
    if (p[1] != 0) return 3;
    size_t start = 8 + fixed_part(type);
    if (length < start) return 4;
    if (bad_walk(p + start, length - start, start, edition, value, &source_option)) return 5;
    const uint8_t *target = p + 8, *field = p + 24;
    switch (type) {
    case 133:
        return unspecified(source) && source_option ? 8 : 0;
    case 134:
        return !link_local(source) ? 6 : 0;
    case 135:
        if (unspecified(source) && !solicited_node(destination)) return 6;
        if (multicast(target)) return 7;
        return unspecified(source) && source_option ? 8 : 0;
    case 136:
        if ((p[4] & 64) && multicast(destination)) return 6;
        return multicast(target) ? 7 : 0;
    default:
        if (!link_local(source)) return 6;
        return multicast(field) || (!link_local(target) && memcmp(target, field, 16) != 0) ? 7 : 0;
    }
}

struct brothladder_received plain_receive(const uint8_t *packet, size_t length, uint8_t hop_limit, const uint8_t *source,
                                          const uint8_t *destination, uint32_t edition) {
    struct brothladder_received r;
    memset(&r, 0, sizeof r);
    r.answer = BROTHLADDER_REFUSED;
    if ((r.refusal = bad_length(length, r.value)) != 0) return r;
    if ((r.value[0] = reason(packet, length, hop_limit, source, destination, edition)) != 0) return r.refusal = 11, r;
    r.answer = BROTHLADDER_RECEIVED;
    r.options_at = neighbor_discovery(packet[0]) ? 8 + fixed_part(packet[0]) : length;
    r.options_length = length - r.options_at;
    return r;
}

/* O1 and O4: a prefix information option. */
struct brothladder_prefix plain_prefix(const uint8_t *option, size_t length, size_t offset) {
    struct brothladder_prefix p;
    memset(&p, 0, sizeof p);
    p.answer = BROTHLADDER_REFUSED;
    if (far(offset, length)) return p.refusal = 22, p;
    p.value[0] = 3;
    if (length != 32) return p.value[1] = 32, p.value[2] = length, p.value[3] = offset, p.refusal = 5, p;
    if (option[0] != 3 || option[1] != 4)
        return p.value[1] = option[0], p.value[2] = 4, p.value[3] = option[1], p.value[4] = offset, p.refusal = 8, p;
    p.value[0] = 0;
    p.answer = BROTHLADDER_PREFIX;
    p.prefix_length = option[2];
    p.on_link = option[3] >> 7;
    p.autonomous = option[3] >> 6 & 1;
    p.valid_lifetime = number(option + 4, 4);
    p.preferred_lifetime = number(option + 8, 4);
    memcpy(p.prefix, option + 16, 16);
    p.place = offset;
    return p;
}

/* O1 and O7: an MTU option. */
struct brothladder_mtu plain_mtu(const uint8_t *option, size_t length, size_t offset) {
    struct brothladder_mtu m;
    memset(&m, 0, sizeof m);
    m.answer = BROTHLADDER_REFUSED;
    if (far(offset, length)) return m.refusal = 22, m;
    m.value[0] = 5;
    if (length != 8) return m.value[1] = 8, m.value[2] = length, m.value[3] = offset, m.refusal = 5, m;
    if (option[0] != 5 || option[1] != 1)
        return m.value[1] = option[0], m.value[2] = 1, m.value[3] = option[1], m.value[4] = offset, m.refusal = 8, m;
    m.value[0] = 0;
    m.answer = BROTHLADDER_MTU;
    m.kind = 5;
    m.mtu = number(option + 4, 4);
    m.place = offset;
    return m;
}

/* O2 and O8: an option of a type, whose bytes are those from a place on. */
static struct brothladder_bytes option_bytes(uint8_t type, size_t from, const uint8_t *option, size_t length, size_t offset) {
    struct brothladder_bytes b;
    memset(&b, 0, sizeof b);
    b.answer = BROTHLADDER_REFUSED;
    if (far(offset, length)) return b.refusal = 22, b;
    b.value[0] = type;
    if (length < 8) return b.value[1] = 8, b.value[2] = length, b.value[3] = offset, b.refusal = 5, b;
    if (option[0] != type) return b.value[1] = option[0], b.value[2] = b.value[3] = option[1], b.value[4] = offset, b.refusal = 8, b;
    if (option[1] == 0) return b.value[1] = offset, b.refusal = 6, b;
    if (length != 8 * (size_t)option[1]) return b.value[1] = 8 * (size_t)option[1], b.value[2] = length, b.value[3] = offset, b.refusal = 5, b;
    b.value[0] = 0;
    b.answer = BROTHLADDER_BYTES;
    b.at = from;
    b.length = length - from;
    b.place = offset;
    return b;
}

struct brothladder_bytes plain_link_layer_address(const uint8_t *option, size_t length, size_t offset, uint32_t kind) {
    return option_bytes(kind == 2 ? 2 : 1, 2, option, length, offset);
}

struct brothladder_bytes plain_redirected_header(const uint8_t *option, size_t length, size_t offset) {
    return option_bytes(4, 8, option, length, offset);
}

/* K3, K5 and K6: a packet's fixed part. */
struct brothladder_message plain_message(const uint8_t *packet, size_t length) {
    struct brothladder_message m;
    memset(&m, 0, sizeof m);
    m.answer = BROTHLADDER_REFUSED;
    if ((m.refusal = bad_length(length, m.value)) != 0) return m;
    int type = packet[1] < codes(packet[0]) ? packet[0] : 0;
    size_t fixed = fixed_part(type);
    if (length - 8 < fixed) return m.value[0] = fixed, m.value[1] = length - 8, m.refusal = 4, m;
    m.answer = BROTHLADDER_MESSAGE;
    m.kind = (uint32_t)type;
    m.fixed_length = (uint32_t)fixed;
    if (type == 134) m.reachable_time = number(packet + 8, 4), m.retrans_timer = number(packet + 12, 4);
    if (type == 135 || type == 136 || type == 137) m.target_at = 8;
    if (type == 137) m.destination_at = 24;
    m.options_at = neighbor_discovery(type) ? 8 + fixed : length;
    m.options_length = length - m.options_at;
    return m;
}

/* Q10: beside a refusal the chain is all 0. */
static struct brothladder_chain no_chain(uint32_t refusal, const uint64_t value[5]) {
    struct brothladder_chain c;
    memset(&c, 0, sizeof c);
    c.answer = BROTHLADDER_REFUSED;
    c.refusal = refusal;
    memcpy(c.value, value, sizeof c.value);
    return c;
}

/* Q4: the quote in the first option of type 4 of a list that walks clean; `*end` is 0 where there is none. The refusal, or 0. */
static uint32_t quote_in_list(const uint8_t *packet, size_t *at, size_t *end, uint32_t edition, uint64_t value[5]) {
    size_t list = *at, stop = *end, bytes;
    uint32_t refusal;
    for (*end = 0; list < stop; list += bytes) {
        if ((refusal = bad_option(packet + list, stop - list, list, edition, value)) != 0) return refusal;
        bytes = 8 * (size_t)packet[list + 1];
        if (packet[list] == 4 && *end == 0) *at = list + 8, *end = list + bytes;
    }
    return 0;
}

/* Q1 to Q10: `at` to `end` is a message, and then the quote in it. */
struct brothladder_chain plain_chain(const uint8_t *packet, size_t length, uint32_t edition) {
    struct brothladder_chain c;
    uint64_t value[5] = {0};
    uint32_t refusal = bad_length(length, value);
    size_t at = 0, end = length;
    memset(&c, 0, sizeof c);
    c.answer = BROTHLADDER_CHAIN;
    for (;;) {
        /* Q2, Q5 */
        if (refusal != 0 || (refusal = bad_length(end - at, value)) != 0) return no_chain(refusal, value);
        int type = packet[at];
        if (packet[at + 1] >= codes(type)) return c;
        if (c.levels == 0) c.kind = (uint32_t)type;
        else c.level_kind[c.levels - 1] = (uint8_t)type;
        /* Q3, Q4 */
        if (1 <= type && type <= 4) {
            at += 8;
        } else if (neighbor_discovery(type)) {
            value[0] = fixed_part(type);
            value[1] = end - at - 8;
            if (value[1] < value[0]) return no_chain(4, value);
            value[0] = value[1] = 0;
            at += 8 + fixed_part(type);
            if ((refusal = quote_in_list(packet, &at, &end, edition, value)) != 0) return no_chain(refusal, value);
            if (end == 0) return c;
        } else {
            return c;
        }
        /* Q6, Q7 */
        value[0] = at;
        if (c.levels == 8) return no_chain(17, value);
        if (end - at < 40) return no_chain(15, value);
        if (packet[at] >> 4 != 6) return no_chain(16, value);
        value[0] = 0;
        c.quote[c.levels] = (uint32_t)at;
        c.next_header[c.levels] = packet[at + 6];
        if (packet[at + 6] != 58) return c.levels++, c;
        c.levels++;
        at += 40;
    }
}

/* O2, then O10: the refusal of an option of this type that is read by itself; 0 for none. */
static uint32_t bad_alone(const uint8_t *option, size_t length, size_t offset, uint8_t type, uint64_t value[5]) {
    if (far(offset, length)) return 22;
    value[0] = type;
    value[3] = offset;
    if (length < 8) return value[1] = 8, value[2] = length, 5;
    if (option[0] != type) return value[1] = option[0], value[2] = value[3] = option[1], value[4] = offset, 8;
    if (option[1] == 0) return value[1] = offset, value[3] = 0, 6;
    if (length != 8 * (size_t)option[1]) return value[1] = 8 * (size_t)option[1], value[2] = length, 5;
    uint32_t refusal = bad_newer_option(option, offset, value);
    if (refusal == 0) value[0] = value[3] = 0;
    return refusal;
}

/* H21, and O11: bits 16 and 8 of the flags, of which 10 is no preference. */
static unsigned preference(uint8_t flags) {
    unsigned bits = flags >> 3 & 3;
    return bits == 2 ? 0 : bits;
}

struct brothladder_route plain_route(const uint8_t *option, size_t length, size_t offset) {
    struct brothladder_route r;
    memset(&r, 0, sizeof r);
    r.answer = BROTHLADDER_REFUSED;
    if ((r.refusal = bad_alone(option, length, offset, 24, r.value)) != 0) return r;
    r.place = offset;
    if ((option[3] & 0x18) == 0x10) return r.answer = BROTHLADDER_IGNORED, r;
    r.answer = BROTHLADDER_ROUTE;
    r.prefix_length = option[2];
    r.preference = (uint16_t)preference(option[3]);
    r.lifetime = number(option + 4, 4);
    memcpy(r.prefix, option + 8, length - 8);
    return r;
}

/* O13 */
struct brothladder_servers plain_dns(const uint8_t *option, size_t length, size_t offset) {
    struct brothladder_servers s;
    memset(&s, 0, sizeof s);
    s.answer = BROTHLADDER_REFUSED;
    if ((s.refusal = bad_alone(option, length, offset, 25, s.value)) != 0) return s;
    s.answer = BROTHLADDER_SERVERS;
    s.lifetime = number(option + 4, 4);
    s.count = (length - 8) / 16;
    s.place = offset;
    return s;
}

struct brothladder_preferred plain_preference(const uint8_t *packet, size_t length) {
    struct brothladder_preferred p;
    memset(&p, 0, sizeof p);
    p.answer = BROTHLADDER_REFUSED;
    if ((p.refusal = bad_length(length, p.value)) != 0) return p;
    p.answer = BROTHLADDER_PREFERENCE;
    if (packet[0] == 134 && packet[1] == 0) p.preference = preference(packet[5]);
    return p;
}
