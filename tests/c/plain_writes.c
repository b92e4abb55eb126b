/* Plain C that writes as brothladder.h does, packets and options, written from docs/RULES.md, area T, and the RFCs, which the comments name. */
#include "plain_head.h"
#include "plain_walk.h"
#include <string.h>

unsigned plain_checksum(const uint8_t *packet, size_t length, const uint8_t *source, const uint8_t *destination) {
    uint64_t sum = words(words(pseudo_header(length, source, destination), packet, 2), packet + 4, length - 4);
    return 65535 - folded(sum);
}

/* H8: bytes 4 to 7 without their reserved bits. */
static inline uint32_t cleared(int type, int code, uint32_t bytes5to8) {
    if (code >= codes(type)) return bytes5to8;
    switch (type) {
    case 1: case 3: case 133: case 135: case 137: return 0;
    case 134: return bytes5to8 & 0xffc0ffff;
    case 136: return bytes5to8 & 0xe0000000;
    default: return bytes5to8;
    }
}

/* T2: why a payload is not written, whatever the room is; 0 where it is. */
static inline uint32_t bad_payload(uint8_t type, uint8_t code, const uint8_t *payload, size_t length, uint32_t edition, uint64_t value[5]) {
    bool source_option;
    if (length > 65527) return value[0] = 65527, value[1] = length, 3;
    if (!neighbor_discovery(type) || code != 0) return 0;
    size_t fixed = fixed_part(type);
    if (length < fixed) return value[0] = fixed, value[1] = length, 4;
    return bad_walk(payload + fixed, length - fixed, 8 + fixed, edition, value, &source_option);
}

/* The head before a payload that stands there, with the checksum of both; `rest` is bytes 4 to 7 as they are written. */
static inline void put_head(uint8_t *packet, size_t length, uint8_t type, uint8_t code, uint32_t rest, const uint8_t *source, const uint8_t *destination) {
    const uint8_t head[8] = {type, code, 0, 0, (uint8_t)(rest >> 24), (uint8_t)(rest >> 16), (uint8_t)(rest >> 8), (uint8_t)rest};
    memcpy(packet, head, 8);
    unsigned sum = plain_checksum(packet, length, source, destination);
    packet[2] = (uint8_t)(sum >> 8);
    packet[3] = (uint8_t)sum;
}

/* H17, T9 */
static struct brothladder_written write_head(uint8_t type, uint8_t code, uint32_t rest, const uint8_t *payload, size_t payload_length,
                                             const uint8_t *source, const uint8_t *destination, uint8_t *out, size_t out_length,
                                             uint32_t edition) {
    struct brothladder_written w;
    memset(&w, 0, sizeof w);
    w.answer = BROTHLADDER_REFUSED;
    if ((w.refusal = bad_payload(type, code, payload, payload_length, edition, w.value)) != 0) return w;
    if (out_length < 8 + payload_length) return w.value[0] = 8 + payload_length, w.refusal = 9, w;
    if (payload_length > 0) memcpy(out + 8, payload, payload_length);
    w.length = 8 + payload_length;
    put_head(out, w.length, type, code, rest, source, destination);
    w.answer = BROTHLADDER_WRITTEN;
    return w;
}

/* T13: the payload is what stands behind the first eight bytes; a packet that has fewer has none. */
static struct brothladder_written write_before(uint8_t type, uint8_t code, uint32_t rest, uint8_t *packet, size_t length, const uint8_t *source,
                                               const uint8_t *destination, uint32_t edition) {
    struct brothladder_written w;
    bool room = length >= 8;
    memset(&w, 0, sizeof w);
    w.answer = BROTHLADDER_REFUSED;
    if ((w.refusal = bad_payload(type, code, room ? packet + 8 : packet, room ? length - 8 : 0, edition, w.value)) != 0) return w;
    if (!room) return w.value[0] = 8, w.refusal = 9, w;
    put_head(packet, length, type, code, rest, source, destination);
    w.length = length;
    w.answer = BROTHLADDER_WRITTEN;
    return w;
}

struct brothladder_written plain_write(uint8_t type, uint8_t code, uint32_t bytes5to8, const uint8_t *payload, size_t payload_length,
                                       const uint8_t *source, const uint8_t *destination, uint8_t *out, size_t out_length,
                                       uint32_t edition) {
    return write_head(type, code, bytes5to8, payload, payload_length, source, destination, out, out_length, edition);
}

struct brothladder_written plain_write_clearing(uint8_t type, uint8_t code, uint32_t bytes5to8, const uint8_t *payload,
                                                size_t payload_length, const uint8_t *source, const uint8_t *destination, uint8_t *out,
                                                size_t out_length, uint32_t edition) {
    return write_head(type, code, cleared(type, code, bytes5to8), payload, payload_length, source, destination, out, out_length, edition);
}

struct brothladder_written plain_write_in_place(uint8_t type, uint8_t code, uint32_t bytes5to8, uint8_t *packet, size_t length,
                                                const uint8_t *source, const uint8_t *destination, uint32_t edition) {
    return write_before(type, code, bytes5to8, packet, length, source, destination, edition);
}

struct brothladder_written plain_write_in_place_clearing(uint8_t type, uint8_t code, uint32_t bytes5to8, uint8_t *packet, size_t length,
                                                         const uint8_t *source, const uint8_t *destination, uint32_t edition) {
    return write_before(type, code, cleared(type, code, bytes5to8), packet, length, source, destination, edition);
}

/* T6: whether so many bytes fit from a place on, and the place behind them. */
static struct brothladder_written room_for(size_t bytes, size_t out_length, size_t at) {
    struct brothladder_written w;
    memset(&w, 0, sizeof w);
    w.answer = BROTHLADDER_REFUSED;
    if (at > out_length || out_length - at < bytes) return w.value[0] = bytes, w.refusal = 9, w;
    w.answer = BROTHLADDER_WRITTEN;
    w.length = at + bytes;
    return w;
}

struct brothladder_written plain_put(const uint8_t *option, size_t length, uint8_t *out, size_t out_length, size_t at) {
    struct brothladder_written w = room_for(length, out_length, at);
    if (w.answer == BROTHLADDER_WRITTEN) memcpy(out + at, option, length);
    return w;
}

static void put_number(uint8_t *p, uint32_t n) {
    for (int i = 0; i < 4; i++) p[i] = (uint8_t)(n >> (24 - 8 * i));
}

/* T12: RFC 4861, sections 4.6.2, 4.6.4 and 4.6.1. */
struct brothladder_written plain_put_prefix(uint8_t prefix_length, uint16_t on_link, uint16_t autonomous, uint32_t valid_lifetime,
                                            uint32_t preferred_lifetime, const uint8_t prefix[16], uint8_t *out, size_t out_length, size_t at) {
    struct brothladder_written w = room_for(32, out_length, at);
    if (w.answer != BROTHLADDER_WRITTEN) return w;
    uint8_t *p = out + at;
    p[0] = 3, p[1] = 4, p[2] = prefix_length, p[3] = (uint8_t)((on_link ? 0x80 : 0) | (autonomous ? 0x40 : 0));
    put_number(p + 4, valid_lifetime);
    put_number(p + 8, preferred_lifetime);
    put_number(p + 12, 0);
    memcpy(p + 16, prefix, 16);
    return w;
}

struct brothladder_written plain_put_mtu(uint32_t mtu, uint8_t *out, size_t out_length, size_t at) {
    struct brothladder_written w = room_for(8, out_length, at);
    if (w.answer != BROTHLADDER_WRITTEN) return w;
    uint8_t *p = out + at;
    p[0] = 5, p[1] = 1, p[2] = 0, p[3] = 0;
    put_number(p + 4, mtu);
    return w;
}

struct brothladder_written plain_put_link_layer_address(uint32_t kind, const uint8_t address[6], uint8_t *out, size_t out_length, size_t at) {
    struct brothladder_written w = room_for(8, out_length, at);
    if (w.answer != BROTHLADDER_WRITTEN) return w;
    uint8_t *p = out + at;
    p[0] = kind == 2 ? 2 : 1, p[1] = 1;
    memcpy(p + 2, address, 6);
    return w;
}
