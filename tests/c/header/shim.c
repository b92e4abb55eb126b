/* A wrong library: each call here makes the real one, which tests/c/faults has renamed, and does one thing wrong if its number is in the environment. Without a
   number it is the library. tests/c/faults says what each number is. */
#include "brothladder.h"
#include <stdlib.h>
#include <string.h>

static int fault;

__attribute__((constructor)) static void begin(void) {
    const char *number = getenv("FAULT");
    fault = number ? atoi(number) : 0;
}

static void exchange(uint32_t *a, uint32_t *b) {
    uint32_t t = *a;
    *a = *b;
    *b = t;
}

struct brothladder_head real_brothladder_decode(const uint8_t *packet, size_t length);
struct brothladder_head brothladder_decode(const uint8_t *packet, size_t length) {
    struct brothladder_head h = real_brothladder_decode(packet, length);
    if (h.answer == BROTHLADDER_REFUSED) {
        if (fault == 1) h.value[1] = h.value[0] + 1;
        if (fault == 2) h.type = packet && length ? packet[0] : 1;
        return h;
    }
    if (fault == 3) {
        uint8_t t = h.type;
        h.type = h.code, h.code = t;
    }
    if (fault == 4) h.checksum = (uint16_t)(h.checksum >> 8 | (h.checksum & 255) << 8);
    if (fault == 5 && h.type == 134) exchange(&h.field[1], &h.field[2]);
    if (fault == 6) h.answer = BROTHLADDER_KNOWN;
    if (fault == 7 && h.type == 128) h.bytes5to8 = h.bytes5to8 << 16 | h.bytes5to8 >> 16;
    return h;
}

struct brothladder_verified real_brothladder_verify(const uint8_t *packet, size_t length, const uint8_t source[16], const uint8_t destination[16]);
struct brothladder_verified brothladder_verify(const uint8_t *packet, size_t length, const uint8_t source[16], const uint8_t destination[16]) {
    struct brothladder_verified v = real_brothladder_verify(packet, length, source, destination);
    if (fault == 8 && v.answer == BROTHLADDER_VALID && packet[2] == 255 && packet[3] == 255) v.answer = BROTHLADDER_INVALID;
    return v;
}

struct brothladder_verified real_brothladder_verify_by_fours(const uint8_t *packet, size_t length, const uint8_t source[16], const uint8_t destination[16]);
struct brothladder_verified brothladder_verify_by_fours(const uint8_t *packet, size_t length, const uint8_t source[16], const uint8_t destination[16]) {
    if (fault == 9 && length > 64 && length % 2) length--;
    return real_brothladder_verify_by_fours(packet, length, source, destination);
}

struct brothladder_received real_brothladder_receive(const uint8_t *packet, size_t length, uint8_t hop_limit, const uint8_t source[16],
                                                     const uint8_t destination[16], uint32_t edition);
struct brothladder_received brothladder_receive(const uint8_t *packet, size_t length, uint8_t hop_limit, const uint8_t source[16],
                                                const uint8_t destination[16], uint32_t edition) {
    if (fault == 10) edition = BROTHLADDER_EDITION_FIRST;
    if (fault == 11) hop_limit = 255;
    struct brothladder_received r = fault == 12 ? real_brothladder_receive(packet, length, hop_limit, destination, source, edition)
                                                : real_brothladder_receive(packet, length, hop_limit, source, destination, edition);
    if (fault == 13 && r.answer == BROTHLADDER_RECEIVED && r.options_length >= 8) r.options_at += 8, r.options_length -= 8;
    if (fault == 14 && r.refusal == 11 && r.value[0] >= 6 && r.value[0] <= 7) r.value[0] = 13 - r.value[0];
    return r;
}

struct brothladder_stepped real_brothladder_step(const uint8_t *options, size_t length, size_t offset, size_t at, uint32_t edition);
struct brothladder_stepped brothladder_step(const uint8_t *options, size_t length, size_t offset, size_t at, uint32_t edition) {
    static int stopped; /* what a library that keeps something would keep */
    struct brothladder_stepped s = real_brothladder_step(options, length, offset, at, edition);
    if (fault == 15 && s.answer == BROTHLADDER_REFUSED) s.next = length;
    if (fault == 16 && s.answer == BROTHLADDER_END) s.next = 0;
    if (fault == 17 && s.answer == BROTHLADDER_STOPPED) s.answer = BROTHLADDER_END;
    if (fault == 18) s.place -= s.answer == BROTHLADDER_OPTION ? offset : 0;
    if (fault == 19 && s.answer == BROTHLADDER_OPTION) s.next = s.at + s.length + 1;
    if (fault == 20 && s.refusal == 7) s.refusal = 5;
    if (fault == 21 && s.answer == BROTHLADDER_OPTION) s.kind = s.type;
    if (fault == 22) {
        if (stopped && at > 0) s.answer = BROTHLADDER_STOPPED;
        stopped = s.answer == BROTHLADDER_REFUSED;
    }
    if (fault == 23 && s.answer == BROTHLADDER_REFUSED) s.value[4] = 1;
    return s;
}

struct brothladder_prefix real_brothladder_read_prefix(const uint8_t *option, size_t length, size_t offset);
struct brothladder_prefix brothladder_read_prefix(const uint8_t *option, size_t length, size_t offset) {
    struct brothladder_prefix p = real_brothladder_read_prefix(option, length, offset);
    if (fault == 24) exchange(&p.valid_lifetime, &p.preferred_lifetime);
    if (fault == 25) {
        uint16_t t = p.on_link;
        p.on_link = p.autonomous, p.autonomous = t;
    }
    return p;
}

struct brothladder_route real_brothladder_read_route(const uint8_t *option, size_t length, size_t offset);
struct brothladder_route brothladder_read_route(const uint8_t *option, size_t length, size_t offset) {
    struct brothladder_route r = real_brothladder_read_route(option, length, offset);
    if (fault == 26 && r.answer == BROTHLADDER_IGNORED) r.lifetime = 1;
    return r;
}

struct brothladder_servers real_brothladder_read_dns(const uint8_t *option, size_t length, size_t offset);
struct brothladder_servers brothladder_read_dns(const uint8_t *option, size_t length, size_t offset) {
    struct brothladder_servers s = real_brothladder_read_dns(option, length, offset);
    if (fault == 27 && s.answer == BROTHLADDER_SERVERS) s.count++;
    return s;
}

struct brothladder_preferred real_brothladder_preference(const uint8_t *packet, size_t length);
struct brothladder_preferred brothladder_preference(const uint8_t *packet, size_t length) {
    struct brothladder_preferred p = real_brothladder_preference(packet, length);
    if (fault == 28 && p.preference != 0) p.preference = 4 - p.preference;
    return p;
}

struct brothladder_written real_brothladder_write_clearing(uint8_t type, uint8_t code, uint32_t bytes5to8, const uint8_t *payload, size_t payload_length,
                                                           const uint8_t source[16], const uint8_t destination[16], uint8_t *out, size_t out_length,
                                                           uint32_t edition);
struct brothladder_written real_brothladder_write(uint8_t type, uint8_t code, uint32_t bytes5to8, const uint8_t *payload, size_t payload_length,
                                                  const uint8_t source[16], const uint8_t destination[16], uint8_t *out, size_t out_length, uint32_t edition);
struct brothladder_written brothladder_write(uint8_t type, uint8_t code, uint32_t bytes5to8, const uint8_t *payload, size_t payload_length,
                                             const uint8_t source[16], const uint8_t destination[16], uint8_t *out, size_t out_length, uint32_t edition) {
    if (fault == 29) return real_brothladder_write_clearing(type, code, bytes5to8, payload, payload_length, source, destination, out, out_length, edition);
    if (fault == 30) edition = BROTHLADDER_EDITION_FIRST;
    struct brothladder_written w = real_brothladder_write(type, code, bytes5to8, payload, payload_length, source, destination, out, out_length, edition);
    if (fault == 31 && w.answer == BROTHLADDER_WRITTEN && w.length < out_length) out[w.length] ^= 1;
    if (fault == 32 && w.answer == BROTHLADDER_REFUSED && out_length > 0) out[0] = type;
    if (fault == 33 && w.refusal == 9) w.value[0]--;
    return w;
}

struct brothladder_written brothladder_write_clearing(uint8_t type, uint8_t code, uint32_t bytes5to8, const uint8_t *payload, size_t payload_length,
                                                      const uint8_t source[16], const uint8_t destination[16], uint8_t *out, size_t out_length,
                                                      uint32_t edition) {
    if (fault == 34) return real_brothladder_write(type, code, bytes5to8, payload, payload_length, source, destination, out, out_length, edition);
    return real_brothladder_write_clearing(type, code, bytes5to8, payload, payload_length, source, destination, out, out_length, edition);
}

struct brothladder_chain real_brothladder_chain(const uint8_t *packet, size_t length, uint32_t edition);
struct brothladder_chain brothladder_chain(const uint8_t *packet, size_t length, uint32_t edition) {
    struct brothladder_chain c = real_brothladder_chain(packet, length, edition);
    if (fault == 35 && c.levels > 1) c.quote[1] -= 8;
    if (fault == 36 && c.levels > 0 && c.levels < 8) c.next_header[c.levels] = 58;
    return c;
}

struct brothladder_updated real_brothladder_updated_checksum(const uint8_t *packet, size_t length, size_t place, uint16_t word);
struct brothladder_updated brothladder_updated_checksum(const uint8_t *packet, size_t length, size_t place, uint16_t word) {
    struct brothladder_updated u = real_brothladder_updated_checksum(packet, length, place, word);
    if (fault == 37 && u.answer == BROTHLADDER_UPDATED && u.field == 0) u.field = 65535;
    return u;
}

struct brothladder_updated real_brothladder_change_word(uint8_t *packet, size_t length, size_t place, uint16_t word);
struct brothladder_updated brothladder_change_word(uint8_t *packet, size_t length, size_t place, uint16_t word) {
    struct brothladder_updated u = real_brothladder_change_word(packet, length, place, word);
    if (fault == 38 && u.refusal == 19 && length >= 8) packet[4] ^= 1;
    return u;
}

struct brothladder_summed real_brothladder_sum_push(struct brothladder_summed before, const uint8_t *bytes, size_t length);
struct brothladder_summed brothladder_sum_push(struct brothladder_summed before, const uint8_t *bytes, size_t length) {
    if (fault == 39) before.odd = 0;
    return real_brothladder_sum_push(before, bytes, length);
}

struct brothladder_summed real_brothladder_sum(const uint8_t *bytes, size_t length);

__attribute__((noinline)) static void deep(void) {
    volatile uint8_t room[1024];
    for (size_t i = 0; i < sizeof room; i++) room[i] = 1;
}

__attribute__((noinline)) static void long_time(const uint8_t *bytes, size_t length) {
    volatile uint8_t sum = 0;
    for (size_t i = 0; i < length; i += 8)
        for (size_t k = 0; k < i; k += 8) sum ^= bytes[k];
}

struct brothladder_summed brothladder_sum(const uint8_t *bytes, size_t length) {
    if (fault == 40) (void)*(const volatile uint8_t *)(bytes + length);
    if (fault == 41) deep();
    if (fault == 42) __asm__ volatile("mov $1, %%r12d" ::: "memory"); /* the compiler is not told */
    if (fault == 44) long_time(bytes, length);
    struct brothladder_summed s = real_brothladder_sum(bytes, length);
    if (fault == 43) __asm__ volatile("std" ::: "memory");
    return s;
}

struct brothladder_indexed real_brothladder_index_build(const uint8_t *options, size_t options_length, uint32_t *index, size_t index_length, uint32_t edition);
struct brothladder_indexed brothladder_index_build(const uint8_t *options, size_t options_length, uint32_t *index, size_t index_length, uint32_t edition) {
    struct brothladder_indexed x = real_brothladder_index_build(options, options_length, index, index_length, edition);
    if (fault == 45 && x.answer == BROTHLADDER_INDEXED)
        for (size_t i = 2 * x.entries; i < index_length; i++) index[i] = 0;
    return x;
}

struct brothladder_found real_brothladder_index_next(const uint32_t *index, size_t index_length, size_t entries, uint8_t type, size_t after);
struct brothladder_found brothladder_index_next(const uint32_t *index, size_t index_length, size_t entries, uint8_t type, size_t after) {
    if (fault == 46 && after > 0) after--;
    return real_brothladder_index_next(index, index_length, entries, type, after);
}

struct brothladder_checked real_brothladder_check_plan(const uint8_t *options, size_t options_length, size_t limit, const uint32_t *plan, size_t plan_length,
                                                       uint32_t edition);
struct brothladder_checked brothladder_check_plan(const uint8_t *options, size_t options_length, size_t limit, const uint32_t *plan, size_t plan_length,
                                                  uint32_t edition) {
    if (fault == 47 && plan_length > 1 && plan[plan_length - 1] == 0) plan_length--;
    return real_brothladder_check_plan(options, options_length, limit, plan, plan_length, edition);
}

struct brothladder_part real_brothladder_plan_message(const uint8_t *options, size_t options_length, size_t limit, const uint32_t *plan, size_t plan_length,
                                                      size_t i, uint32_t edition);
struct brothladder_part brothladder_plan_message(const uint8_t *options, size_t options_length, size_t limit, const uint32_t *plan, size_t plan_length,
                                                 size_t i, uint32_t edition) {
    struct brothladder_part p = real_brothladder_plan_message(options, options_length, limit, plan, plan_length, i, edition);
    if (fault == 48) p.at = 0;
    return p;
}

struct brothladder_mtu real_brothladder_read_mtu(const uint8_t *option, size_t length, size_t offset);
struct brothladder_mtu brothladder_read_mtu(const uint8_t *option, size_t length, size_t offset) {
    struct brothladder_mtu m = real_brothladder_read_mtu(option, length, offset);
    if (fault == 49) m.mtu &= 0xffff;
    return m;
}

struct brothladder_bytes real_brothladder_read_link_layer_address(const uint8_t *option, size_t length, size_t offset, uint32_t kind);
struct brothladder_bytes brothladder_read_link_layer_address(const uint8_t *option, size_t length, size_t offset, uint32_t kind) {
    struct brothladder_bytes b = real_brothladder_read_link_layer_address(option, length, offset, kind);
    if (fault == 50 && b.answer == BROTHLADDER_BYTES) b.length = 6;
    return b;
}

struct brothladder_bytes real_brothladder_read_redirected_header(const uint8_t *option, size_t length, size_t offset);
struct brothladder_bytes brothladder_read_redirected_header(const uint8_t *option, size_t length, size_t offset) {
    struct brothladder_bytes b = real_brothladder_read_redirected_header(option, length, offset);
    if (fault == 51 && b.answer == BROTHLADDER_BYTES) b.at -= 6, b.length += 6;
    return b;
}

struct brothladder_message real_brothladder_read_message(const uint8_t *packet, size_t length);
struct brothladder_message brothladder_read_message(const uint8_t *packet, size_t length) {
    struct brothladder_message m = real_brothladder_read_message(packet, length);
    if (fault == 52) exchange(&m.reachable_time, &m.retrans_timer);
    return m;
}

struct brothladder_written real_brothladder_put_prefix(uint8_t prefix_length, uint16_t on_link, uint16_t autonomous, uint32_t valid_lifetime,
                                                       uint32_t preferred_lifetime, const uint8_t prefix[16], uint8_t *out, size_t out_length, size_t at);
struct brothladder_written brothladder_put_prefix(uint8_t prefix_length, uint16_t on_link, uint16_t autonomous, uint32_t valid_lifetime,
                                                  uint32_t preferred_lifetime, const uint8_t prefix[16], uint8_t *out, size_t out_length, size_t at) {
    if (fault == 53) on_link &= 1;
    return real_brothladder_put_prefix(prefix_length, on_link, autonomous, valid_lifetime, preferred_lifetime, prefix, out, out_length, at);
}

struct brothladder_written real_brothladder_put_mtu(uint32_t mtu, uint8_t *out, size_t out_length, size_t at);
struct brothladder_written brothladder_put_mtu(uint32_t mtu, uint8_t *out, size_t out_length, size_t at) {
    struct brothladder_written w = real_brothladder_put_mtu(mtu, out, out_length, at);
    if (fault == 54 && w.answer == BROTHLADDER_WRITTEN) w.length -= at;
    return w;
}

struct brothladder_written real_brothladder_put_link_layer_address(uint32_t kind, const uint8_t address[6], uint8_t *out, size_t out_length, size_t at);
struct brothladder_written brothladder_put_link_layer_address(uint32_t kind, const uint8_t address[6], uint8_t *out, size_t out_length, size_t at) {
    struct brothladder_written w = real_brothladder_put_link_layer_address(kind, address, out, out_length, at);
    if (fault == 55 && w.answer == BROTHLADDER_REFUSED && at < out_length) out[at] = 0xff & ~out[at];
    return w;
}

struct brothladder_written real_brothladder_write_in_place(uint8_t type, uint8_t code, uint32_t bytes5to8, uint8_t *packet, size_t length,
                                                           const uint8_t source[16], const uint8_t destination[16], uint32_t edition);
struct brothladder_written brothladder_write_in_place(uint8_t type, uint8_t code, uint32_t bytes5to8, uint8_t *packet, size_t length,
                                                      const uint8_t source[16], const uint8_t destination[16], uint32_t edition) {
    struct brothladder_written w = real_brothladder_write_in_place(type, code, bytes5to8, packet, length, source, destination, edition);
    if (fault == 56 && w.refusal == 7) packet[2] ^= 1;
    return w;
}

struct brothladder_written real_brothladder_write_in_place_clearing(uint8_t type, uint8_t code, uint32_t bytes5to8, uint8_t *packet, size_t length,
                                                                    const uint8_t source[16], const uint8_t destination[16], uint32_t edition);
struct brothladder_written brothladder_write_in_place_clearing(uint8_t type, uint8_t code, uint32_t bytes5to8, uint8_t *packet, size_t length,
                                                               const uint8_t source[16], const uint8_t destination[16], uint32_t edition) {
    if (fault == 57) return real_brothladder_write_in_place(type, code, bytes5to8, packet, length, source, destination, edition);
    return real_brothladder_write_in_place_clearing(type, code, bytes5to8, packet, length, source, destination, edition);
}
