/* The same answers by plain C, written from the rules (docs/RULES.md) and the RFCs alone, to compare with. */
#ifndef PLAIN_H
#define PLAIN_H
#include "brothladder.h"

struct brothladder_head plain_decode(const uint8_t *packet, size_t length);
struct brothladder_verified plain_verify(const uint8_t *packet, size_t length, const uint8_t *source, const uint8_t *destination);
struct brothladder_stepped plain_step(const uint8_t *options, size_t length, size_t offset, size_t at, uint32_t edition);
struct brothladder_received plain_receive(const uint8_t *packet, size_t length, uint8_t hop_limit, const uint8_t *source,
                                          const uint8_t *destination, uint32_t edition);
struct brothladder_written plain_write(uint8_t type, uint8_t code, uint32_t bytes5to8, const uint8_t *payload, size_t payload_length,
                                       const uint8_t *source, const uint8_t *destination, uint8_t *out, size_t out_length,
                                       uint32_t edition);
struct brothladder_written plain_write_clearing(uint8_t type, uint8_t code, uint32_t bytes5to8, const uint8_t *payload,
                                                size_t payload_length, const uint8_t *source, const uint8_t *destination, uint8_t *out,
                                                size_t out_length, uint32_t edition);
struct brothladder_written plain_write_in_place(uint8_t type, uint8_t code, uint32_t bytes5to8, uint8_t *packet, size_t length,
                                                const uint8_t *source, const uint8_t *destination, uint32_t edition);
struct brothladder_written plain_write_in_place_clearing(uint8_t type, uint8_t code, uint32_t bytes5to8, uint8_t *packet, size_t length,
                                                         const uint8_t *source, const uint8_t *destination, uint32_t edition);
struct brothladder_prefix plain_prefix(const uint8_t *option, size_t length, size_t offset);
struct brothladder_route plain_route(const uint8_t *option, size_t length, size_t offset);
struct brothladder_servers plain_dns(const uint8_t *option, size_t length, size_t offset);
struct brothladder_preferred plain_preference(const uint8_t *packet, size_t length);
struct brothladder_updated plain_updated(const uint8_t *packet, size_t length, size_t place, uint16_t word);
struct brothladder_updated plain_change(uint8_t *packet, size_t length, size_t place, uint16_t word);
struct brothladder_chain plain_chain(const uint8_t *packet, size_t length, uint32_t edition);
struct brothladder_checked plain_check_plan(const uint8_t *options, size_t length, size_t limit, const uint32_t *plan, size_t plan_length,
                                            uint32_t edition);
struct brothladder_planned plain_plan(const uint8_t *options, size_t length, size_t limit, uint32_t *plan, size_t plan_length,
                                      uint32_t edition);
struct brothladder_part plain_plan_message(const uint8_t *options, size_t length, size_t limit, const uint32_t *plan, size_t plan_length,
                                           size_t i, uint32_t edition);
struct brothladder_mtu plain_mtu(const uint8_t *option, size_t length, size_t offset);
struct brothladder_bytes plain_link_layer_address(const uint8_t *option, size_t length, size_t offset, uint32_t kind);
struct brothladder_bytes plain_redirected_header(const uint8_t *option, size_t length, size_t offset);
struct brothladder_message plain_message(const uint8_t *packet, size_t length);
struct brothladder_written plain_put_prefix(uint8_t prefix_length, uint16_t on_link, uint16_t autonomous, uint32_t valid_lifetime,
                                            uint32_t preferred_lifetime, const uint8_t prefix[16], uint8_t *out, size_t out_length, size_t at);
struct brothladder_written plain_put_mtu(uint32_t mtu, uint8_t *out, size_t out_length, size_t at);
struct brothladder_written plain_put_link_layer_address(uint32_t kind, const uint8_t address[6], uint8_t *out, size_t out_length, size_t at);
struct brothladder_indexed plain_index_build(const uint8_t *options, size_t length, uint32_t *index, size_t index_length, uint32_t edition);
struct brothladder_indexed plain_index_append(uint8_t *list, size_t list_length, size_t used, uint32_t *index, size_t index_length,
                                              size_t entries, const uint8_t *more, size_t more_length, uint32_t edition);
struct brothladder_found plain_index_first(const uint32_t *index, size_t index_length, size_t entries, uint8_t type);
struct brothladder_found plain_index_next(const uint32_t *index, size_t index_length, size_t entries, uint8_t type, size_t after);

/* the bytes of an option at a place, all or none */
struct brothladder_written plain_put(const uint8_t *option, size_t length, uint8_t *out, size_t out_length, size_t at);

struct brothladder_summed plain_sum(const uint8_t *bytes, size_t length);
struct brothladder_summed plain_sum_pseudo(const uint8_t *source, const uint8_t *destination, uint32_t length);
struct brothladder_summed plain_sum_join(struct brothladder_summed first, struct brothladder_summed second);

/* the checksum that a packet's field should have */
unsigned plain_checksum(const uint8_t *packet, size_t length, const uint8_t *source, const uint8_t *destination);
#endif
