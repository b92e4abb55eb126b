/* options CAPTURE: what the calls for C say of each record of a capture, in lines that compare.py makes of tshark's words too: the verdict on the checksum; of
   an advertisement its preference; of a message of Neighbor Discovery its fixed part, and in each edition every option with its numbers and how the walk
   ended. */
#include "brothladder.h"
#include <stdio.h>

static void print_bytes(const uint8_t *a, size_t n) {
    putchar(' ');
    for (size_t i = 0; i < n; i++) printf("%02x", a[i]);
}

static void print_prefix(struct brothladder_prefix p) {
    printf("prefix %u %u %u %lu %lu", (unsigned)p.prefix_length, p.on_link, p.autonomous, (unsigned long)p.valid_lifetime, (unsigned long)p.preferred_lifetime);
    print_bytes(p.prefix, 16);
    putchar('\n');
}

static void print_route(struct brothladder_route r) {
    printf("route %u %u %lu", r.prefix_length, r.preference, (unsigned long)r.lifetime);
    print_bytes(r.prefix, 16);
    putchar('\n');
}

static void print_servers(struct brothladder_servers d, const uint8_t *option) {
    printf("servers %lu", (unsigned long)d.lifetime);
    for (size_t i = 0; i < d.count; i++) print_bytes(option + 8 + 16 * i, 16);
    putchar('\n');
}

static void print_address(struct brothladder_bytes b, const uint8_t *option) {
    printf("address");
    print_bytes(option + b.at, b.length);
    putchar('\n');
}

/* An option of a walk, by the reader of its kind. */
static void print_option(const struct brothladder_stepped *s, const uint8_t *option) {
    printf("option %zu %u %zu\n", s->place, (unsigned)s->type, s->length);
    switch (s->kind) {
    case BROTHLADDER_KIND_SOURCE_LINK_LAYER_ADDRESS:
    case BROTHLADDER_KIND_TARGET_LINK_LAYER_ADDRESS:
        print_address(brothladder_read_link_layer_address(option, s->length, s->place, s->kind), option);
        break;
    case BROTHLADDER_KIND_PREFIX_INFORMATION: print_prefix(brothladder_read_prefix(option, s->length, s->place)); break;
    case BROTHLADDER_KIND_MTU: printf("mtu %lu\n", (unsigned long)brothladder_read_mtu(option, s->length, s->place).mtu); break;
    case BROTHLADDER_KIND_ROUTE_INFORMATION: print_route(brothladder_read_route(option, s->length, s->place)); break;
    case BROTHLADDER_KIND_RECURSIVE_DNS_SERVERS: print_servers(brothladder_read_dns(option, s->length, s->place), option); break;
    }
}

static void print_walk(const uint8_t *options, size_t length, size_t offset, uint32_t edition) {
    printf("edition %u\n", (unsigned)edition);
    for (size_t at = 0;;) {
        struct brothladder_stepped s = brothladder_step(options, length, offset, at, edition);
        if (s.answer != BROTHLADDER_OPTION) {
            puts(s.answer == BROTHLADDER_END ? "end" : "refused");
            return;
        }
        print_option(&s, options + s.at);
        at = s.next;
    }
}

static void print_message(const uint8_t *packet, size_t n) {
    struct brothladder_message m = brothladder_read_message(packet, n);
    if (m.answer != BROTHLADDER_MESSAGE || m.kind < BROTHLADDER_TYPE_ROUTER_SOLICITATION) return;
    if (m.kind == BROTHLADDER_TYPE_ROUTER_ADVERTISEMENT) {
        printf("preference %u\n", (unsigned)brothladder_preference(packet, n).preference);
        printf("timers %lu %lu\n", (unsigned long)m.reachable_time, (unsigned long)m.retrans_timer);
    }
    printf("target");
    if (m.target_at != 0) print_bytes(packet + m.target_at, 16);
    if (m.destination_at != 0) print_bytes(packet + m.destination_at, 16);
    putchar('\n');
    for (uint32_t edition = BROTHLADDER_EDITION_FIRST; edition <= BROTHLADDER_EDITION_SECOND; edition++)
        print_walk(packet + m.options_at, m.options_length, m.options_at, edition);
}

int main(int argc, char **argv) {
    static uint8_t head[37], packet[65536];
    FILE *capture = argc > 1 ? fopen(argv[1], "rb") : NULL;
    if (capture == NULL) return 2;
    for (unsigned long at = 0, n = 0; fread(head, 1, sizeof head, capture) == sizeof head; at += 37 + n) {
        n = (unsigned long)head[35] * 256 + head[36];
        if (fread(packet, 1, n, capture) != n) return 1;
        printf("record %lu\n", at);
        puts(brothladder_verify(packet, n, head + 3, head + 19).answer == BROTHLADDER_VALID ? "sum good" : "sum bad");
        print_message(packet, n);
    }
    return 0;
}
