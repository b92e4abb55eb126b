/* Prints the MTU and the prefixes of the router advertisements in a capture. The option list of each is walked once, when its index is built; every
 * option is then looked up in the index.
 *
 *     lookups [FILE]         reads standard input without FILE */
#include "message.h"

/* Named once, and used for the receive check, the index and the steps alike. */
static const uint32_t edition = BROTHLADDER_EDITION_FIRST;

/* Two numbers for each of 64 options, which are the most that an index has. */
enum { NUMBERS = 128 };

static void look_up(const uint8_t *options, size_t length, size_t offset) {
    uint32_t index[NUMBERS];
    struct brothladder_indexed x = brothladder_index_build(options, length, index, NUMBERS, edition);
    if (x.answer != BROTHLADDER_INDEXED) { /* of a packet that was received: more than 64 options */
        printf("  refused %u\n", (unsigned)x.refusal);
        return;
    }
    printf("  %lu options\n", (unsigned long)x.entries);
    struct brothladder_found f = brothladder_index_first(index, NUMBERS, x.entries, BROTHLADDER_KIND_MTU);
    if (f.answer == BROTHLADDER_FOUND) printf("  mtu %lu\n", (unsigned long)brothladder_read_mtu(options + f.at, 8, offset + f.at).mtu);
    f = brothladder_index_first(index, NUMBERS, x.entries, BROTHLADDER_KIND_PREFIX_INFORMATION);
    while (f.answer == BROTHLADDER_FOUND) {
        struct brothladder_stepped s = brothladder_step(options, length, offset, f.at, edition);
        struct brothladder_prefix p = brothladder_read_prefix(options + s.at, s.length, s.place);
        if (p.answer == BROTHLADDER_PREFIX) print_prefix(&p);
        f = brothladder_index_next(index, NUMBERS, x.entries, BROTHLADDER_KIND_PREFIX_INFORMATION, f.at);
    }
}

/* One message: the receive check, which reads the whole list, then the lookups. */
static void handle(unsigned long number, const struct message *m) {
    printf("%lu ", number);
    struct brothladder_received r = brothladder_receive(m->packet, m->length, m->hop_limit, m->source, m->destination, edition);
    if (r.answer != BROTHLADDER_RECEIVED) {
        printf("refused %u\n", (unsigned)r.refusal);
        return;
    }
    struct brothladder_head h = brothladder_decode(m->packet, m->length);
    if (h.answer != BROTHLADDER_KNOWN || h.type != BROTHLADDER_TYPE_ROUTER_ADVERTISEMENT) {
        printf("received, no advertisement\n");
        return;
    }
    printf("advertisement\n");
    look_up(m->packet + r.options_at, r.options_length, r.options_at);
}

int main(int argc, char **argv) { return each_message("lookups", argc, argv, handle); }
