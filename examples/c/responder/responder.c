/* What a host sets up by the router advertisements of a capture: default router, MTU, prefixes, routes and DNS servers. Put your own
 * calls in the place of those that print. Nothing is set up before the whole option list was read.
 *
 *     responder [FILE]        reads standard input without FILE */
#include "../message.h"

/* Named once, for every call over a packet: the second edition knows routes and DNS servers. */
static const uint32_t edition = BROTHLADDER_EDITION_SECOND;

enum { MOST = 64 }; /* options that are noted, and the most that an index has */

/* What is noted of a message until its list is known to be whole: where each option is, and of which kind. */
struct noted {
    struct brothladder_stepped option[MOST];
    size_t count;
};

static const char *const preferred[4] = {"medium", "high", "medium", "low"};

static void address(const char *what, const uint8_t *a) {
    printf("  %s ", what);
    for (int i = 0; i < 16; i += 2) printf("%s%x", i ? ":" : "", a[i] * 256 + a[i + 1]);
}

/* The walk. 0 at the end of the list; -1 where what is noted must be forgotten: the list is refused, or longer than we note. */
static int note(const uint8_t *options, size_t length, size_t offset, struct noted *n) {
    size_t at = 0;
    n->count = 0;
    for (;;) {
        struct brothladder_stepped s = brothladder_step(options, length, offset, at, edition);
        if (s.answer == BROTHLADDER_END) return 0;
        if (s.answer != BROTHLADDER_OPTION || n->count == MOST) return -1;
        n->option[n->count++] = s;
        at = s.next;
    }
}

static void set_prefix(const uint8_t *option, const struct brothladder_stepped *s) {
    struct brothladder_prefix p = brothladder_read_prefix(option, s->length, s->place);
    if (p.answer == BROTHLADDER_PREFIX) print_prefix(&p);
}

static void set_route(const uint8_t *option, const struct brothladder_stepped *s) {
    struct brothladder_route r = brothladder_read_route(option, s->length, s->place);
    if (r.answer != BROTHLADDER_ROUTE) return;
    address("route", r.prefix);
    printf("/%u preference %s lifetime %lu\n", (unsigned)r.prefix_length, preferred[r.preference & 3], (unsigned long)r.lifetime);
}

static void set_servers(const uint8_t *option, const struct brothladder_stepped *s) {
    struct brothladder_servers d = brothladder_read_dns(option, s->length, s->place);
    if (d.answer != BROTHLADDER_SERVERS) return;
    for (size_t i = 0; i < d.count; i++) {
        address("dns", option + 8 + 16 * i);
        printf(" lifetime %lu\n", (unsigned long)d.lifetime);
    }
}

/* One option of a kind is asked of the index: a lookup reads no option. */
static void set_mtu(const uint8_t *options, size_t length, size_t offset) {
    uint32_t index[2 * MOST];
    struct brothladder_indexed x = brothladder_index_build(options, length, index, 2 * MOST, edition);
    if (x.answer != BROTHLADDER_INDEXED) return;
    struct brothladder_found f = brothladder_index_first(index, 2 * MOST, x.entries, BROTHLADDER_KIND_MTU);
    if (f.answer != BROTHLADDER_FOUND) return;
    printf("  mtu %lu\n", (unsigned long)brothladder_read_mtu(options + f.at, 8, offset + f.at).mtu);
}

static void respond(unsigned long number, const struct message *m) {
    static struct noted n;
    printf("record %lu\n", number);
    struct brothladder_received r = brothladder_receive(m->packet, m->length, m->hop_limit, m->source, m->destination, edition);
    struct brothladder_head h = brothladder_decode(m->packet, m->length);
    if (r.answer != BROTHLADDER_RECEIVED || h.type != BROTHLADDER_TYPE_ROUTER_ADVERTISEMENT) return;
    const uint8_t *options = m->packet + r.options_at;
    if (note(options, r.options_length, r.options_at, &n) != 0) return;
    address("router", m->source);
    printf(" preference %s lifetime %u\n", preferred[brothladder_preference(m->packet, m->length).preference & 3],
           (unsigned)h.field[BROTHLADDER_FIELD_LIFETIME]);
    set_mtu(options, r.options_length, r.options_at);
    for (size_t i = 0; i < n.count; i++) {
        const struct brothladder_stepped *s = &n.option[i];
        if (s->kind == BROTHLADDER_KIND_PREFIX_INFORMATION) set_prefix(options + s->at, s);
        if (s->kind == BROTHLADDER_KIND_ROUTE_INFORMATION) set_route(options + s->at, s);
        if (s->kind == BROTHLADDER_KIND_RECURSIVE_DNS_SERVERS) set_servers(options + s->at, s);
    }
}

int main(int argc, char **argv) { return each_message("responder", argc, argv, respond); }
