/* Prints the prefixes of the router advertisements in a capture, each only after its whole option list was read.
 *
 *     prefixes [FILE]        reads standard input without FILE */
#include "message.h"

enum { MOST_PREFIXES = (LONGEST_PACKET - 16) / 32 };

/* Named once, and used for the receive check and the walk alike. Who wants prefixes alone goes by the first edition: a malformed route or list of
   servers, which it hands out as unknown, is no reason to leave the prefixes beside it alone. */
static const uint32_t edition = BROTHLADDER_EDITION_FIRST;

/* What is noted of a message until its list is known to be whole. */
struct noted {
    struct brothladder_prefix prefixes[MOST_PREFIXES];
    size_t count;
};

/* The walk over the options, which begin at `offset` of the packet. Returns 0 at the end of the list, and -1 where what is noted must be
   forgotten. */
static int note_options(const uint8_t *options, size_t length, size_t offset, struct noted *noted) {
    size_t at = 0;
    noted->count = 0;
    for (;;) {
        struct brothladder_stepped s = brothladder_step(options, length, offset, at, edition);
        switch (s.answer) {
        case BROTHLADDER_OPTION:
            if (s.kind == BROTHLADDER_KIND_PREFIX_INFORMATION) {
                struct brothladder_prefix p = brothladder_read_prefix(options + s.at, s.length, s.place);
                if (p.answer != BROTHLADDER_PREFIX || noted->count == MOST_PREFIXES) return -1;
                noted->prefixes[noted->count++] = p;
            }
            at = s.next;
            continue;
        case BROTHLADDER_END:
            return 0;
        default: /* BROTHLADDER_REFUSED, BROTHLADDER_STOPPED: half a list */
            return -1;
        }
    }
}

/* One message: the receive check, then the walk, then the act. */
static void handle(unsigned long number, const struct message *m) {
    static struct noted noted;
    printf("%lu ", number);
    struct brothladder_received r = brothladder_receive(m->packet, m->length, m->hop_limit, m->source, m->destination, edition);
    if (r.answer != BROTHLADDER_RECEIVED) {
        printf("refused %u", (unsigned)r.refusal);
        if (r.refusal == BROTHLADDER_REFUSAL_NOT_RECEIVED) printf(" reason %u", (unsigned)r.value[0]);
        printf("\n");
        return;
    }
    struct brothladder_head h = brothladder_decode(m->packet, m->length);
    if (h.answer != BROTHLADDER_KNOWN || h.type != BROTHLADDER_TYPE_ROUTER_ADVERTISEMENT) {
        printf("received, no advertisement\n");
        return;
    }
    if (note_options(m->packet + r.options_at, r.options_length, r.options_at, &noted) != 0) {
        printf("advertisement left alone\n");
        return;
    }
    printf("advertisement, router lifetime %u\n", (unsigned)h.field[BROTHLADDER_FIELD_LIFETIME]);
    for (size_t i = 0; i < noted.count; i++) print_prefix(&noted.prefixes[i]);
}

int main(int argc, char **argv) { return each_message("prefixes", argc, argv, handle); }
