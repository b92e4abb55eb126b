/* What the examples share: the messages of a capture, one after the other, and how a prefix is printed.
 *
 * A capture is a row of records: a mark, hop limit, source (16 bytes), destination (16), packet length (2, high byte first), packet. The mark is 49 36 of
 * a packet of up to 2,048 bytes, and 49 37 of a longer one, up to 9,000. */
#ifndef MESSAGE_H
#define MESSAGE_H
#include "brothladder.h"
#include <stdio.h>

enum { LONGEST_SHORT = 2048, LONGEST_PACKET = 9000 };

struct message {
    uint8_t hop_limit, source[16], destination[16];
    uint8_t packet[LONGEST_PACKET];
    size_t length;
};

/* The next record. Returns 1, 0 at the end of the capture, and -1 where it is cut or is none. */
static int next_message(FILE *capture, struct message *m) {
    uint8_t head[37];
    size_t n = fread(head, 1, sizeof head, capture);
    if (n == 0) return ferror(capture) ? -1 : 0;
    if (n != sizeof head || head[0] != 0x49 || (head[1] != 0x36 && head[1] != 0x37)) return -1;
    m->hop_limit = head[2];
    for (int i = 0; i < 16; i++) {
        m->source[i] = head[3 + i];
        m->destination[i] = head[19 + i];
    }
    m->length = (size_t)head[35] * 256 + head[36];
    /* each record has one form: the mark is that of the packet's length */
    if (m->length > LONGEST_PACKET || (m->length > LONGEST_SHORT) != (head[1] == 0x37)) return -1;
    return fread(m->packet, 1, m->length, capture) == m->length ? 1 : -1;
}

/* Hands each message of the capture that is named first, or of standard input, to `handle`, with its number from 1 on. Returns what the program NAME is to
   return: 0 if the capture was read to its end. */
static int each_message(const char *name, int argc, char **argv, void (*handle)(unsigned long number, const struct message *m)) {
    static struct message m;
    FILE *capture = argc > 1 ? fopen(argv[1], "rb") : stdin;
    int got = -1;
    for (unsigned long n = 1; capture != NULL && (got = next_message(capture, &m)) == 1; n++) handle(n, &m);
    if (got < 0) fprintf(stderr, "%s: no capture, or one that is cut short\n", name);
    return got < 0 || fflush(stdout) != 0;
}

static void print_prefix(const struct brothladder_prefix *p) {
    printf("  prefix ");
    for (int i = 0; i < 16; i += 2) printf("%s%x", i ? ":" : "", p->prefix[i] * 256 + p->prefix[i + 1]);
    printf("/%u%s%s valid %u preferred %u\n", (unsigned)p->prefix_length, p->on_link ? " on-link" : "", p->autonomous ? " autonomous" : "",
           (unsigned)p->valid_lifetime, (unsigned)p->preferred_lifetime);
}
#endif
