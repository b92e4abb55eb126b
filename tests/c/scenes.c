/* Arguments by chance, by the name that the header gives them: options are options, the place of a step is mostly that of an option, a plan mostly adds up.
   A name that is not known here gets a number by chance. */
#include "called.h"
#include "plain.h"
#include <string.h>

enum { ROUTER_HOP_LIMIT = 255, BEHIND = 256 };

static struct scene {
    uint8_t packet[MOST_PACKET + 64], options[MOST_PACKET + 64], option[2048], list[MOST_PACKET + BEHIND + 64], more[LONGEST], out[MOST_PACKET + 64];
    uint8_t source[16], destination[16];
    uint32_t index[160], plan[64];
    size_t packet_length, options_length, option_length, more_length, used, entries, planned, at;
} scene;

/* Errors, one in another, around an echo request or a redirect: what the chain reads. */
size_t some_nest(uint8_t *p) {
    size_t n = 0;
    uint32_t deep = below(3) ? below(9) : below(11);
    for (uint32_t k = 0; k < deep; k++) {
        memset(p + n, 0, 48);
        p[n] = (uint8_t)(1 + below(4));
        p[n + 8] = below(40) ? 0x60 : (uint8_t)chance();
        p[n + 14] = below(40) ? 58 : 17;
        n += 48;
    }
    memset(p + n, 0, 8);
    p[n] = 128;
    return n + (below(30) ? 8 : below(8));
}

static void some_packet(void) {
    struct scene *s = &scene;
    memset(s->packet, 0, LONGEST + 2048);
    s->packet_length = some_message(s->packet, s->source, s->destination);
    if (below(4) == 0) s->packet_length = some_nest(s->packet);
    if (below(3) == 0) s->packet_length = damage(s->packet, s->packet_length);
    if (s->packet_length < 8 || below(8) == 0) return;
    unsigned sum = plain_checksum(s->packet, s->packet_length, s->source, s->destination);
    s->packet[2] = (uint8_t)(sum >> 8);
    s->packet[3] = (uint8_t)sum;
}

/* What is made of the options: their index, as far as they walk, the place of one of them, a plan, and a list to put others behind. */
static void listed(void) {
    struct scene *s = &scene;
    size_t at = 0, places[160], n = 0, left, message;
    struct brothladder_stepped t;
    while (n < 70 && (t = plain_step(s->options, s->options_length, 0, at, 1)).answer == BROTHLADDER_OPTION) {
        s->index[2 * n] = t.type;
        s->index[2 * n + 1] = (uint32_t)t.at;
        places[n++] = at;
        at = t.next;
    }
    s->entries = n;
    s->at = n > 0 && below(4) ? places[below((uint32_t)n)] : below(3) ? s->options_length : below((uint32_t)s->options_length + 4);
    for (left = n, message = 0; left > 0 && message < 63; message++) left -= s->plan[message] = 1 + below((uint32_t)left);
    if (n == 0) s->plan[message++] = 0;
    if (below(4) == 0) s->plan[below((uint32_t)message)] = below(5);
    s->planned = message;
    memcpy(s->list, s->options, s->options_length);
    s->used = s->options_length;
    memset(s->list + s->used, (int)below(256), BEHIND);
}

/* A list, mostly in good order, and now and then of more options than an index has entries. */
static void some_list(void) {
    struct scene *s = &scene;
    memset(s->options, 0, LONGEST + 2048);
    s->options_length = some_options(s->options);
    if (below(3) == 0) s->options_length += some_options(s->options + s->options_length);
    if (below(16) == 0)
        for (s->options_length = 0; s->options_length < 8 * (60 + (size_t)below(10)); s->options_length += 8) {
            s->options[s->options_length] = 14;
            s->options[s->options_length + 1] = 1;
        }
    if (below(4) == 0) s->options_length = damage(s->options, s->options_length);
    listed();
}

/* An option by itself, of a type that has a reader. */
static void one_option(void) {
    struct scene *s = &scene;
    s->option_length = some_option(some_type(), s->option);
    if (below(4) == 0) s->option_length = damage(s->option, s->option_length % 60);
}

static struct value bytes(const void *p, size_t n) {
    struct value v = {0, p, n};
    return v;
}

static struct value number(uint64_t n) {
    struct value v = {n, NULL, 0};
    return v;
}

/* What an argument is, by its name. */
enum what { OTHER_BYTES, OTHER_NUMBER, ADDRESS, TO, OPTIONS, AN_OPTION, MORE, LIST, PAYLOAD, ROOM, INDEX, PLAN, EDITION, HOPS, TYPE, CODE, AT, OFFSET, PLACE,
            LIMIT, USED, ENTRIES, KIND, AFTER, WHICH, FLAG };
static const struct {
    const char *name;
    enum what what;
} names[] = {{"destination", TO}, {"options", OPTIONS}, {"option", AN_OPTION}, {"more", MORE}, {"list", LIST}, {"payload", PAYLOAD}, {"out", ROOM},
             {"index", INDEX}, {"plan", PLAN}, {"edition", EDITION}, {"hop_limit", HOPS}, {"type", TYPE}, {"code", CODE}, {"at", AT}, {"offset", OFFSET},
             {"place", PLACE}, {"limit", LIMIT}, {"used", USED}, {"entries", ENTRIES}, {"kind", KIND}, {"after", AFTER}, {"i", WHICH}, {"on_link", FLAG},
             {"autonomous", FLAG}};

static enum what named(const struct call *call, int i) {
    static uint8_t known[64][MOST_ARGUMENTS]; /* one more, 0 where it is not looked up yet */
    uint8_t *k = &known[call - calls][i];
    if (*k) return (enum what)(*k - 1);
    char kind = call->argument[i].kind;
    *k = 1 + (kind == 'a' ? ADDRESS : strchr("bBnN", kind) ? OTHER_BYTES : OTHER_NUMBER);
    for (size_t n = 0; n < sizeof names / sizeof *names; n++)
        if (strcmp(names[n].name, call->argument[i].name) == 0) *k = (uint8_t)(1 + names[n].what);
    return (enum what)(*k - 1);
}

static uint64_t some_number(enum what what, int writes) {
    struct scene *s = &scene;
    switch (what) {
    case EDITION: return some_edition();
    case HOPS: return below(8) ? ROUTER_HOP_LIMIT : below(256);
    case TYPE: return writes ? s->packet[0] : below(2) ? s->index[2 * below((uint32_t)s->entries + 1)] : below(26);
    case CODE: return s->packet[1];
    case AT: return s->at;
    case OFFSET: return below(8) ? below(64) : LAST_PLACE - below(64);
    case PLACE: return below(4) ? 2 * below((uint32_t)(s->packet_length / 2 + 1)) : below(500);
    case LIMIT: return below(4) ? 16 + below((uint32_t)s->options_length + 1) : below(2) ? 4096 : below(64);
    case USED: return below(20) ? s->used : below(64);
    case ENTRIES: return below(20) ? s->entries : below(70);
    case KIND: return 1 + below(2);
    case AFTER: return below(2) ? 0 : s->at;
    case WHICH: return below((uint32_t)s->planned + (below(4) == 0));
    case FLAG: return below(2) ? chance() : 0;
    default: return chance();
    }
}

/* Bytes, and numbers that stand one behind the other. `lent` is the kind of the argument. */
static struct value some_bytes(enum what what, char lent, size_t length) {
    struct scene *s = &scene;
    switch (what) {
    case ADDRESS: return bytes(s->source, length);
    case TO: return bytes(s->destination, length);
    case OPTIONS: return bytes(s->options, s->options_length);
    case AN_OPTION: return bytes(s->option, s->option_length);
    case MORE: return bytes(s->more, s->more_length);
    case LIST: return bytes(s->list, s->used + (below(8) ? BEHIND : below(16)));
    case PAYLOAD: return bytes(s->packet + 8, s->packet_length < 8 ? 0 : s->packet_length - 8);
    case ROOM: return bytes(s->out, below(8) ? s->packet_length + below(48) : below(40));
    case INDEX: return bytes(s->index, 4 * (below(8) ? 160 : below(2) ? 2 * s->entries : below(2 * (uint32_t)s->entries + 1)));
    case PLAN: return bytes(s->plan, 4 * (lent == 'N' && below(4) ? 60 : s->planned));
    default: return bytes(s->packet, s->packet_length);
    }
}

void values_of(const struct call *call, struct value *values) {
    int writes = strncmp(call->name, "write", 5) == 0;
    for (int i = 0; i < MOST_ARGUMENTS && call->argument[i].name; i++) {
        enum what what = named(call, i);
        char kind = call->argument[i].kind;
        int lent = kind == 'a' || kind == 'b' || kind == 'B' || kind == 'n' || kind == 'N';
        values[i] = lent ? some_bytes(what, kind, call->argument[i].bytes) : number(some_number(what, writes));
    }
}

void some_values(const struct call *call, struct value *values) {
    struct scene *s = &scene;
    some_packet();
    some_list();
    one_option();
    s->more_length = some_options(s->more);
    for (size_t i = 0; i < LONGEST + 64; i++) s->out[i] = (uint8_t)chance();
    values_of(call, values);
}

/* The options of a packet; of one that has none, mostly a list by chance, and now and then what stands behind its head. */
static void options_of(const uint8_t *packet, size_t n) {
    struct scene *s = &scene;
    struct brothladder_message m = plain_message(packet, n);
    size_t at = m.answer == BROTHLADDER_MESSAGE && m.options_length > 0 ? m.options_at : n < 8 || below(4) ? n : 8;
    if (at == n) {
        some_list();
        return;
    }
    s->options_length = n - at;
    memcpy(s->options, packet + at, n - at);
    listed();
}

void scene_of(const uint8_t *packet, size_t n, const uint8_t *source, const uint8_t *destination) {
    struct scene *s = &scene;
    size_t units;
    s->more_length = s->options_length < LONGEST ? s->options_length : LONGEST; /* those of the packet before */
    memcpy(s->more, s->options, s->more_length);
    memcpy(s->packet, packet, n);
    s->packet_length = n;
    memcpy(s->source, source, 16);
    memcpy(s->destination, destination, 16);
    options_of(packet, n);
    if (below(4) == 0 || s->at + 2 > s->options_length) {
        one_option();
    } else {
        units = below(8) ? s->options[s->at + 1] : below(5);
        s->option_length = 8 * units < s->options_length - s->at ? 8 * units : s->options_length - s->at;
        memcpy(s->option, s->options + s->at, s->option_length);
    }
    memset(s->out, (int)below(256), n + 64);
}
