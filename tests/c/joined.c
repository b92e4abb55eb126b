/* docs/RULES.md J1 to J5, A7 and E6: option lists cut at every place, each somewhere in a packet and in an edition by chance. What the walk of the joined
   bytes hands out is worked out from the walks of the parts, each at its own offset: the indexes are moved, and the places in the packet come out the
   same. */
#include "check.h"
#include <string.h>

enum { LISTS = 1000, MOST = LONGEST / 8 };

struct walk {
    struct item { size_t at, length, place; uint32_t kind, type; } items[MOST];
    size_t count, stop; /* the index where it ended or was refused */
    struct refused end;  /* END, or the refusal */
};

static struct walk walk_over(const uint8_t *options, size_t length, size_t offset, uint32_t edition) {
    struct walk w;
    struct brothladder_stepped s;
    memset(&w, 0, sizeof w);
    for (size_t at = 0; (s = brothladder_step(options, length, offset, at, edition)).answer == BROTHLADDER_OPTION; at = s.next) {
        w.items[w.count].at = s.at;
        w.items[w.count].length = s.length;
        w.items[w.count].place = s.place;
        w.items[w.count].kind = s.kind;
        w.items[w.count++].type = s.type;
        w.stop = s.next;
    }
    memcpy(&w.end, &s, sizeof w.end);
    return w;
}

/* Missing bytes: refusal 7, and the refusal 5 of a remainder of one byte. */
static int missing(const struct refused *end) { return end->refusal == 7 || (end->refusal == 5 && end->value[2] == 1); }

/* A walk, and behind it another with its indexes moved. */
static struct walk then(struct walk a, const struct walk *b, size_t by) {
    for (size_t i = 0; i < b->count; i++) {
        a.items[a.count] = b->items[i];
        a.items[a.count++].at += by;
    }
    a.end = b->end;
    a.stop = b->stop + by;
    return a;
}

static unsigned long clean, lacking, other;

static void cut_at(const uint8_t *bytes, size_t n, size_t offset, uint32_t edition, size_t cut) {
    struct walk a = walk_over(bytes, cut, offset, edition), whole = walk_over(bytes, n, offset, edition), wanted = a;
    if (a.end.answer == BROTHLADDER_END) {
        struct walk b = walk_over(bytes + cut, n - cut, offset + cut, edition);
        wanted = then(a, &b, cut);
        clean++;
    } else if (missing(&a.end)) {
        struct walk unread = walk_over(bytes + a.stop, n - a.stop, offset + a.stop, edition);
        wanted = then(a, &unread, a.stop);
        lacking++;
    } else {
        other++;
    }
    same_answer("joined", &whole, &wanted, sizeof whole);
    check(memcmp(whole.items, a.items, a.count * sizeof a.items[0]) == 0, "joined", "what the first part hands out comes first");
}

void joined(void) {
    for (int i = 0; i < LISTS; i++) {
        uint8_t list[LONGEST] = {0};
        size_t n = some_options(list);
        for (uint32_t k = below(3); k > 0; k--) n = damage(list, n);
        /* near the packet's start, anywhere, or as far on as they may stand */
        uint32_t most = LAST_PLACE - (uint32_t)n, where = below(3);
        size_t offset = where == 0 ? below(64) : where == 1 ? below(most) : most;
        uint32_t edition = some_edition();
        for (size_t cut = 0; cut <= n; cut++) cut_at(list, n, offset, edition, cut);
        both_editions(list, n, offset);
    }
    check(clean >= 500 && lacking >= 500 && other >= 500, "joined", "each way to end comes often");
}
