/* docs/RULES.md, area Z: a long advertisement in several messages. The worked cases; the header's sending loop; then every list of up to three options of
   8, 16 and 24 bytes under every limit from 15 to 89 with every plan of up to four counts from 0 to 4, beside what the rules say in plain C, and the fewest
   messages by trying every split; then 100,000 lists, limits and plans by chance, in an edition by chance, beside plain_plans.c, with guards round the
   plan. */
#include "check.h"
#include "plain.h"
#include <string.h>

enum { FIRST = BROTHLADDER_EDITION_FIRST, SECOND = BROTHLADDER_EDITION_SECOND };

/* n options of a type, of so many units each, behind the bytes that are there */
static size_t options_of(uint8_t *p, size_t at, unsigned n, uint8_t type, uint8_t units) {
    for (; n > 0; n--, at += 8 * (size_t)units) {
        memset(p + at, 0, 8 * (size_t)units);
        p[at] = type, p[at + 1] = units;
    }
    return at;
}

/* ---- the worked cases, in both editions */
static uint8_t list[8192];
static size_t length;

static void planned(const char *what, size_t limit, size_t messages, const uint32_t *wanted) {
    for (uint32_t edition = FIRST; edition <= SECOND; edition++) {
        uint32_t plan[4] = {7, 7, 7, 7}, left[4] = {7, 7, 7, 7};
        struct brothladder_planned p = brothladder_plan(list, length, limit, plan, messages, edition), w;
        memset(&w, 0, sizeof w);
        w.answer = BROTHLADDER_PLANNED;
        w.messages = messages;
        memcpy(left, wanted, messages * sizeof *wanted);
        same_answer(what, &p, &w, sizeof p);
        check(memcmp(plan, left, sizeof plan) == 0, what, "the plan, and nothing behind it");
        same(what, brothladder_check_plan(list, length, limit, plan, messages, edition).answer, BROTHLADDER_ACCEPTED);
        /* one number less, and 9 with four bytes for each message; nothing is put */
        memset(plan, 0xff, sizeof plan);
        p = brothladder_plan(list, length, limit, plan, messages - 1, edition);
        refuses(what, &p, sizeof p, 9, 4 * messages, 0, 0, 0, 0);
        for (int i = 0; i < 4; i++) same(what, plan[i], 4294967295u);
    }
}

static void no_plan(const char *what, size_t limit) {
    for (uint32_t edition = FIRST; edition <= SECOND; edition++) {
        uint32_t plan[1] = {7};
        struct brothladder_planned p = brothladder_plan(list, length, limit, plan, 1, edition);
        refuses(what, &p, sizeof p, 21, 0, 0, 0, 0, 0);
        same(what, plan[0], 7);
    }
}

static void asked(const char *what, size_t limit, const uint32_t *plan, size_t n, uint32_t wanted) {
    for (uint32_t edition = FIRST; edition <= SECOND; edition++) {
        struct brothladder_checked c = brothladder_check_plan(list, length, limit, plan, n, edition), w;
        memset(&w, 0, sizeof w);
        w.answer = wanted;
        same_answer(what, &c, &w, sizeof c);
    }
}

#define PLAN(...) (const uint32_t[]){__VA_ARGS__}, sizeof(uint32_t[]){__VA_ARGS__} / 4

static void worked(void) {
    enum { YES = BROTHLADDER_ACCEPTED, NO = BROTHLADDER_NOT_ACCEPTED };
    length = 0;
    no_plan("no options at 15", 15);
    planned("no options at 16", 16, 1, (const uint32_t[]){0});
    planned("no options at 1,240", 1240, 1, (const uint32_t[]){0});
    asked("none", 16, PLAN(0), YES);
    asked("none below 16", 15, PLAN(0), NO);
    asked("no plan of none", 16, NULL, 0, NO);
    asked("two messages of none", 16, PLAN(0, 0), NO);
    asked("one of none", 16, PLAN(1), NO);

    length = options_of(list, options_of(list, 0, 2, 1, 1), 1, 3, 4);
    no_plan("8, 8, 32 at 47", 47);
    planned("8, 8, 32 at 48", 48, 2, (const uint32_t[]){2, 1});
    planned("8, 8, 32 at 63", 63, 2, (const uint32_t[]){2, 1});
    planned("8, 8, 32 at 64", 64, 1, (const uint32_t[]){3});
    planned("8, 8, 32 at the highest limit", (size_t)-1, 1, (const uint32_t[]){3});
    asked("3", 64, PLAN(3), YES);
    asked("1, 2", 64, PLAN(1, 2), YES);
    asked("1, 1, 1", 64, PLAN(1, 1, 1), YES);
    asked("none", 64, NULL, 0, NO);
    asked("0, 3", 64, PLAN(0, 3), NO);
    asked("3, 0", 64, PLAN(3, 0), NO);
    asked("4", 64, PLAN(4), NO);
    asked("2", 64, PLAN(2), NO);
    asked("1, 1", 64, PLAN(1, 1), NO);
    asked("2, 2", 64, PLAN(2, 2), NO);
    asked("counts that add up to 3 in 32 bits", 64, PLAN(4294967295u, 4), NO);
    asked("3 below what it takes", 63, PLAN(3), NO);

    length = options_of(list, options_of(list, 0, 2, 1, 1), 40, 3, 4);
    same("two of 8 and forty of 32", length, 1296);
    planned("two of 8 and forty of 32 at 1,240", 1240, 2, (const uint32_t[]){39, 3});
    uint32_t plan[] = {39, 3};
    struct brothladder_part m = brothladder_plan_message(list, length, 1240, plan, 2, 0, FIRST);
    same("the first message", m.at, 0);
    same("the first message", m.length, 1216 - 16);
    m = brothladder_plan_message(list, length, 1240, plan, 2, 1, FIRST);
    same("the second message", m.at, 1200);
    same("the second message", m.length, 112 - 16);
    m = brothladder_plan_message(list, length, 1240, plan, 2, 2, FIRST);
    same("no third message", m.answer, NO);
    same("no third message", m.at + m.length, 0);

    length = options_of(list, 0, 38, 3, 4);
    planned("38 prefixes at 1,231", 1231, 2, (const uint32_t[]){37, 1});
    planned("38 prefixes at 1,232", 1232, 1, (const uint32_t[]){38});
    length = options_of(list, 0, 1, 4, 255);
    no_plan("2,040 bytes at 2,055", 2055);
    planned("2,040 bytes at 2,056", 2056, 1, (const uint32_t[]){1});

    /* the walk's own refusal comes first, whatever plan and limit are */
    length = options_of(list, 0, 1, 1, 1);
    list[length++] = 1;
    struct brothladder_planned p = brothladder_plan(list, length, 0, NULL, 0, SECOND);
    refuses("the last option refused", &p, sizeof p, 5, 1, 2, 1, 8, 0);
    struct brothladder_checked c = brothladder_check_plan(list, length, 0, NULL, 0, SECOND);
    refuses("the last option refused", &c, sizeof c, 5, 1, 2, 1, 8, 0);
    m = brothladder_plan_message(list, length, 0, NULL, 0, 0, SECOND);
    refuses("the last option refused", &m, sizeof m, 5, 1, 2, 1, 8, 0);
    /* a route of four units: whole in the first edition alone */
    length = options_of(list, 0, 1, 24, 4);
    plan[0] = 1;
    same("a route of four units", brothladder_check_plan(list, length, 48, plan, 1, FIRST).answer, YES);
    c = brothladder_check_plan(list, length, 48, plan, 1, SECOND);
    refuses("a route of four units", &c, sizeof c, 5, 24, 24, 32, 0, 0);
}

/* ---- the header's sending loop, as it stands there: what it sends is received, and the options of the messages, joined, are the list */
static const uint8_t source[16] = {0xfe, 0x80, [15] = 1}, destination[16] = {0xff, 2, [15] = 1};
static uint8_t joined_options[sizeof list];
static size_t joined_length, messages_sent;

static void sent(const uint8_t *packet, size_t n) {
    same("sending", brothladder_receive(packet, n, 255, source, destination, FIRST).answer, BROTHLADDER_RECEIVED);
    memcpy(joined_options + joined_length, packet + 16, n - 16);
    joined_length += n - 16;
    messages_sent++;
}

#define send sent
static int sending(const uint8_t *options, size_t limit, const uint32_t *plan, size_t messages) {
    static const uint8_t fixed_part[8] = {0};
    static uint8_t payload[2048], out[2048];
    const uint32_t bytes5to8 = 0x40000708, edition = FIRST;
    const size_t out_length = sizeof out;
    joined_length = messages_sent = 0;
#include "sending.inc"
    return 0;
}
#undef send

static void sends(void) {
    static const uint32_t ours[] = {39, 3}, theirs[] = {1, 20, 21}, fewer[] = {39, 2}, long_one[] = {40, 2};
    length = options_of(list, options_of(list, 0, 2, 1, 1), 40, 3, 4);
    same("sending", (uint64_t)sending(list, 1240, ours, 2), 0);
    check(messages_sent == 2 && joined_length == length && memcmp(joined_options, list, length) == 0, "sending", "by our plan");
    same("sending", (uint64_t)sending(list, 1240, theirs, 3), 0);
    check(messages_sent == 3 && joined_length == length && memcmp(joined_options, list, length) == 0, "sending", "by another");
    check(sending(list, 1240, fewer, 2) == -1 && messages_sent == 0, "sending", "nothing where an option is left over");
    check(sending(list, 1240, long_one, 2) == -1 && messages_sent == 0, "sending", "nothing where a message is beyond the limit");
    list[length++] = 1;
    check(sending(list, 1240, ours, 2) == -1 && messages_sent == 0, "sending", "nothing where the list is refused");
}

/* ---- all small ones */
/* the fewest messages that options i to n - 1 can go into, by trying every first message; 0 if they cannot */
static unsigned fewest(const unsigned *sizes, unsigned i, unsigned n, size_t limit) {
    unsigned best = 0, bytes = 16;
    for (unsigned to = i; to < n; to++) {
        bytes += sizes[to];
        unsigned rest = to + 1 < n ? fewest(sizes, to + 1, n, limit) : 0;
        if (bytes <= limit && (to + 1 == n || rest > 0) && (best == 0 || rest + 1 < best)) best = rest + 1;
    }
    return best;
}

/* Z2, over the sizes */
static int allowed(const unsigned *sizes, unsigned n, size_t limit, const uint32_t *plan, unsigned messages) {
    unsigned taken = 0;
    if (n == 0) return messages == 1 && plan[0] == 0 && limit >= 16;
    for (unsigned i = 0; i < messages; i++) {
        unsigned bytes = 16;
        if (plan[i] == 0 || plan[i] > n - taken) return 0;
        for (uint32_t k = 0; k < plan[i]; k++) bytes += sizes[taken++];
        if (bytes > limit) return 0;
    }
    return taken == n;
}

static unsigned long questions, yes, none_fits;

static void every_plan(const unsigned *sizes, unsigned n, size_t limit) {
    unsigned some = 0, most = n == 0 ? limit >= 16 : fewest(sizes, 0, n, limit);
    for (unsigned messages = 0, numbers = 1; messages <= 4; messages++, numbers *= 5)
        for (unsigned k = 0; k < numbers; k++) {
            uint32_t plan[4];
            for (unsigned i = 0, rest = k; i < messages; i++, rest /= 5) plan[i] = rest % 5;
            int ok = allowed(sizes, n, limit, plan, messages);
            struct brothladder_checked c = brothladder_check_plan(list, length, limit, plan, messages, FIRST);
            check(c.answer == (ok ? BROTHLADDER_ACCEPTED : BROTHLADDER_NOT_ACCEPTED), "every plan", "accepted or not");
            questions++, some += (unsigned)ok;
            if (ok) check(messages >= most, "every plan", "none has fewer messages than the fewest by trying");
        }
    yes += some, none_fits += some == 0;
    uint32_t plan[5] = {7, 7, 7, 7, 7};
    struct brothladder_planned p = brothladder_plan(list, length, limit, plan, 4, FIRST);
    if (some == 0) {
        refuses("every list", &p, sizeof p, 21, 0, 0, 0, 0, 0);
        same("every list", most, 0);
        return;
    }
    same("every list", p.answer, BROTHLADDER_PLANNED);
    same("every list", p.messages, most);
    check(allowed(sizes, n, limit, plan, (unsigned)p.messages), "every list", "our plan is accepted");
    for (size_t i = p.messages; i < 5; i++) same("every list", plan[i], 7);
    size_t at = 0;
    for (size_t i = 0, k = 0; i < p.messages; i++) {
        struct brothladder_part m = brothladder_plan_message(list, length, limit, plan, p.messages, i, FIRST);
        size_t bytes = 0;
        for (uint32_t j = 0; j < plan[i]; j++) bytes += sizes[k++];
        check(m.answer == BROTHLADDER_ACCEPTED && m.at == at && m.length == bytes, "every list", "the parts touch");
        at += bytes;
    }
    same("every list", at, length);
}

static void every_list(void) {
    for (unsigned n = 0, lists = 1; n <= 3; n++, lists *= 3)
        for (unsigned k = 0; k < lists; k++) {
            unsigned sizes[3];
            length = 0;
            for (unsigned i = 0, rest = k; i < n; i++, rest /= 3) {
                sizes[i] = 8 * (1 + rest % 3);
                length = options_of(list, length, 1, 14, (uint8_t)(sizes[i] / 8));
            }
            for (size_t limit = 15; limit <= 89; limit++) every_plan(sizes, n, limit);
        }
    same("questions", questions, 40ul * 75 * 781);
    check(yes > 5000 && none_fits > 500, "every list", "both answers come often");
}

/* ---- by chance */
/* A plan that may be right: counts that add up to the options, cut by chance; then, half of the time, one number is changed. */
static size_t some_plan(uint32_t *plan, size_t count) {
    size_t n = 0, left = count;
    while (left > 0 && n < 15) {
        plan[n] = 1 + below((uint32_t)left);
        left -= plan[n++];
    }
    if (count == 0) plan[n++] = 0;
    if (below(2) == 0) {
        size_t i = below(16);
        plan[i] = below(4) == 0 ? (uint32_t)chance() : below(6);
        if (i >= n) n = i + 1;
    }
    return n;
}

static void some_split(void) {
    static unsigned long counts[64];
    static uint8_t bytes[LONGEST * 8];
    size_t n = 0, count = 0;
    uint32_t edition = some_edition(), plan[16] = {0}, room[16], before[16];
    for (uint32_t k = below(4); k > 0; k--) n += some_options(bytes + n);
    if (below(4) == 0) n = damage(bytes, n);
    for (size_t at = 0;; count++) {
        struct brothladder_stepped s = plain_step(bytes, n, 0, at, edition);
        if (s.answer != BROTHLADDER_OPTION) break;
        at = s.next;
    }
    size_t limit = below(8) == 0 ? (size_t)chance() : below(2) ? 16 + below(64) : below(16 + (uint32_t)n + 8), messages = some_plan(plan, count);
    const uint8_t *o = lend(PACKET, below(2) ? LOW : HIGH, bytes, n);
    const uint32_t *p = (const uint32_t *)(const void *)lend(SOURCE, below(2) ? LOW : HIGH, (const uint8_t *)plan, messages * 4);
    struct brothladder_checked c = brothladder_check_plan(o, n, limit, p, messages, edition), wc = plain_check_plan(bytes, n, limit, plan, messages, edition);
    same_answer("check by chance", &c, &wc, sizeof c);
    counts[c.refusal]++;
    counts[40 + c.answer % 8]++;
    for (size_t i = 0; i <= messages && i < 3; i++) {
        struct brothladder_part m = brothladder_plan_message(o, n, limit, p, messages, i, edition), w = plain_plan_message(bytes, n, limit, plan, messages, i, edition);
        same_answer("message by chance", &m, &w, sizeof m);
    }
    check(stands(PACKET, bytes, n) && stands(SOURCE, (const uint8_t *)plan, messages * 4), "check by chance", "the lent buffers stand");

    size_t numbers = below(17);
    for (size_t i = 0; i < 16; i++) before[i] = room[i] = (uint32_t)chance();
    uint32_t *out = (uint32_t *)(void *)lend(OUT, below(2) ? LOW : HIGH, (const uint8_t *)before, numbers * 4);
    struct brothladder_planned made = brothladder_plan(o, n, limit, out, numbers, edition), wm = plain_plan(bytes, n, limit, room, numbers, edition);
    same_answer("plan by chance", &made, &wm, sizeof made);
    check(stands(OUT, (const uint8_t *)room, numbers * 4), "plan by chance", "the plan, and all else as it was");
    counts[made.refusal]++;
    counts[50 + made.answer % 8]++;
    if (made.answer == BROTHLADDER_PLANNED) {
        same("plan by chance", brothladder_check_plan(o, n, limit, out, made.messages, edition).answer, BROTHLADDER_ACCEPTED);
        if (c.answer == BROTHLADDER_ACCEPTED) check(made.messages <= messages, "plan by chance", "no accepted plan has fewer messages");
    }
    if (questions++ == PACKETS - 1) {
        static const uint8_t numbers_seen[] = {5, 6, 7, 9, 18, 21};
        for (size_t i = 0; i < sizeof numbers_seen; i++) check(counts[numbers_seen[i]] >= PACKETS / 1000, "by chance", "each refusal comes often");
        check(counts[40 + BROTHLADDER_ACCEPTED % 8] >= PACKETS / 20 && counts[40 + BROTHLADDER_NOT_ACCEPTED % 8] >= PACKETS / 20 &&
                  counts[50 + BROTHLADDER_PLANNED % 8] >= PACKETS / 20, "by chance", "each answer comes often");
    }
}

void splits(void) {
    worked();
    sends();
    every_list();
    questions = 0;
    for (long i = 0; i < PACKETS; i++) some_split();
}
