/* The header's table of which members each answer sets, held to what the calls answer: a member that the table does not name is 0 in every such answer, and
   one that it names was seen to be set. tests/c/run takes the table out of the header. */
#include "called.h"
#include <stdio.h>
#include <string.h>

enum { MOST_MEMBERS = 12 };

#define CALL(name, result, ...)
#define ANSWER(call, answer) {#call, #answer, BROTHLADDER_##answer, {
#define MEMBER(name, member, set) {#member, offsetof(struct brothladder_##name, member), sizeof((struct brothladder_##name *)0)->member, set, 0},
#define END_OF_ANSWER {NULL, 0, 0, 0, 0}}, 0},
static struct row {
    const char *call, *name;
    uint32_t answer;
    struct member {
        const char *name;
        size_t at, size;
        char set; /* + or - */
        unsigned long seen;
    } member[MOST_MEMBERS];
    unsigned long seen;
} rows[] = {
#include "tables.inc"
};
enum { ROWS = sizeof rows / sizeof *rows };

/* The row of an answer, looked up by name once; and how often each refusal came. */
enum { MOST_CALLS = 64, ANSWERS = 32, REFUSALS = 32 };
static struct row *row_of[MOST_CALLS][ANSWERS];
static unsigned long refusals[MOST_CALLS][REFUSALS];

static struct row *row(const struct call *call, uint32_t number) {
    struct row **kept = &row_of[call - calls][number % ANSWERS];
    if (*kept && (*kept)->answer == number) return *kept;
    for (int i = 0; i < ROWS; i++)
        if (rows[i].answer == number && strcmp(rows[i].call, call->name) == 0) return *kept = &rows[i];
    return NULL;
}

static int any(const uint8_t *p, size_t n) {
    static const uint8_t zeros[MOST_ANSWER];
    return memcmp(p, zeros, n) != 0;
}

void member_check(const struct call *call, const uint8_t *answer) {
    struct refused a;
    char what[80];
    memcpy(&a, answer, sizeof a);
    struct row *found = row(call, a.answer);
    if (found == NULL) {
        snprintf(what, sizeof what, "%s: the table of members has no answer %u", call->name, a.answer);
        check(0, what, "");
        return;
    }
    found->seen++;
    if (a.answer == BROTHLADDER_REFUSED) refusals[call - calls][a.refusal % REFUSALS]++;
    for (struct member *m = found->member; m->name; m++) {
        int set = any(answer + m->at, m->size);
        m->seen += (unsigned long)set;
        if (!set || m->set == '+') continue;
        snprintf(what, sizeof what, "%s, %s: the table of members has no %s", call->name, found->name, m->name);
        check(0, what, "");
    }
    check(1, "", "");
}

void members_told(const struct call *call) {
    unsigned long all = 0;
    for (int i = 0; i < ROWS; i++)
        if (strcmp(rows[i].call, call->name) == 0) all += rows[i].seen;
    printf("%-24s %lu calls:", call->name, all);
    for (int i = 0; i < ROWS; i++)
        if (strcmp(rows[i].call, call->name) == 0 && rows[i].answer != BROTHLADDER_REFUSED) printf(" %s %lu", rows[i].name, rows[i].seen);
    for (int i = 0; i < REFUSALS; i++)
        if (refusals[call - calls][i]) printf(", refused %d: %lu", i, refusals[call - calls][i]);
    puts("");
}

void members_seen(void) {
    char what[80];
    for (int i = 0; i < ROWS; i++) {
        snprintf(what, sizeof what, "%s, %s", rows[i].call, rows[i].name);
        check(rows[i].seen > 0, what, "no such answer came");
        for (struct member *m = rows[i].member; m->name; m++)
            if (m->set == '+') {
                snprintf(what, sizeof what, "%s, %s: the table of members has %s", rows[i].call, rows[i].name, m->name);
                check(m->seen > 0, what, "and it was never set");
            }
    }
}
