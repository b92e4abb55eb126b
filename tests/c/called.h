/* Each call of the header by its name, with its arguments by theirs (tests/c/run takes both out of the header): on a stack of a few bytes, with its buffers
   against pages that cannot be touched. */
#ifndef CALLED_H
#define CALLED_H
#include "check.h"

/* Kinds of arguments: b bytes and n numbers that are read, B and N the same to be written, a an address, 1 2 4 8 a number of so many bytes, s a sum. */
enum { MOST_ARGUMENTS = 12, MOST_ANSWER = 128 };

struct call {
    const char *name;
    void (*function)(void);
    size_t size;     /* of its answer; one of 8 bytes is returned in a register */
    struct {
        const char *name;
        char kind;
        size_t bytes; /* of an address */
    } argument[MOST_ARGUMENTS];
};

extern const struct call calls[];
extern const size_t calls_there;

/* What is passed: a number, or bytes (of numbers too) with their length in bytes. */
struct value {
    uint64_t number;
    const uint8_t *bytes;
    size_t length;
};

/* What came of it. */
struct outcome {
    uint8_t answer[MOST_ANSWER];
    size_t stack;        /* if it was counted: bytes below the arguments that were touched, the address to return to among them */
    unsigned long steps; /* instructions, if they were counted */
};

/* How much stack a call may use. */
size_t stack_of(const struct call *call);

/* Makes a call with its bytes on a side, those that it only reads in memory that cannot be written. Its buffers that are written are left in `left`, one
   behind the other. Where a byte is touched that is not lent, the program ends, and says what `on_touch` says. */
enum { ROOM_LEFT = 4096 };
enum counting { NOTHING, STACK, STEPS };
extern void (*on_touch)(void);
struct outcome call_at(const struct call *call, const struct value *values, enum side side, enum counting counting, uint8_t *left);

/* Arguments by chance, by their names, such that every answer comes about: of packets and options by chance, or of one packet, which scene_of sets. The
   packet has at most MOST_PACKET bytes. */
enum { MOST_PACKET = 66000 };
void some_values(const struct call *call, struct value *values);
void scene_of(const uint8_t *packet, size_t n, const uint8_t *source, const uint8_t *destination);
void values_of(const struct call *call, struct value *values);

/* Errors, one in another, around an echo request: what the chain reads. */
size_t some_nest(uint8_t *p);

/* The same call by plain C (plain_calls.c): its answer, and its written buffers as they are left, one behind the other. Whether there is plain C for it. */
int plain_call(const struct call *call, const struct value *values, uint8_t answer[MOST_ANSWER], uint8_t *left);

/* Notes an answer, and holds it to the header's table of members; after a run, whether every row of it came about; and how often each answer and each
   refusal of a call came, as a line. */
void member_check(const struct call *call, const uint8_t *answer);
void members_seen(void);
void members_told(const struct call *call);
#endif
