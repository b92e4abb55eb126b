/* A piece of a kernel that makes every call of the header: compiled with -mcmodel=kernel, without any header of the system, and linked at the top of the
   address space. It is not run. */
#include "brothladder.h"

#define CALL(name, result, ...) (void (*)(void))brothladder_##name,
#define ANSWER(call, answer)
#define MEMBER(name, member, set)
#define END_OF_ANSWER
void (*const every_call[])(void) = {
#include "tables.inc"
};

extern uint8_t frame[1500];

uint32_t entry(size_t length);
uint32_t entry(size_t length) {
    struct brothladder_received r = brothladder_receive(frame + 40, length, frame[7], frame + 8, frame + 24, BROTHLADDER_EDITION_SECOND);
    size_t at = 0;
    if (r.answer != BROTHLADDER_RECEIVED) return r.refusal;
    for (;;) {
        struct brothladder_stepped s = brothladder_step(frame + 40 + r.options_at, r.options_length, r.options_at, at, BROTHLADDER_EDITION_SECOND);
        if (s.answer != BROTHLADDER_OPTION) return s.answer;
        at = s.next;
    }
}

uint8_t frame[1500];
