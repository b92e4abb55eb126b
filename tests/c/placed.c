/* Every call at three placements of its buffers and its answer: at the start of a page behind one that cannot be touched, at the end of a page before such a
   one, and at odd addresses in the middle; on a stack of 512 bytes (the chain: 2,048). The three answers are the same, and so is what was written. */
#include "called.h"
#include <stdio.h>
#include <string.h>

#ifndef PLACED
#define PLACED 600
#endif

void placed(void) {
    static const enum side sides[] = {LOW, HIGH, ODD};
    for (size_t c = 0; c < calls_there; c++) {
        size_t most = 0;
        char detail[60];
        for (int round = 0; round < PLACED; round++) {
            static uint8_t left[3][ROOM_LEFT];
            struct value values[MOST_ARGUMENTS];
            struct outcome o[3];
            some_values(&calls[c], values);
            for (int k = 0; k < 3; k++) {
                o[k] = call_at(&calls[c], values, sides[k], STACK, left[k]);
                if (o[k].stack > most) most = o[k].stack;
            }
            check(memcmp(o[0].answer, o[1].answer, MOST_ANSWER) == 0 && memcmp(o[0].answer, o[2].answer, MOST_ANSWER) == 0, calls[c].name, "another answer at another place");
            check(memcmp(left[0], left[1], ROOM_LEFT) == 0 && memcmp(left[0], left[2], ROOM_LEFT) == 0, calls[c].name, "another output at another place");
            member_check(&calls[c], o[0].answer);
        }
        snprintf(detail, sizeof detail, "%zu bytes of stack", most);
        check(most < stack_of(&calls[c]) && most >= 8, calls[c].name, detail);
        if (REPORT) printf("%-18s %5zu bytes of stack were touched\n", calls[c].name, most);
    }
    members_seen();
}
