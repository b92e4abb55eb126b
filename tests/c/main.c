/* The calls of brothladder.h, linked and run: all the tests, or those that are named. The last line counts. */
#include "check.h"
#include <stdio.h>
#include <string.h>

static const struct {
    const char *name;
    void (*run)(void);
} tests[] = {
    {"composed", composed}, {"placed", placed},   {"every", every},     {"linear", linear},   {"fields", fields},   {"cases", cases},     {"writes", writes},
    {"forwards", forwards}, {"editions", editions}, {"newer", newer},   {"parts", parts}, {"joined", joined},   {"damaged", damaged}, {"quotes", quotes},
    {"indexes", indexes},   {"splits", splits},   {"lengths", lengths}, {"sums", sums},       {"adders", adders},   {"updates", updates},
    {"windows", windows},     {"editions_compared", editions_compared},
};

int main(int count, char **names) {
    for (size_t i = 0; i < sizeof tests / sizeof *tests; i++) {
        int named = count < 2;
        for (int k = 1; k < count; k++) named |= strcmp(names[k], tests[i].name) == 0;
        if (named) tests[i].run();
    }
    printf("%lu passed, %lu failed\n", passed, failed);
    return failed != 0 || passed == 0;
}
