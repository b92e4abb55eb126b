/* Each call of the header by plain C (plain.h), with its arguments as called.h has them: by place, those that are written as copies. */
#include "called.h"
#include "plain.h"
#include <string.h>

/* Argument i: bytes with their length, numbers with theirs, or a number. */
#define BYTES(i) v[i].bytes, v[i].length
#define NUMBERS(i) (const uint32_t *)(const void *)v[i].bytes, v[i].length / 4
#define OUT(i) (uint8_t *)(uintptr_t)v[i].bytes, v[i].length
#define OUT_NUMBERS(i) (uint32_t *)(uintptr_t)v[i].bytes, v[i].length / 4
#define ADDRESS(i) v[i].bytes
#define N(i) v[i].number
#define BYTE(i) (uint8_t)v[i].number
#define SHORT(i) (uint16_t)v[i].number
#define LONG(i) (uint32_t)v[i].number

static struct brothladder_summed sum_of(uint64_t number) {
    struct brothladder_summed s;
    memcpy(&s, &number, sizeof s);
    return s;
}

#define PLAIN(name, result, gives)                                    \
    static void do_##name(const struct value *v, uint8_t *answer) {   \
        struct brothladder_##result r = gives;                        \
        memcpy(answer, &r, sizeof r);                                 \
    }
#define PLAIN_CALLS                                                                                                                                  \
    PLAIN(chain, chain, plain_chain(BYTES(0), LONG(1)))                                                                                              \
    PLAIN(change_word, updated, plain_change(OUT(0), N(1), SHORT(2)))                                                                                \
    PLAIN(check_plan, checked, plain_check_plan(BYTES(0), N(1), NUMBERS(2), LONG(3)))                                                                \
    PLAIN(decode, head, plain_decode(BYTES(0)))                                                                                                      \
    PLAIN(index_append, indexed, plain_index_append(OUT(0), N(1), OUT_NUMBERS(2), N(3), BYTES(4), LONG(5)))                                          \
    PLAIN(index_build, indexed, plain_index_build(BYTES(0), OUT_NUMBERS(1), LONG(2)))                                                                \
    PLAIN(index_first, found, plain_index_first(NUMBERS(0), N(1), BYTE(2)))                                                                          \
    PLAIN(index_next, found, plain_index_next(NUMBERS(0), N(1), BYTE(2), N(3)))                                                                      \
    PLAIN(plan, planned, plain_plan(BYTES(0), N(1), OUT_NUMBERS(2), LONG(3)))                                                                        \
    PLAIN(plan_message, part, plain_plan_message(BYTES(0), N(1), NUMBERS(2), N(3), LONG(4)))                                                         \
    PLAIN(preference, preferred, plain_preference(BYTES(0)))                                                                                         \
    PLAIN(put_link_layer_address, written, plain_put_link_layer_address(LONG(0), ADDRESS(1), OUT(2), N(3)))                                          \
    PLAIN(put_mtu, written, plain_put_mtu(LONG(0), OUT(1), N(2)))                                                                                    \
    PLAIN(put_prefix, written, plain_put_prefix(BYTE(0), SHORT(1), SHORT(2), LONG(3), LONG(4), ADDRESS(5), OUT(6), N(7)))                            \
    PLAIN(read_dns, servers, plain_dns(BYTES(0), N(1)))                                                                                              \
    PLAIN(read_link_layer_address, bytes, plain_link_layer_address(BYTES(0), N(1), LONG(2)))                                                         \
    PLAIN(read_message, message, plain_message(BYTES(0)))                                                                                            \
    PLAIN(read_mtu, mtu, plain_mtu(BYTES(0), N(1)))                                                                                                  \
    PLAIN(read_prefix, prefix, plain_prefix(BYTES(0), N(1)))                                                                                         \
    PLAIN(read_redirected_header, bytes, plain_redirected_header(BYTES(0), N(1)))                                                                    \
    PLAIN(read_route, route, plain_route(BYTES(0), N(1)))                                                                                            \
    PLAIN(receive, received, plain_receive(BYTES(0), BYTE(1), ADDRESS(2), ADDRESS(3), LONG(4)))                                                      \
    PLAIN(step, stepped, plain_step(BYTES(0), N(1), N(2), LONG(3)))                                                                                  \
    PLAIN(sum, summed, plain_sum(BYTES(0)))                                                                                                          \
    PLAIN(sum_join, summed, plain_sum_join(sum_of(N(0)), sum_of(N(1))))                                                                              \
    PLAIN(sum_pseudo, summed, plain_sum_pseudo(ADDRESS(0), ADDRESS(1), LONG(2)))                                                                     \
    PLAIN(sum_push, summed, plain_sum_join(sum_of(N(0)), plain_sum(BYTES(1))))                                                                       \
    PLAIN(updated_checksum, updated, plain_updated(BYTES(0), N(1), SHORT(2)))                                                                        \
    PLAIN(verify, verified, plain_verify(BYTES(0), ADDRESS(1), ADDRESS(2)))                                                                          \
    PLAIN(verify_by_fours, verified, plain_verify(BYTES(0), ADDRESS(1), ADDRESS(2)))                                                                 \
    PLAIN(write, written, plain_write(BYTE(0), BYTE(1), LONG(2), BYTES(3), ADDRESS(4), ADDRESS(5), OUT(6), LONG(7)))                                 \
    PLAIN(write_clearing, written, plain_write_clearing(BYTE(0), BYTE(1), LONG(2), BYTES(3), ADDRESS(4), ADDRESS(5), OUT(6), LONG(7)))               \
    PLAIN(write_in_place, written, plain_write_in_place(BYTE(0), BYTE(1), LONG(2), OUT(3), ADDRESS(4), ADDRESS(5), LONG(6)))                         \
    PLAIN(write_in_place_clearing, written, plain_write_in_place_clearing(BYTE(0), BYTE(1), LONG(2), OUT(3), ADDRESS(4), ADDRESS(5), LONG(6)))       \
    PLAIN(write_keeping, written, plain_write(BYTE(0), BYTE(1), LONG(2), BYTES(3), ADDRESS(4), ADDRESS(5), OUT(6), LONG(7)))
PLAIN_CALLS

#undef PLAIN
#define PLAIN(name, result, gives) {#name, do_##name},
typedef void plain_function(const struct value *, uint8_t *);
static const struct {
    const char *name;
    plain_function *plain;
} plains[] = {PLAIN_CALLS};

static plain_function *plain_of(const struct call *call) {
    static plain_function *known[64];
    plain_function **p = &known[call - calls];
    for (size_t i = 0; *p == NULL && i < sizeof plains / sizeof *plains; i++)
        if (strcmp(plains[i].name, call->name) == 0) *p = plains[i].plain;
    return *p;
}

int plain_call(const struct call *call, const struct value *values, uint8_t answer[MOST_ANSWER], uint8_t *left) {
    static uint32_t copies[MOST_ARGUMENTS][(MOST_PACKET + 1024) / 4];
    struct value v[MOST_ARGUMENTS];
    plain_function *plain = plain_of(call);
    int i;
    memset(answer, 0, MOST_ANSWER);
    for (i = 0; i < MOST_ARGUMENTS && call->argument[i].name; i++) {
        v[i] = values[i];
        if (call->argument[i].kind != 'B' && call->argument[i].kind != 'N') continue;
        if (v[i].length > 0) memcpy(copies[i], values[i].bytes, v[i].length);
        v[i].bytes = (const uint8_t *)copies[i];
    }
    if (plain) plain(v, answer);
    for (i = 0; i < MOST_ARGUMENTS && call->argument[i].name; i++) {
        if (call->argument[i].kind != 'B' && call->argument[i].kind != 'N') continue;
        memcpy(left, v[i].bytes, v[i].length);
        left += v[i].length;
    }
    return plain != NULL;
}
